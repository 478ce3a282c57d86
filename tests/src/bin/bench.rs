//! Times the static library against the Rust reference, side by side in one process: runs in steps a second, checks in
//! microseconds. A run checks its image first, on both sides. Each number is the best of several repetitions.

use bench_tests::ciphers::ciphers;
use bench_tests::fuzz::{Implementation, Reference};
use bench_tests::hostile;
use bench_tests::library::Library;
use bench_tests::reference::{Call, WORK_WORDS};
use std::hint::black_box;
use std::time::Instant;

const REPETITIONS: usize = 25;
/// A repetition calls until about this is over: longer than the clock's grain, shorter than the machine's time slices.
const REPETITION_SECONDS: f64 = 0.002;
/// For what takes longer than that by itself.
const FEW_REPETITIONS: usize = 5;
const LOOP_TURNS: u64 = 2_500_000;

struct Run {
    name: String,
    image: Vec<u8>,
    lengths: Vec<u64>,
    store: Vec<u64>,
}

fn seconds(calls: u64, call: &mut dyn FnMut()) -> f64 {
    let start = Instant::now();
    for _ in 0..calls {
        call();
    }
    start.elapsed().as_secs_f64() / calls as f64
}

/// The best seconds a call of each, in turns, so that a slow moment of the machine falls on both.
fn best(mut calls: [&mut dyn FnMut(); 2]) -> [f64; 2] {
    let counts = calls.each_mut().map(|call| (REPETITION_SECONDS / seconds(1, *call)) as u64 + 1);
    let mut best = [f64::INFINITY; 2];
    for _ in 0..if counts == [1, 1] { FEW_REPETITIONS } else { REPETITIONS } {
        for side in 0..2 {
            best[side] = best[side].min(seconds(counts[side], calls[side]));
        }
    }
    best
}

fn run_by(by: &dyn Implementation, run: &Run, store: &mut [u64], work: &mut [u64]) -> u64 {
    store.copy_from_slice(&run.store);
    let image = black_box(&run.image);
    let answer = by.run(Call { image, inverse: false, lengths: &run.lengths, store, work, budget: u32::MAX, trace: &mut [] });
    assert_eq!(answer.number, 0, "{}", run.name);
    answer.steps
}

fn time_run(run: &Run) {
    let buffers = || (run.store.clone(), vec![0; WORK_WORDS]);
    let ((mut store, mut work), (mut other_store, mut other_work)) = (buffers(), buffers());
    let steps = run_by(&Reference, run, &mut store, &mut work);
    let mut library = || {
        black_box(run_by(&Library, run, &mut store, &mut work));
    };
    let mut reference = || {
        black_box(run_by(&Reference, run, &mut other_store, &mut other_work));
    };
    let [of_library, of_reference] = best([&mut library, &mut reference]);
    let millions = |seconds: f64| steps as f64 / seconds / 1e6;
    let (a, b) = (millions(of_library), millions(of_reference));
    println!("{:<34} {steps:>10} {a:>12.2} {b:>12.2} {:>8.2}", run.name, a / b);
}

fn time_check(name: &str, image: &[u8]) {
    let mut library = || {
        black_box(Library.check(black_box(image)));
    };
    let mut reference = || {
        black_box(Reference.check(black_box(image)));
    };
    let [of_library, of_reference] = best([&mut library, &mut reference]).map(|seconds| seconds * 1e6);
    println!("{name:<34} {:>10} {of_library:>12.2} {of_reference:>12.2} {:>8.2}", image.len(), of_library / of_reference);
}

fn runs() -> Vec<Run> {
    let mut runs = Vec::new();
    for cipher in ciphers() {
        let store = cipher.store(&vec![7; cipher.key.count], &vec![5; cipher.text.count]);
        runs.push(Run { name: cipher.name.to_string(), image: cipher.image(), lengths: cipher.lengths(), store });
    }
    let image = hostile::long_loop(LOOP_TURNS);
    runs.push(Run { name: "loop".to_string(), image, lengths: vec![1], store: vec![0] });
    runs
}

fn main() {
    println!("{:<34} {:>10} {:>12} {:>12} {:>8}", "run", "steps", "library M/s", "reference", "ratio");
    runs().iter().for_each(time_run);
    println!("\n{:<34} {:>10} {:>12} {:>12} {:>8}", "check", "bytes", "library us", "reference", "ratio");
    for cipher in ciphers() {
        time_check(cipher.name, &cipher.image());
    }
    for (name, image) in hostile::images() {
        time_check(name, &image);
    }
}
