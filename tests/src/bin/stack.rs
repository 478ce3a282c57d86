//! `stack`: for each of the jobs that need most stack, the least of a row of sizes in which the static library does it. A job that
//! overflows its stack ends the process, so each try is a process of its own, `stack JOB KIB`, with a thread of that size.

use bench_tests::fuzz::Implementation;
use bench_tests::hostile;
use bench_tests::library::Library;
use bench_tests::reference::{Call, WORK_WORDS};
use std::hint::black_box;
use std::process::{Command, Stdio};
use std::thread;

const SIZES_IN_KIB: [usize; 12] = [64, 128, 256, 384, 512, 768, 1_024, 1_536, 2_048, 3_072, 4_096, 8_192];
const BUDGET: u32 = 10_000;

type Job = (String, Box<dyn FnOnce() + Send>);

fn checks(name: &str, image: Vec<u8>) -> Job {
    let job = move || {
        black_box(Library.check(&image));
    };
    (format!("check: {name}"), Box::new(job))
}

fn runs(name: &str, image: Vec<u8>, inverse: bool) -> Job {
    let direction = if inverse { "inverse" } else { "forward" };
    let job = move || {
        let mut work = vec![0; WORK_WORDS];
        let answer =
            Library.run(Call { image: &image, inverse, lengths: &[], store: &mut [], work: &mut work, budget: BUDGET, trace: &mut [] });
        assert_eq!(answer.number, 0);
    };
    (format!("run {direction}: {name}"), Box::new(job))
}

fn jobs() -> Vec<Job> {
    let mut jobs: Vec<Job> = hostile::images().into_iter().map(|(name, image)| checks(name, image)).collect();
    jobs.push(checks("4,094 arguments", hostile::long_call()));
    for inverse in [false, true] {
        jobs.push(runs("4,095 statements in a block", hostile::long_list(), inverse));
        jobs.push(runs("32 levels in each of 32 procedures", hostile::deepest_run(), inverse));
    }
    jobs
}

fn works_in(name: &str, kib: usize) -> bool {
    let this = std::env::current_exe().expect("a path to this program");
    let status = Command::new(this).args([name, &kib.to_string()]).stderr(Stdio::null()).status();
    status.is_ok_and(|status| status.success())
}

fn try_one(name: &str, kib: usize) {
    let (_, job) = jobs().into_iter().find(|(job, _)| job == name).expect("a job's name");
    thread::Builder::new().stack_size(kib * 1_024).spawn(job).expect("a thread").join().expect("an answer");
}

fn main() {
    let words: Vec<String> = std::env::args().skip(1).collect();
    if let [name, kib] = &words[..] {
        return try_one(name, kib.parse().expect("a number of KiB"));
    }
    for (name, _) in jobs() {
        match SIZES_IN_KIB.into_iter().find(|kib| works_in(&name, *kib)) {
            Some(kib) => println!("{name:<60} {kib:>6} KiB"),
            None => println!("{name:<60} more than {} KiB", SIZES_IN_KIB[SIZES_IN_KIB.len() - 1]),
        }
    }
}
