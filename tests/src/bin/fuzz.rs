//! `fuzz CASES SEED`: random programs and runs against the laws of document 01, and against the static library where the
//! feature `library` links it.

use bench_tests::fuzz::{fuzz, Counts};
use bench_tests::linked;

fn main() {
    let mut numbers = std::env::args().skip(1).map(|a| a.parse::<u64>());
    let (Some(Ok(cases)), Some(Ok(seed))) = (numbers.next(), numbers.next()) else {
        eprintln!("usage: fuzz CASES SEED");
        std::process::exit(2);
    };
    match fuzz(cases, seed, linked()) {
        Ok(counts) => print(&counts),
        Err(fault) => {
            eprintln!("{fault}");
            std::process::exit(1);
        }
    }
}

fn print(counts: &Counts) {
    let over = if linked().is_some() { "reference and library agree; laws over both" } else { "laws over the reference alone" };
    println!("{over}");
    println!("images {}, accepted {}", counts.images, counts.verdicts.get(&0).unwrap_or(&0));
    println!("verdicts {:?}", counts.verdicts);
    println!("answers {:?}", counts.answers);
    println!("runs reversed {}", counts.reversed);
    println!("secret pairs {}, of them by the prefix clause {}", counts.secret_pairs + counts.secret_prefixes, counts.secret_prefixes);
}
