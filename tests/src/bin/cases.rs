//! Prints every case on one line, after asserting that the reference answers what the case expects.
//!
//! `NAME | check | bytes | number place`
//! `NAME | run | bytes | inverse | lengths | store | works | budget | room | number place steps | store after | events`
//!
//! Lists are decimals with single spaces, `-` when empty; events are the whole trace, whatever the room.

use bench_tests::cases::{assert_check, assert_run, check_cases, check_line, run_cases, run_line};
use std::collections::BTreeMap;
use std::io::{BufWriter, Write};

fn main() -> std::io::Result<()> {
    let mut out = BufWriter::new(std::io::stdout().lock());
    let mut verdicts = BTreeMap::new();
    for case in check_cases() {
        assert_check(&case);
        *verdicts.entry(case.expected.0).or_insert(0) += 1;
        writeln!(out, "{}", check_line(&case))?;
    }
    let mut answers = BTreeMap::new();
    for case in run_cases() {
        let outcome = assert_run(&case);
        *answers.entry(outcome.number).or_insert(0) += 1;
        writeln!(out, "{}", run_line(&case, &outcome))?;
    }
    out.flush()?;
    eprintln!("checks by verdict: {verdicts:?}");
    eprintln!("runs by answer: {answers:?}");
    Ok(())
}
