//! Random programs, damaged ones and runs: the laws of document 01 over the reference, and the same laws over a second
//! implementation and a comparison with it, where one is given.

mod damage;
mod generate;
mod laws;
pub(crate) mod random;

use crate::cases::{Given, Outcome};
use crate::image::{assemble, Raw};
use crate::reference::{self, Answer, Call, WORK_WORDS};
use random::Random;
use std::collections::BTreeMap;

const UNSAFE_KIND: u8 = 23;
const RUNS_PER_IMAGE: usize = 4;

/// Whatever answers as document 01 says; a static library takes part by one more of these.
pub trait Implementation {
    fn check(&self, image: &[u8]) -> (u64, u64);

    fn run(&self, call: Call) -> Answer;
}

pub struct Reference;

impl Implementation for Reference {
    fn check(&self, image: &[u8]) -> (u64, u64) {
        reference::check(image)
    }

    fn run(&self, call: Call) -> Answer {
        reference::run(call)
    }
}

/// Everything that a run leaves behind, what was lent included.
#[derive(PartialEq, Eq, Debug)]
pub struct Left {
    pub answer: Answer,
    pub store: Vec<u64>,
    pub work: Vec<u64>,
    pub trace: Vec<u32>,
}

pub fn left_by(implementation: &dyn Implementation, given: &Given) -> Left {
    let mut store = given.store.clone();
    let mut work = vec![u64::MAX; given.works];
    let mut trace = vec![u32::MAX; given.room];
    let answer = implementation.run(given.call(&mut store, &mut work, &mut trace));
    Left { answer, store, work, trace }
}

/// What a run leaves with room for its whole trace.
pub fn outcome(implementation: &dyn Implementation, given: &Given) -> Outcome {
    let entries = left_by(implementation, &Given { room: 0, ..given.clone() }).answer.entries as usize;
    let Left { answer, store, trace, .. } = left_by(implementation, &Given { room: entries, ..given.clone() });
    Outcome { number: answer.number, place: answer.place, steps: answer.steps, store, events: trace }
}

/// The last three count runs of both implementations.
#[derive(Default, Debug)]
pub struct Counts {
    pub images: u64,
    pub verdicts: BTreeMap<u64, u64>,
    pub answers: BTreeMap<u64, u64>,
    pub reversed: u64,
    pub secret_pairs: u64,
    pub secret_prefixes: u64,
}

/// Counts what was met, or tells the first case that broke a law or on which the two differ.
pub fn fuzz(cases: u64, seed: u64, second: Option<&dyn Implementation>) -> Result<Counts, String> {
    let mut random = Random::new(seed);
    let mut counts = Counts::default();
    for number in 0..cases {
        one_case(&mut random, second, &mut counts).map_err(|fault| format!("case {number} of seed {seed}: {fault}"))?;
    }
    Ok(counts)
}

fn one_case(random: &mut Random, second: Option<&dyn Implementation>, counts: &mut Counts) -> Result<(), String> {
    let mut raw = assemble(&generate::program(random));
    if random.chance(300) {
        damage::records(random, &mut raw);
    }
    let types = laws::parameters(&raw);
    let mut image = raw.bytes();
    if random.chance(60) {
        damage::bytes(random, &mut image);
    }
    let verdict = Reference.check(&image);
    counts.images += 1;
    *counts.verdicts.entry(verdict.0).or_default() += 1;
    compare_checks(&image, verdict, second)?;
    for _ in 0..RUNS_PER_IMAGE {
        let given = random_run(random, &image, &types);
        one_run(random, &given, &raw, &types, second, counts)?;
    }
    Ok(())
}

fn compare_checks(image: &[u8], verdict: (u64, u64), second: Option<&dyn Implementation>) -> Result<(), String> {
    match second.map(|other| other.check(image)) {
        Some(other) if other != verdict => Err(format!("verdicts {verdict:?} and {other:?} on {image:?}")),
        _ => Ok(()),
    }
}

fn one_run(
    random: &mut Random,
    given: &Given,
    raw: &Raw,
    types: &[laws::Parameter],
    second: Option<&dyn Implementation>,
    counts: &mut Counts,
) -> Result<(), String> {
    let left = left_by(&Reference, given);
    *counts.answers.entry(left.answer.number).or_default() += 1;
    laws_hold(&Reference, random, given, raw, types, counts)?;
    let Some(other) = second else {
        return Ok(());
    };
    let differs = left_by(other, given);
    if differs != left {
        return Err(format!("{} {left:?} and {differs:?}", told(given)));
    }
    laws_hold(other, random, given, raw, types, counts).map_err(|fault| format!("second implementation: {fault}"))
}

fn laws_hold(
    by: &dyn Implementation,
    random: &mut Random,
    given: &Given,
    raw: &Raw,
    types: &[laws::Parameter],
    counts: &mut Counts,
) -> Result<(), String> {
    // Damaged bytes may have another secrecy than the records tell.
    let records_tell = raw.bytes() == given.image;
    let has_unsafe = raw.nodes.iter().any(|n| n.kind == UNSAFE_KIND);
    laws::lent(by, given, &left_by(by, given))
        .and_then(|()| laws::steps_and_budget(by, given))
        .and_then(|()| laws::reversible(by, given, counts))
        .and_then(|()| match records_tell && !has_unsafe {
            true => laws::secret(by, random, given, types, counts),
            false => Ok(()),
        })
        .map_err(|fault| format!("{fault}: {}", told(given)))
}

fn told(given: &Given) -> String {
    format!(
        "image {:?} inverse {} lengths {:?} store {:?} works {} budget {} room {}",
        given.image, given.inverse, given.lengths, given.store, given.works, given.budget, given.room
    )
}

fn random_run(random: &mut Random, image: &[u8], types: &[laws::Parameter]) -> Given {
    let mut lengths = Vec::new();
    let mut store = Vec::new();
    for parameter in types {
        let length = match (parameter.array, random.below(12)) {
            (false, _) => 1,
            (true, 0) => 0,
            (true, _) => 2 + random.below(3),
        };
        lengths.push(length);
        store.extend((0..length).map(|_| random.cell(parameter.size)));
    }
    if random.chance(25) {
        damage::lengths(random, &mut lengths, &mut store);
    }
    if random.chance(25) {
        damage::cell(random, &mut store);
    }
    Given {
        image: image.to_vec(),
        inverse: random.chance(500),
        lengths,
        store,
        works: if random.chance(10) { random.below(8_192) as usize } else { WORK_WORDS },
        budget: if random.chance(200) { random.below(40) } else { 3_000 } as u32,
        room: random.below(60) as usize,
    }
}

#[cfg(test)]
mod tests;
