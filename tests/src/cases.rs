//! Named small cases with what is expected of them, and the lines that `bin/cases` prints.

mod form_low;
mod form_nodes;
mod runs;
mod runs_refused;
pub mod tea;
mod turns;
mod walk;
mod walk_types;

use crate::reference::{check, run, Answer, Call, WORK_WORDS};
use std::fmt::Display;

pub struct CheckCase {
    pub name: String,
    pub image: Vec<u8>,
    pub expected: (u64, u64),
}

pub fn checked(name: &str, image: Vec<u8>, number: u64, place: u64) -> CheckCase {
    CheckCase { name: name.to_string(), image, expected: (number, place) }
}

/// What is lent to a run.
#[derive(Clone)]
pub struct Given {
    pub image: Vec<u8>,
    pub inverse: bool,
    pub lengths: Vec<u64>,
    pub store: Vec<u64>,
    pub works: usize,
    pub budget: u32,
    pub room: usize,
}

impl Given {
    /// A run of it over these slices.
    pub fn call<'a>(&'a self, store: &'a mut [u64], work: &'a mut [u64], trace: &'a mut [u32]) -> Call<'a> {
        Call { image: &self.image, inverse: self.inverse, lengths: &self.lengths, store, work, budget: self.budget, trace }
    }
}

/// All that a run leaves, `events` being the whole trace however long.
#[derive(Clone, PartialEq, Eq, Debug)]
pub struct Outcome {
    pub number: u64,
    pub place: u64,
    pub steps: u64,
    pub store: Vec<u64>,
    pub events: Vec<u32>,
}

pub struct RunCase {
    pub name: String,
    pub given: Given,
    pub number: u64,
    pub place: u64,
    pub steps: Option<u64>,
    pub entries: Option<usize>,
    pub after: Option<Vec<u64>>,
}

/// A forward run with enough of everything, expected to finish.
pub fn ran(name: &str, image: Vec<u8>, lengths: &[u64], store: &[u64]) -> RunCase {
    RunCase {
        name: name.to_string(),
        given: Given { image, inverse: false, lengths: lengths.to_vec(), store: store.to_vec(), works: WORK_WORDS, budget: 1_000, room: 8 },
        number: 0,
        place: 0,
        steps: None,
        entries: None,
        after: None,
    }
}

impl RunCase {
    pub fn inverse(mut self) -> Self {
        self.given.inverse = true;
        self
    }

    pub fn budget(mut self, budget: u32) -> Self {
        self.given.budget = budget;
        self
    }

    pub fn works(mut self, works: usize) -> Self {
        self.given.works = works;
        self
    }

    pub fn room(mut self, room: usize) -> Self {
        self.given.room = room;
        self
    }

    pub fn gives(mut self, store: &[u64]) -> Self {
        self.after = Some(store.to_vec());
        self
    }

    pub fn refused(mut self, number: u64, place: u64) -> Self {
        self.number = number;
        self.place = place;
        self.after = Some(self.given.store.clone());
        self
    }

    pub fn steps(mut self, steps: u64) -> Self {
        self.steps = Some(steps);
        self
    }

    pub fn entries(mut self, entries: usize) -> Self {
        self.entries = Some(entries);
        self
    }
}

pub fn check_cases() -> Vec<CheckCase> {
    [turns::checks(), form_low::checks(), form_nodes::checks(), walk::checks(), walk_types::checks()].into_iter().flatten().collect()
}

pub fn run_cases() -> Vec<RunCase> {
    [turns::starred(), unstarred_turns(), finished_runs(), refused_runs(), tea::runs()].into_iter().flatten().collect()
}

pub fn unstarred_turns() -> Vec<RunCase> {
    turns::unstarred()
}

pub fn finished_runs() -> Vec<RunCase> {
    runs::runs()
}

pub fn refused_runs() -> Vec<RunCase> {
    runs_refused::runs()
}

/// The reference's outcome, run again with a trace slice as long as the first run asked for.
pub fn outcome(given: &Given) -> Outcome {
    let (answer, _, _) = lent(given, 0);
    let (again, store, events) = lent(given, answer.entries as usize);
    assert_eq!(again, answer, "the room changes the answer");
    Outcome { number: answer.number, place: answer.place, steps: answer.steps, store, events }
}

/// Runs the reference on a copy of the store and a dirty work; work must come back all 0.
pub fn lent(given: &Given, room: usize) -> (Answer, Vec<u64>, Vec<u32>) {
    let mut store = given.store.clone();
    let mut work = vec![0x5A5A; given.works];
    let mut trace = vec![7; room];
    let answer = run(given.call(&mut store, &mut work, &mut trace));
    assert!(work.iter().all(|w| *w == 0), "work is not all 0");
    (answer, store, trace)
}

/// Panics, naming the case, unless the reference answers what the case expects.
pub fn assert_check(case: &CheckCase) {
    assert_eq!(check(&case.image), case.expected, "{}", case.name);
}

pub fn assert_run(case: &RunCase) -> Outcome {
    let name = &case.name;
    let outcome = outcome(&case.given);
    let met = (outcome.number, outcome.place);
    assert_eq!(met, (case.number, case.place), "{name}: number and place");
    if let Some(steps) = case.steps {
        assert_eq!(outcome.steps, steps, "{name}: steps");
    }
    if let Some(entries) = case.entries {
        assert_eq!(outcome.events.len(), entries, "{name}: entries");
    }
    if let Some(after) = &case.after {
        assert_eq!(&outcome.store, after, "{name}: store");
    }
    let (_, _, trace) = lent(&case.given, case.given.room);
    let mut expected = outcome.events.clone();
    expected.resize(case.given.room, 0);
    assert_eq!(trace, expected, "{name}: trace slice");
    outcome
}

/// Decimals with single spaces between them; `-` for none.
pub fn decimals<T: Display>(list: &[T]) -> String {
    if list.is_empty() {
        return "-".to_string();
    }
    let words: Vec<String> = list.iter().map(T::to_string).collect();
    words.join(" ")
}

pub fn check_line(case: &CheckCase) -> String {
    let (number, place) = case.expected;
    format!("{} | check | {} | {number} {place}", case.name, decimals(&case.image))
}

pub fn run_line(case: &RunCase, outcome: &Outcome) -> String {
    let given = &case.given;
    let Outcome { number, place, steps, store, events } = outcome;
    [
        case.name.clone(),
        "run".to_string(),
        decimals(&given.image),
        u8::from(given.inverse).to_string(),
        decimals(&given.lengths),
        decimals(&given.store),
        given.works.to_string(),
        given.budget.to_string(),
        given.room.to_string(),
        format!("{number} {place} {steps}"),
        decimals(store),
        decimals(events),
    ]
    .join(" | ")
}

#[cfg(test)]
mod tests {
    use super::*;

    #[test]
    fn starred_turns() {
        turns::checks().iter().for_each(assert_check);
        turns::starred().iter().for_each(|case| {
            assert_run(case);
        });
    }

    #[test]
    fn every_case_is_met_and_named_once() {
        let checks = check_cases();
        let runs = run_cases();
        checks.iter().for_each(assert_check);
        runs.iter().for_each(|case| {
            assert_run(case);
        });
        let mut names: Vec<&String> = checks.iter().map(|c| &c.name).collect();
        names.extend(runs.iter().map(|c| &c.name));
        let count = names.len();
        names.sort();
        names.dedup();
        assert_eq!(names.len(), count, "a name is used twice");
        assert!(names.iter().all(|n| !n.contains('|')), "a name holds the separator");
    }

    #[test]
    fn published_cipher_vector() {
        let outcomes: Vec<Outcome> = tea::runs().iter().map(assert_run).collect();
        assert_eq!(outcomes[0].store[4..], [0x41EA_3A0A, 0x94BA_A940]);
    }
}
