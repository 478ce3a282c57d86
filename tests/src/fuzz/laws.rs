//! What document 01 demands of every run, tried on an implementation.

use super::random::Random;
use super::{outcome, Counts, Implementation, Left};
use crate::cases::{Given, Outcome};
use crate::image::Raw;
use crate::reference::WORK_WORDS;

const FIRST_CELL_ENTRY: u32 = 65_536;
const FINISHED: u64 = 0;
const LAST_BEFORE_RUN: u64 = 22;
const BUDGET: u64 = 23;
const SECRET_LEFT: u64 = 27;

/// A parameter of the last procedure, as far as a damaged image still has it.
#[derive(Clone, Copy, Debug)]
pub struct Parameter {
    pub array: bool,
    pub secret: bool,
    pub size: u8,
}

pub fn parameters(raw: &Raw) -> Vec<Parameter> {
    let Some(last) = raw.procedures.last() else {
        return Vec::new();
    };
    raw.variables
        .iter()
        .skip(last.first as usize)
        .take(last.parameters as usize)
        .map(|v| Parameter { array: v.kind == 1, secret: v.secrecy == 1, size: v.size.clamp(1, 64) })
        .collect()
}

fn demand(holds: bool, fault: &str) -> Result<(), String> {
    if holds {
        Ok(())
    } else {
        Err(fault.to_string())
    }
}

/// Store, work and trace as lent back.
pub fn lent(by: &dyn Implementation, given: &Given, left: &Left) -> Result<(), String> {
    let whole = outcome(by, given);
    let mut trace = whole.events.clone();
    trace.resize(given.room, 0);
    let answer = left.answer;
    let refused = answer.number != FINISHED;
    demand(left.work == vec![0; given.works], "work is not all 0")?;
    demand(left.trace == trace, "trace is not the first entries, then zeros")?;
    demand(answer.entries == whole.events.len() as u64, "entries")?;
    demand(!refused || left.store == given.store, "a refusal changed the store")?;
    let early = (1..=LAST_BEFORE_RUN).contains(&answer.number);
    demand(!early || (answer.steps, answer.entries) == (0, 0), "steps before the run")?;
    demand(refused || answer.place == 0, "a place on 0")
}

/// Steps are the trace's node entries; they suffice as budget, and one less is refused by 23.
pub fn steps_and_budget(by: &dyn Implementation, given: &Given) -> Result<(), String> {
    let whole = outcome(by, given);
    let nodes = whole.events.iter().filter(|e| **e < FIRST_CELL_ENTRY).count();
    demand(nodes as u64 == whole.steps, "steps are not the node entries")?;
    demand(whole.steps <= u64::from(given.budget), "more steps than the budget")?;
    if whole.steps == 0 || whole.number == BUDGET {
        return Ok(());
    }
    let exact = Given { budget: whole.steps as u32, ..given.clone() };
    demand(outcome(by, &exact) == whole, "the steps as budget change the run")?;
    let short = outcome(by, &Given { budget: exact.budget - 1, ..exact });
    demand(short.number == BUDGET && short.steps + 1 == whole.steps, "one step less is not 23")?;
    demand(whole.events.starts_with(&short.events), "a smaller budget changes the trace")
}

/// Demand 2.
pub fn reversible(by: &dyn Implementation, given: &Given, counts: &mut Counts) -> Result<(), String> {
    let there = outcome(by, given);
    if there.number != FINISHED {
        return Ok(());
    }
    counts.reversed += 1;
    let budget = there.steps as u32;
    let back = outcome(by, &Given { inverse: !given.inverse, store: there.store, works: WORK_WORDS, budget, ..given.clone() });
    demand(back.number == FINISHED, "the other direction is refused")?;
    demand(back.steps == there.steps, "the other direction takes other steps")?;
    demand(back.store == given.store, "the other direction does not restore the store")
}

/// Demand 3, over a second store that differs in secret cells only.
pub fn secret(by: &dyn Implementation, random: &mut Random, given: &Given, types: &[Parameter], counts: &mut Counts) -> Result<(), String> {
    let first = outcome(by, given);
    if (1..=21).contains(&first.number) {
        return Ok(());
    }
    let secret_cells = secret_cells(types, &given.lengths);
    let mut other = given.clone();
    for (cell, size) in secret_cells.iter().enumerate() {
        if let Some(size) = size {
            other.store[cell] = random.cell(*size);
        }
    }
    let second = outcome(by, &other);
    if first.number == SECRET_LEFT || second.number == SECRET_LEFT {
        counts.secret_prefixes += 1;
        return shorter_begins_longer(&first, &second);
    }
    counts.secret_pairs += 1;
    let told = |o: &Outcome| (o.number, o.place, o.steps);
    demand(told(&first) == told(&second), "secrets change number, place or steps")?;
    demand(first.events == second.events, "secrets change the trace")?;
    let public_equal = (0..secret_cells.len()).all(|cell| secret_cells[cell].is_some() || first.store[cell] == second.store[cell]);
    demand(public_equal, "secrets change a public cell")
}

fn shorter_begins_longer(first: &Outcome, second: &Outcome) -> Result<(), String> {
    let (short, long) = if first.steps <= second.steps { (first, second) } else { (second, first) };
    demand(long.events.starts_with(&short.events), "27: the shorter trace does not begin the longer")?;
    demand(short.steps < long.steps || short.events == long.events, "27: equal steps, other entries")
}

/// For each cell of the store its size where it is secret.
fn secret_cells(types: &[Parameter], lengths: &[u64]) -> Vec<Option<u8>> {
    let mut cells = Vec::new();
    for (parameter, length) in types.iter().zip(lengths) {
        let mark = parameter.secret.then_some(parameter.size);
        cells.extend((0..*length).map(|_| mark));
    }
    cells
}
