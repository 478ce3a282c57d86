//! What the programs `verdict` and `run` print.

use crate::fuzz::{Implementation, Reference};
use crate::linked;
use crate::reference::{Call, WORK_WORDS};

const BUDGET: u32 = 1_000_000;

/// The static library where it is linked, else the reference.
pub fn answering() -> &'static dyn Implementation {
    linked().unwrap_or(&Reference)
}

/// Document 01's one line.
pub fn verdict(by: &dyn Implementation, image: &[u8]) -> String {
    let (number, place) = by.check(image);
    format!("verdict {number} {place}\n")
}

/// The answer and the store after a run; none where the words are not direction, lengths and store.
pub fn run(by: &dyn Implementation, words: &[&str], image: &[u8]) -> Option<String> {
    let [direction, lengths, store] = words else {
        return None;
    };
    let inverse = match *direction {
        "forward" => false,
        "inverse" => true,
        _ => return None,
    };
    let lengths = numbers(lengths, 10)?;
    let mut store = numbers(store, 16)?;
    let work = &mut vec![0; WORK_WORDS];
    let answer = by.run(Call { image, inverse, lengths: &lengths, store: &mut store, work, budget: BUDGET, trace: &mut [] });
    let (number, place, steps, entries) = (answer.number, answer.place, answer.steps, answer.entries);
    Some(format!("answer {number} {place} steps {steps} entries {entries}\nstore {}\n", hexadecimals(&store)))
}

/// `-` is the empty list.
fn numbers(list: &str, radix: u32) -> Option<Vec<u64>> {
    if list == "-" {
        return Some(Vec::new());
    }
    list.split(',').map(|word| u64::from_str_radix(word, radix).ok()).collect()
}

/// Lower-case hexadecimals without leading zeros, single spaces between them; `-` for none.
pub fn hexadecimals(cells: &[u64]) -> String {
    if cells.is_empty() {
        return "-".to_string();
    }
    let words: Vec<String> = cells.iter().map(|cell| format!("{cell:x}")).collect();
    words.join(" ")
}
