//! Published vectors, sealed and opened. Stores come from the plain ciphers, steps and entries from the reference.

use super::Told;
use crate::cases::Given;
use crate::ciphers::{named, published};
use crate::fuzz::{left_by, Left, Reference};
use crate::reference::WORK_WORDS;

const BUDGET: u32 = 1_000_000;

fn run(name: &str, source: &str, key: &[u64], text: &[u64], inverse: bool) -> Told {
    let cipher = named(name);
    let opened = cipher.store(key, text);
    let sealed = cipher.store(key, &(cipher.seal)(key, text));
    let (store, after) = if inverse { (sealed, opened) } else { (opened, sealed) };
    let given = Given { image: cipher.image(), inverse, lengths: cipher.lengths(), store, works: WORK_WORDS, budget: BUDGET, room: 0 };
    let left = Left { store: after, ..left_by(&Reference, &given) };
    Told { name: source.to_string(), given, left }
}

pub fn runs() -> Vec<Told> {
    let mut runs = Vec::new();
    for vector in [published::tea(), published::rc5(), published::speck128()].iter().flatten() {
        for inverse in [false, true] {
            runs.push(run(vector.cipher, vector.source, &vector.key, &vector.text, inverse));
        }
    }
    for inverse in [false, true] {
        runs.push(run("red-pike", "Red Pike, not published", &[0x0123_4567, 0x89AB_CDEF], &[0x0011_2233, 0x4455_6677], inverse));
    }
    // Each carries 14 KB of tables: one vector forward and the other inverse.
    for (vector, inverse) in published::aes128().iter().zip([false, true]) {
        runs.push(run("aes128", vector.source, &vector.key, &vector.text, inverse));
    }
    runs
}
