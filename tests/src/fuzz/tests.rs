//! The laws hold over the reference, and what breaks one is noticed.

use super::*;
use crate::ciphers::tea;

/// The reference, but what it leaves is spoiled; `spoil` is told what was lent.
struct Spoiled {
    spoil: fn(lent: &Lent, left: &mut Left),
}

struct Lent {
    inverse: bool,
    store: Vec<u64>,
}

impl Implementation for Spoiled {
    fn check(&self, image: &[u8]) -> (u64, u64) {
        Reference.check(image)
    }

    fn run(&self, Call { image, inverse, lengths, store, work, budget, trace }: Call) -> Answer {
        let lent = Lent { inverse, store: store.to_vec() };
        let answer = Reference.run(Call { image, inverse, lengths, store, work, budget, trace });
        let mut left = Left { answer, store: store.to_vec(), work: work.to_vec(), trace: trace.to_vec() };
        (self.spoil)(&lent, &mut left);
        store.copy_from_slice(&left.store);
        work.copy_from_slice(&left.work);
        trace.copy_from_slice(&left.trace);
        left.answer
    }
}

/// Sealing under TEA, with every law tried on it.
fn laws_over_tea(spoil: fn(&Lent, &mut Left)) -> Result<(), String> {
    let raw = tea();
    let (image, store) = (raw.bytes(), vec![1, 2, 3, 4, 5, 6]);
    let given = Given { image, inverse: false, lengths: vec![4, 2], store, works: WORK_WORDS, budget: 1_000, room: 5 };
    laws_hold(&Spoiled { spoil }, &mut Random::new(5), &given, &raw, &laws::parameters(&raw), &mut Counts::default())
}

#[test]
fn laws_hold_over_the_reference() {
    let counts = fuzz(400, 1, Some(&Reference)).unwrap();
    assert!(counts.verdicts[&0] > 100);
    laws_over_tea(|_, _| ()).unwrap();
}

#[test]
fn a_word_left_in_work_is_noticed() {
    let forgetful = Spoiled {
        spoil: |_, left| {
            if left.answer.number == 27 {
                left.work[0] = 1;
            }
        },
    };
    assert!(fuzz(2_000, 1, Some(&forgetful)).is_err());
}

#[test]
fn an_inverse_that_does_nothing_is_noticed() {
    let fault = laws_over_tea(|lent, left| {
        if lent.inverse {
            left.store.clone_from(&lent.store);
        }
    });
    assert!(fault.unwrap_err().starts_with("the other direction does not restore the store"));
}

#[test]
fn a_trace_that_tells_the_key_is_noticed() {
    let fault = laws_over_tea(|lent, left| {
        // The first entry of a cell, so that steps still are the node entries.
        if let Some(entry) = left.trace.get_mut(2) {
            *entry = 65_536 + (lent.store[0] % 60_000) as u32;
        }
    });
    assert!(fault.unwrap_err().starts_with("secrets change the trace"));
}
