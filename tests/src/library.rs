//! The static library, made to answer like the reference. The declarations are those of include/hermes.h.

use crate::fuzz::Implementation;
use crate::reference::{Answer, Call};

extern "C" {
    fn hermes_check(image: *const u8, image_len: usize, answer: *mut u64, answer_len: usize);

    fn hermes_run(
        image: *const u8,
        image_len: usize,
        inverse: bool,
        lengths: *const u64,
        lengths_len: usize,
        store: *mut u64,
        store_len: usize,
        work: *mut u64,
        work_len: usize,
        budget: u32,
        trace: *mut u32,
        trace_len: usize,
        answer: *mut u64,
        answer_len: usize,
    );
}

/// What an answer holds before the call; the library has to write over all of it.
const STALE: u64 = 0x5A5A_5A5A_5A5A_5A5A;

pub struct Library;

/// The answer in a slice of any length.
pub fn check_into(image: &[u8], answer: &mut [u64]) {
    // The slices are whole and, by their borrows, do not overlap.
    unsafe { hermes_check(image.as_ptr(), image.len(), answer.as_mut_ptr(), answer.len()) }
}

pub fn run_into(Call { image, inverse, lengths, store, work, budget, trace }: Call, answer: &mut [u64]) {
    // The slices are whole and, by their borrows, do not overlap.
    unsafe {
        hermes_run(
            image.as_ptr(),
            image.len(),
            inverse,
            lengths.as_ptr(),
            lengths.len(),
            store.as_mut_ptr(),
            store.len(),
            work.as_mut_ptr(),
            work.len(),
            budget,
            trace.as_mut_ptr(),
            trace.len(),
            answer.as_mut_ptr(),
            answer.len(),
        )
    }
}

impl Implementation for Library {
    fn check(&self, image: &[u8]) -> (u64, u64) {
        let mut answer = [STALE; 2];
        check_into(image, &mut answer);
        (answer[0], answer[1])
    }

    fn run(&self, call: Call) -> Answer {
        let mut answer = [STALE; 4];
        run_into(call, &mut answer);
        let [number, place, steps, entries] = answer;
        Answer { number, place, steps, entries }
    }
}

#[cfg(test)]
mod tests {
    use super::*;
    use crate::cases::{check_cases, run_cases, Given};
    use crate::ciphers::published;
    use crate::fuzz::{fuzz, left_by, Reference};
    use crate::hostile;
    use crate::reference::WORK_WORDS;

    #[test]
    fn every_case() {
        for case in check_cases() {
            assert_eq!(Library.check(&case.image), case.expected, "{}", case.name);
        }
        for case in run_cases() {
            assert_eq!(left_by(&Library, &case.given), left_by(&Reference, &case.given), "{}", case.name);
        }
    }

    #[test]
    fn published_vectors_both_ways() {
        for vector in published::vectors() {
            let cipher = vector.cipher();
            let text = cipher.store(&vector.key, &vector.text);
            let sealed = cipher.store(&vector.key, &vector.sealed);
            for (inverse, from, to) in [(false, &text, &sealed), (true, &sealed, &text)] {
                let (image, lengths, store) = (cipher.image(), cipher.lengths(), from.clone());
                let left = left_by(&Library, &Given { image, inverse, lengths, store, works: WORK_WORDS, budget: 100_000, room: 9 });
                assert_eq!((left.answer.number, &left.store), (0, to), "{}", vector.source);
            }
        }
    }

    #[test]
    fn hostile_images() {
        for (name, image) in hostile::images() {
            assert_eq!(Library.check(&image), Reference.check(&image), "{name}");
        }
    }

    #[test]
    fn answers_as_far_as_they_fit_then_zeros() {
        let image = crate::image::single(&[], &[], crate::image::Stmt::Empty).bytes();
        let whole = [0, 0, 1, 1, 0, 0];
        for length in 0..whole.len() {
            let mut answer = vec![STALE; length];
            let work = &mut [STALE; WORK_WORDS];
            let call = Call { image: &image, inverse: false, lengths: &[], store: &mut [], work, budget: 1, trace: &mut [] };
            run_into(call, &mut answer);
            assert_eq!(answer, whole[..length]);
            answer.fill(STALE);
            check_into(&image[..19], &mut answer);
            assert_eq!(answer, [1, 0, 0, 0, 0, 0][..length]);
        }
    }

    #[test]
    fn random_images_and_laws() {
        fuzz(2_000, 3, Some(&Library)).unwrap();
    }
}
