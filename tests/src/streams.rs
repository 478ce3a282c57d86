//! Runs as streams that the programs crates/ciphers and crates/turns read, and the lines that they have to print.

mod turns;
mod vectors;

use crate::cases::Given;
use crate::fuzz::Left;
use crate::samples::File;
use std::fmt::Display;
use std::path::PathBuf;

/// A run and what it has to leave.
pub struct Told {
    name: String,
    given: Given,
    left: Left,
}

/// The folder of the crates, which `files` goes into.
pub fn folder() -> PathBuf {
    PathBuf::from(concat!(env!("CARGO_MANIFEST_DIR"), "/../crates"))
}

/// What each of the two programs reads, and what it has to print.
pub fn files() -> Vec<File> {
    let of = |name: &str, runs: &[Told]| [(format!("{name}/stdin"), stream(runs)), (format!("{name}/stdout"), lines(runs).into_bytes())];
    [of("ciphers", &vectors::runs()), of("turns", &turns::runs())].concat()
}

fn stream(runs: &[Told]) -> Vec<u8> {
    let mut bytes = Vec::new();
    runs.iter().for_each(|run| push_run(&mut bytes, run));
    push_word(&mut bytes, 0);
    bytes
}

fn push_run(bytes: &mut Vec<u8>, Told { name, given, .. }: &Told) {
    let lists = [given.image.len(), name.len(), usize::from(given.inverse), given.lengths.len(), given.store.len()];
    lists.iter().chain(&[given.works, given.room]).for_each(|number| push_word(bytes, *number));
    bytes.extend(u64::from(given.budget).to_le_bytes());
    bytes.extend(name.as_bytes());
    bytes.extend(&given.image);
    given.lengths.iter().chain(&given.store).for_each(|word| bytes.extend(word.to_le_bytes()));
}

fn push_word(bytes: &mut Vec<u8>, word: usize) {
    bytes.extend(u16::try_from(word).expect("16 bits").to_le_bytes());
}

fn lines(runs: &[Told]) -> String {
    runs.iter().map(line).collect()
}

/// `NAME | forward | store CELLS -> CELLS | number N place P steps S entries E | work clear | trace ENTRIES`: a space before each
/// item, cells in hexadecimal, everything else in decimal, and the whole trace slice.
fn line(Told { name, given, left }: &Told) -> String {
    let direction = if given.inverse { "inverse" } else { "forward" };
    let cells = |store: &[u64]| spaced(store.iter().map(|cell| format!("{cell:x}")));
    let store = format!("store{} ->{}", cells(&given.store), cells(&left.store));
    let answer = &left.answer;
    let numbers = format!("number {} place {} steps {} entries {}", answer.number, answer.place, answer.steps, answer.entries);
    let work = if left.work.iter().all(|word| *word == 0) { "clear" } else { "left" };
    format!("{name} | {direction} | {store} | {numbers} | work {work} | trace{}\n", spaced(left.trace.iter()))
}

fn spaced(items: impl Iterator<Item = impl Display>) -> String {
    items.map(|item| format!(" {item}")).collect()
}

#[cfg(test)]
mod tests {
    use super::*;
    use crate::commands::answering;
    use crate::fuzz::left_by;
    use std::collections::BTreeSet;

    #[test]
    fn the_crates_hold_what_the_program_writes() {
        for (name, bytes) in files() {
            let found = std::fs::read(folder().join(&name)).unwrap_or_default();
            assert!(found == bytes, "crates/{name} is not what the program streams writes");
        }
    }

    #[test]
    fn the_streams_are_shorter_than_the_buffer() {
        for (name, bytes) in files() {
            assert!(bytes.len() < 65_536, "{name}: {}", bytes.len());
        }
    }

    #[test]
    fn every_answer_in_both_directions() {
        let met: BTreeSet<(u64, bool)> = turns::runs().iter().map(|run| (run.left.answer.number, run.given.inverse)).collect();
        for number in [0].into_iter().chain(19..=28) {
            assert!(met.contains(&(number, false)) && met.contains(&(number, true)), "{number}");
        }
    }

    /// Takes little-endian numbers off the front.
    struct Reader(std::vec::IntoIter<u8>);

    impl Reader {
        fn number(&mut self, bytes: usize) -> u64 {
            (0..bytes).fold(0, |sum, i| sum | u64::from(self.0.next().expect("a longer stream")) << (8 * i))
        }

        fn numbers(&mut self, count: u64, bytes: usize) -> Vec<u64> {
            (0..count).map(|_| self.number(bytes)).collect()
        }

        fn bytes(&mut self, count: u64) -> Vec<u8> {
            self.numbers(count, 1).iter().map(|byte| *byte as u8).collect()
        }

        /// The run at the front, whose image has this many bytes.
        fn told(&mut self, image_length: u64) -> Told {
            let head = self.numbers(6, 2);
            let budget = self.number(8) as u32;
            let name = String::from_utf8(self.bytes(head[0])).unwrap();
            let image = self.bytes(image_length);
            let (lengths, store) = (self.numbers(head[2], 8), self.numbers(head[3], 8));
            let (works, room) = (head[4] as usize, head[5] as usize);
            let given = Given { image, inverse: head[1] == 1, lengths, store, works, budget, room };
            let left = left_by(answering(), &given);
            Told { name, given, left }
        }
    }

    #[test]
    fn a_reader_of_a_stream_prints_its_lines() {
        for file in files().chunks(2) {
            let mut reader = Reader(file[0].1.clone().into_iter());
            let mut printed = String::new();
            loop {
                match reader.number(2) {
                    0 => break,
                    image_length => printed.push_str(&line(&reader.told(image_length))),
                }
            }
            assert!(printed.into_bytes() == file[1].1, "{}", file[1].0);
            assert_eq!(reader.0.next(), None);
        }
    }
}
