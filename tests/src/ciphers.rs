//! Ciphers twice: as Hermes programs, and as plain Rust written from their public descriptions, with published vectors.

mod plain;
mod programs;
pub mod published;

pub use programs::tea;

use crate::image::Raw;

/// How many words, and of how many bits each.
#[derive(Clone, Copy, PartialEq, Eq, Debug)]
pub struct Words {
    pub count: usize,
    pub size: u8,
}

/// A Hermes program that seals, and the plain cipher that it has to agree with. The program's parameters are, in this order,
/// what is lent of the key, the text and the tables, each a secret array.
pub struct Cipher {
    pub name: &'static str,
    pub program: fn() -> Raw,
    pub key: Words,
    pub text: Words,
    /// What is lent of the key: itself, or the round keys where the program cannot make them.
    pub schedule: fn(&[u64]) -> Vec<u64>,
    pub tables: fn() -> Vec<Vec<u64>>,
    /// The plain cipher, from key and text.
    pub seal: fn(&[u64], &[u64]) -> Vec<u64>,
    pub open: fn(&[u64], &[u64]) -> Vec<u64>,
}

impl Cipher {
    pub fn image(&self) -> Vec<u8> {
        (self.program)().bytes()
    }

    pub fn lengths(&self) -> Vec<u64> {
        let schedule = (self.schedule)(&vec![0; self.key.count]);
        let mut lengths = vec![schedule.len() as u64, self.text.count as u64];
        lengths.extend((self.tables)().iter().map(|table| table.len() as u64));
        lengths
    }

    pub fn store(&self, key: &[u64], text: &[u64]) -> Vec<u64> {
        let mut store = (self.schedule)(key);
        store.extend_from_slice(text);
        store.extend((self.tables)().concat());
        store
    }
}

fn itself(key: &[u64]) -> Vec<u64> {
    key.to_vec()
}

fn no_tables() -> Vec<Vec<u64>> {
    Vec::new()
}

pub fn ciphers() -> Vec<Cipher> {
    vec![tea_cipher(), rc5_cipher(), speck_cipher(), red_pike_cipher(), aes_cipher()]
}

pub fn named(name: &str) -> Cipher {
    ciphers().into_iter().find(|cipher| cipher.name == name).expect("a known cipher")
}

fn tea_cipher() -> Cipher {
    Cipher {
        name: "tea",
        program: programs::tea,
        key: Words { count: 4, size: 32 },
        text: Words { count: 2, size: 32 },
        schedule: itself,
        tables: no_tables,
        seal: plain::tea::seal,
        open: plain::tea::open,
    }
}

fn rc5_cipher() -> Cipher {
    Cipher {
        name: "rc5",
        program: programs::rc5,
        key: Words { count: 16, size: 8 },
        text: Words { count: 2, size: 32 },
        schedule: plain::rc5::schedule,
        tables: no_tables,
        seal: plain::rc5::seal,
        open: plain::rc5::open,
    }
}

fn speck_cipher() -> Cipher {
    Cipher {
        name: "speck128",
        program: programs::speck128,
        key: Words { count: 2, size: 64 },
        text: Words { count: 2, size: 64 },
        schedule: itself,
        tables: no_tables,
        seal: plain::speck128::seal,
        open: plain::speck128::open,
    }
}

fn red_pike_cipher() -> Cipher {
    Cipher {
        name: "red-pike",
        program: programs::red_pike,
        key: Words { count: 2, size: 32 },
        text: Words { count: 2, size: 32 },
        schedule: itself,
        tables: no_tables,
        seal: plain::red_pike::seal,
        open: plain::red_pike::open,
    }
}

fn aes_cipher() -> Cipher {
    Cipher {
        name: "aes128",
        program: programs::aes128,
        key: Words { count: 16, size: 8 },
        text: Words { count: 16, size: 8 },
        schedule: itself,
        tables: plain::aes128::tables,
        seal: plain::aes128::seal,
        open: plain::aes128::open,
    }
}

#[cfg(test)]
mod tests {
    use super::*;
    use crate::cases::{lent, Given};
    use crate::fuzz::random::Random;
    use crate::reference::{check, WORK_WORDS};

    const RANDOM_VECTORS: usize = 200;
    const BUDGET: u32 = 100_000;

    fn random_words(random: &mut Random, words: Words) -> Vec<u64> {
        (0..words.count).map(|_| random.word() & (u64::MAX >> (64 - words.size))).collect()
    }

    /// Forward gives the plain cipher's store, inverse restores; `lent` panics unless work is all 0.
    fn assert_sealed_and_opened(cipher: &Cipher, key: &[u64], text: &[u64]) {
        let store = cipher.store(key, text);
        let forward =
            Given { image: cipher.image(), inverse: false, lengths: cipher.lengths(), store, works: WORK_WORDS, budget: BUDGET, room: 0 };
        let (there, sealed, _) = lent(&forward, 0);
        assert_eq!((there.number, there.place), (0, 0), "{}", cipher.name);
        assert_eq!(sealed, cipher.store(key, &(cipher.seal)(key, text)), "{}", cipher.name);
        let (back, opened, _) = lent(&Given { inverse: true, store: sealed, ..forward.clone() }, 0);
        assert_eq!((back.number, back.steps), (0, there.steps), "{}", cipher.name);
        assert_eq!(opened, forward.store, "{}", cipher.name);
    }

    #[test]
    fn every_program_is_accepted() {
        for cipher in ciphers() {
            assert_eq!(check(&cipher.image()), (0, 0), "{}", cipher.name);
        }
    }

    #[test]
    fn plain_ciphers_meet_the_published_vectors() {
        for vector in published::vectors() {
            let cipher = vector.cipher();
            assert_eq!((cipher.seal)(&vector.key, &vector.text), vector.sealed, "{}", vector.source);
            assert_eq!((cipher.open)(&vector.key, &vector.sealed), vector.text, "{}", vector.source);
        }
    }

    #[test]
    fn programs_meet_the_published_vectors() {
        for vector in published::vectors() {
            assert_sealed_and_opened(&vector.cipher(), &vector.key, &vector.text);
        }
    }

    #[test]
    fn programs_meet_the_plain_ciphers_on_random_vectors() {
        let mut random = Random::new(11);
        for cipher in ciphers() {
            for _ in 0..RANDOM_VECTORS {
                let key = random_words(&mut random, cipher.key);
                let text = random_words(&mut random, cipher.text);
                assert_eq!((cipher.open)(&key, &(cipher.seal)(&key, &text)), text, "{}", cipher.name);
                assert_sealed_and_opened(&cipher, &key, &text);
            }
        }
    }
}
