//! FIPS 197: AES-128. The state is 16 bytes, column after column.

use super::{bytes, cells};
use std::sync::OnceLock;

const ROUNDS: usize = 10;
const KEY_WORDS: usize = 4;
const SCHEDULE_WORDS: usize = 4 * (ROUNDS + 1);
const POLYNOMIAL: u8 = 0x1B;
const AFFINE: u8 = 0x63;

type State = [u8; 16];

/// FIPS 197, 4.2.1: multiplication by x.
fn xtime(byte: u8) -> u8 {
    let reduced = if byte & 0x80 == 0 { 0 } else { POLYNOMIAL };
    (byte << 1) ^ reduced
}

/// FIPS 197, 4.2: the product in GF(2^8).
fn product(left: u8, right: u8) -> u8 {
    let mut power = left;
    let mut sum = 0;
    for bit in 0..8 {
        if right >> bit & 1 == 1 {
            sum ^= power;
        }
        power = xtime(power);
    }
    sum
}

/// The multiplicative inverse, 0 for 0.
fn reciprocal(byte: u8) -> u8 {
    (0..=255).find(|other| product(byte, *other) == 1).unwrap_or(0)
}

/// FIPS 197, 5.1.1: the inverse, then the affine map.
fn substituted(byte: u8) -> u8 {
    let b = reciprocal(byte);
    b ^ b.rotate_left(1) ^ b.rotate_left(2) ^ b.rotate_left(3) ^ b.rotate_left(4) ^ AFFINE
}

/// The S-box, worked out once.
fn substitution() -> &'static [u8; 256] {
    static SBOX: OnceLock<[u8; 256]> = OnceLock::new();
    SBOX.get_or_init(|| std::array::from_fn(|byte| substituted(byte as u8)))
}

fn undone(substitution: &[u8; 256]) -> [u8; 256] {
    let mut inverse = [0; 256];
    for (byte, image) in (0..=255).zip(substitution) {
        inverse[usize::from(*image)] = byte;
    }
    inverse
}

/// What the Hermes program takes: the S-box, its inverse, and the products with 03, 0e, 0b, 0d and 09.
pub fn tables() -> Vec<Vec<u64>> {
    let sbox = substitution();
    let mut tables = vec![cells(sbox), cells(&undone(sbox))];
    for factor in [0x03, 0x0E, 0x0B, 0x0D, 0x09] {
        tables.push((0..=255).map(|byte| u64::from(product(byte, factor))).collect());
    }
    tables
}

fn looked_up(table: &[u8; 256], byte: u8) -> u8 {
    table[usize::from(byte)]
}

/// FIPS 197, 5.2.
fn schedule(key: State, sbox: &[u8; 256]) -> Vec<[u8; 4]> {
    let mut words: Vec<[u8; 4]> = key.chunks(4).map(|chunk| std::array::from_fn(|i| chunk[i])).collect();
    let mut constant = 1;
    for i in KEY_WORDS..SCHEDULE_WORDS {
        let mut word = words[i - 1];
        if i % KEY_WORDS == 0 {
            word.rotate_left(1);
            word = word.map(|byte| looked_up(sbox, byte));
            word[0] ^= constant;
            constant = xtime(constant);
        }
        let before = words[i - KEY_WORDS];
        words.push(std::array::from_fn(|row| word[row] ^ before[row]));
    }
    words
}

fn with_round_key(state: State, words: &[[u8; 4]], round: usize) -> State {
    let key = words[4 * round..4 * round + 4].concat();
    std::array::from_fn(|i| state[i] ^ key[i])
}

/// Row r moves left by r columns.
fn shifted(state: State) -> State {
    std::array::from_fn(|i| state[(i + 4 * (i % 4)) % 16])
}

fn shifted_back(state: State) -> State {
    std::array::from_fn(|i| state[(i + 16 - 4 * (i % 4)) % 16])
}

/// Each column times a polynomial, its factors given from row 0 on.
fn mixed(state: State, factors: [u8; 4]) -> State {
    std::array::from_fn(|i| {
        let (column, row) = (i / 4 * 4, i % 4);
        (0..4).fold(0, |sum, k| sum ^ product(state[column + k], factors[(k + 4 - row) % 4]))
    })
}

pub fn seal(key: &[u64], text: &[u64]) -> Vec<u64> {
    let sbox = substitution();
    let words = schedule(bytes(key), sbox);
    let mut state = with_round_key(bytes(text), &words, 0);
    for round in 1..=ROUNDS {
        state = shifted(state.map(|byte| looked_up(sbox, byte)));
        if round != ROUNDS {
            state = mixed(state, [2, 3, 1, 1]);
        }
        state = with_round_key(state, &words, round);
    }
    cells(&state)
}

pub fn open(key: &[u64], sealed: &[u64]) -> Vec<u64> {
    let sbox = substitution();
    let inverse = undone(sbox);
    let words = schedule(bytes(key), sbox);
    let mut state = with_round_key(bytes(sealed), &words, ROUNDS);
    for round in (0..ROUNDS).rev() {
        state = shifted_back(state).map(|byte| looked_up(&inverse, byte));
        state = with_round_key(state, &words, round);
        if round != 0 {
            state = mixed(state, [0x0E, 0x0B, 0x0D, 0x09]);
        }
    }
    cells(&state)
}
