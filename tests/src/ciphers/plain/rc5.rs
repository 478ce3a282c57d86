//! Rivest, "The RC5 encryption algorithm", 1995: RC5-32/12/16.

use super::{bytes, cells, words32};

const ROUNDS: usize = 12;
const KEY_BYTES: usize = 16;
const ROUND_KEYS: usize = 2 * (ROUNDS + 1);
const KEY_WORDS: usize = KEY_BYTES / 4;
const P: u32 = 0xB7E1_5163;
const Q: u32 = 0x9E37_79B9;

fn expanded(key: [u8; KEY_BYTES]) -> [u32; ROUND_KEYS] {
    let mut l: [u32; KEY_WORDS] = std::array::from_fn(|i| u32::from_le_bytes(std::array::from_fn(|j| key[4 * i + j])));
    let mut s: [u32; ROUND_KEYS] = std::array::from_fn(|i| P.wrapping_add(Q.wrapping_mul(i as u32)));
    let (mut a, mut b) = (0u32, 0u32);
    for turn in 0..3 * ROUND_KEYS.max(KEY_WORDS) {
        let (i, j) = (turn % ROUND_KEYS, turn % KEY_WORDS);
        a = s[i].wrapping_add(a).wrapping_add(b).rotate_left(3);
        s[i] = a;
        let sum = a.wrapping_add(b);
        b = l[j].wrapping_add(sum).rotate_left(sum % 32);
        l[j] = b;
    }
    s
}

/// The 26 round keys of a 16-byte key.
pub fn schedule(key: &[u64]) -> Vec<u64> {
    cells(&expanded(bytes(key)))
}

pub fn seal(key: &[u64], text: &[u64]) -> Vec<u64> {
    let s = expanded(bytes(key));
    let [mut a, mut b] = words32(text);
    a = a.wrapping_add(s[0]);
    b = b.wrapping_add(s[1]);
    for round in 1..=ROUNDS {
        a = (a ^ b).rotate_left(b % 32).wrapping_add(s[2 * round]);
        b = (b ^ a).rotate_left(a % 32).wrapping_add(s[2 * round + 1]);
    }
    cells(&[a, b])
}

pub fn open(key: &[u64], sealed: &[u64]) -> Vec<u64> {
    let s = expanded(bytes(key));
    let [mut a, mut b] = words32(sealed);
    for round in (1..=ROUNDS).rev() {
        b = b.wrapping_sub(s[2 * round + 1]).rotate_right(a % 32) ^ a;
        a = a.wrapping_sub(s[2 * round]).rotate_right(b % 32) ^ b;
    }
    cells(&[a.wrapping_sub(s[0]), b.wrapping_sub(s[1])])
}
