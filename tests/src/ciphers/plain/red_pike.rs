//! Red Pike as posted in 2014 and quoted by Wikipedia. Opening is sealing under another key.

use super::{cells, words32};

const STEP: u32 = 0x9E37_79B9;
const ROUNDS: u32 = 16;

fn sealed_under([mut k0, mut k1]: [u32; 2], [mut x0, mut x1]: [u32; 2]) -> [u32; 2] {
    for _ in 0..ROUNDS {
        k0 = k0.wrapping_add(STEP);
        k1 = k1.wrapping_sub(STEP);
        x0 = (x0 ^ k0).wrapping_add(x1).rotate_left(x1 % 32);
        x1 = x1.rotate_right(x0 % 32).wrapping_sub(x0) ^ k1;
    }
    [x1, x0]
}

pub fn seal(key: &[u64], text: &[u64]) -> Vec<u64> {
    cells(&sealed_under(words32(key), words32(text)))
}

pub fn open(key: &[u64], sealed: &[u64]) -> Vec<u64> {
    let [k0, k1] = words32(key);
    let moved = STEP.wrapping_mul(ROUNDS + 1);
    cells(&sealed_under([k1.wrapping_sub(moved), k0.wrapping_add(moved)], words32(sealed)))
}
