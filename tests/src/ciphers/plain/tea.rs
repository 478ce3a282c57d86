//! Wheeler and Needham, "TEA, a tiny encryption algorithm", 1994: 32 cycles.

use super::{cells, words32};

const DELTA: u32 = 0x9E37_79B9;
const CYCLES: u32 = 32;

fn mixed(half: u32, sum: u32, left: u32, right: u32) -> u32 {
    (half << 4).wrapping_add(left) ^ half.wrapping_add(sum) ^ (half >> 5).wrapping_add(right)
}

pub fn seal(key: &[u64], text: &[u64]) -> Vec<u64> {
    let k: [u32; 4] = words32(key);
    let [mut y, mut z] = words32(text);
    let mut sum = 0u32;
    for _ in 0..CYCLES {
        sum = sum.wrapping_add(DELTA);
        y = y.wrapping_add(mixed(z, sum, k[0], k[1]));
        z = z.wrapping_add(mixed(y, sum, k[2], k[3]));
    }
    cells(&[y, z])
}

pub fn open(key: &[u64], sealed: &[u64]) -> Vec<u64> {
    let k: [u32; 4] = words32(key);
    let [mut y, mut z] = words32(sealed);
    let mut sum = DELTA.wrapping_mul(CYCLES);
    for _ in 0..CYCLES {
        z = z.wrapping_sub(mixed(y, sum, k[2], k[3]));
        y = y.wrapping_sub(mixed(z, sum, k[0], k[1]));
        sum = sum.wrapping_sub(DELTA);
    }
    cells(&[y, z])
}
