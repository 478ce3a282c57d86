//! Beaulieu and others, "The SIMON and SPECK families of lightweight block ciphers", 2013: Speck128/128. Lower word first.

const ROUNDS: u64 = 32;

fn round(x: u64, y: u64, key: u64) -> (u64, u64) {
    let x = x.rotate_right(8).wrapping_add(y) ^ key;
    (x, y.rotate_left(3) ^ x)
}

fn round_back(x: u64, y: u64, key: u64) -> (u64, u64) {
    let y = (y ^ x).rotate_right(3);
    ((x ^ key).wrapping_sub(y).rotate_left(8), y)
}

fn round_keys(key: &[u64]) -> Vec<u64> {
    let (mut l, mut k) = (key[1], key[0]);
    let mut keys = Vec::new();
    for i in 0..ROUNDS {
        keys.push(k);
        (l, k) = round(l, k, i);
    }
    keys
}

pub fn seal(key: &[u64], text: &[u64]) -> Vec<u64> {
    let (mut x, mut y) = (text[1], text[0]);
    for key in round_keys(key) {
        (x, y) = round(x, y, key);
    }
    vec![y, x]
}

pub fn open(key: &[u64], sealed: &[u64]) -> Vec<u64> {
    let (mut x, mut y) = (sealed[1], sealed[0]);
    for key in round_keys(key).into_iter().rev() {
        (x, y) = round_back(x, y, key);
    }
    vec![y, x]
}
