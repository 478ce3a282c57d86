//! RC5-32/12/16. Its key expansion overwrites what it reads and cannot be run backwards without keeping every value (000, 5.2),
//! so the 26 round keys are made outside and lent.

use super::{counting, rotate_left, xor};
use crate::image::*;

const ROUND_KEYS: u16 = 0;
const TEXT: u16 = 1;
const A: u16 = 2;
const B: u16 = 3;
const I: u16 = 4;

/// Secret u32 roundKeys[26] and text[2].
pub fn rc5() -> Raw {
    let half_round = vec![xor(var(A), var(B)), rotate_left(var(A), var(B)), add(var(A), at(ROUND_KEYS, var(I))), swap(var(A), var(B))];
    let body = block(
        A,
        2,
        vec![
            swap(var(A), at(TEXT, 0)),
            swap(var(B), at(TEXT, 1)),
            add(var(A), at(ROUND_KEYS, 0)),
            add(var(B), at(ROUND_KEYS, 1)),
            counting(I, 2, size(ROUND_KEYS), 1, half_round),
            swap(var(B), at(TEXT, 1)),
            swap(var(A), at(TEXT, 0)),
        ],
    );
    let parameters = [secret_array(32, 0), secret_array(32, 0)];
    single(&parameters, &[secret(32), secret(32), Variable::Counter], body)
}
