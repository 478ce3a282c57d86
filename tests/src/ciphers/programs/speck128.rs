//! Speck128/128, lower word first. The round stands twice since its key is secret once and a public counter once (000, 5.3).

use super::{counting, rotate_left, rotate_right, sub, xor};
use crate::image::*;

const ROUNDS: u64 = 32;
const SECRET_ROUND: u16 = 0;
const PUBLIC_ROUND: u16 = 1;
const KEY: u16 = 6;
const TEXT: u16 = 7;
const Y: u16 = 8;
const X: u16 = 9;
const B: u16 = 10;
const A: u16 = 11;
const I: u16 = 12;
const J: u16 = 13;

/// Secret u64 x and y and a u64 key; `first` is x's number.
fn round(first: u16, key: Variable) -> Procedure {
    let (x, y, k) = (first, first + 1, first + 2);
    let body = vec![rotate_right(var(x), 8), add(var(x), var(y)), xor(var(x), var(k)), rotate_left(var(y), 3), xor(var(y), var(x))];
    procedure(&[secret(64), secret(64), key], &[], list(body))
}

/// Secret u64 key[2] and text[2]; the round keys are made between the rounds and taken back afterwards.
pub fn speck128() -> Raw {
    let seal = || call(SECRET_ROUND, vec![var(X), var(Y), var(B)]);
    let next_key = vec![call(PUBLIC_ROUND, vec![var(A), var(B), var(I)]), seal()];
    let last_key = vec![sub(var(J), 1), uncall(PUBLIC_ROUND, vec![var(A), var(B), var(J)])];
    let body = vec![
        swap(var(Y), at(TEXT, 0)),
        swap(var(X), at(TEXT, 1)),
        add(var(B), at(KEY, 0)),
        add(var(A), at(KEY, 1)),
        seal(),
        counting(I, 0, ROUNDS - 1, 1, next_key),
        for_loop(J, ROUNDS - 1, 0, list(last_key)),
        sub(var(A), at(KEY, 1)),
        sub(var(B), at(KEY, 0)),
        swap(var(X), at(TEXT, 1)),
        swap(var(Y), at(TEXT, 0)),
    ];
    let mut locals = vec![secret(64); 4];
    locals.extend([Variable::Counter; 2]);
    let main = procedure(&[secret_array(64, 0), secret_array(64, 0)], &locals, block(Y, 4, body));
    assemble(&[round(0, secret(64)), round(3, public(64)), main])
}
