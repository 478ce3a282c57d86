//! Red Pike: 16 rounds; each moves both key words by a constant, and the whole way is taken back at the end.

use super::{counting, rotate_left, rotate_right, sub, xor};
use crate::image::Operator::Mul;
use crate::image::*;

const STEP_VALUE: u64 = 0x9E37_79B9;
const ROUNDS: u64 = 16;
const KEY: u16 = 0;
const TEXT: u16 = 1;
const X0: u16 = 2;
const X1: u16 = 3;
const K0: u16 = 4;
const K1: u16 = 5;
const STEP: u16 = 6;
const I: u16 = 7;

fn round() -> Vec<Stmt> {
    vec![
        add(var(K0), var(STEP)),
        sub(var(K1), var(STEP)),
        xor(var(X0), var(K0)),
        add(var(X0), var(X1)),
        rotate_left(var(X0), var(X1)),
        rotate_right(var(X1), var(X0)),
        sub(var(X1), var(X0)),
        xor(var(X1), var(K1)),
    ]
}

/// Secret u32 key[2] and text[2].
pub fn red_pike() -> Raw {
    let way = || bin(Mul, var(STEP), ROUNDS);
    let body = vec![
        swap(var(X0), at(TEXT, 0)),
        swap(var(X1), at(TEXT, 1)),
        add(var(K0), at(KEY, 0)),
        add(var(K1), at(KEY, 1)),
        counting(I, 0, ROUNDS, 1, round()),
        swap(var(X0), var(X1)),
        sub(var(K0), way()),
        add(var(K1), way()),
        sub(var(K1), at(KEY, 1)),
        sub(var(K0), at(KEY, 0)),
        swap(var(X1), at(TEXT, 1)),
        swap(var(X0), at(TEXT, 0)),
    ];
    let parameters = [secret_array(32, 0), secret_array(32, 0)];
    let locals = [secret(32), secret(32), secret(32), secret(32), Variable::Constant(STEP_VALUE), Variable::Counter];
    single(&parameters, &locals, block(X0, 5, body))
}
