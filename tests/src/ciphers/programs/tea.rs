//! TEA: 32 rounds, the counter being the running sum of delta.

use crate::image::Operator::{Add, Left, Right, Xor};
use crate::image::*;

const DELTA: u64 = 0x9E37_79B9;
const ROUNDS: u64 = 32;
const KEY: u16 = 0;
const TEXT: u16 = 1;
const V0: u16 = 2;
const V1: u16 = 3;
const SUM: u16 = 4;

/// `((v << 4) + key[k]) ^ (v + sum) ^ ((v >> 5) + key[k + 1])`
fn mixed(half: u16, key: u64) -> Expr {
    let left = bin(Add, bin(Left, var(half), 4), at(KEY, key));
    let middle = bin(Add, var(half), var(SUM));
    let right = bin(Add, bin(Right, var(half), 5), at(KEY, key + 1));
    bin(Xor, bin(Xor, left, middle), right)
}

/// Secret u32 key[4] and text[2]; the halves live in locals, since an array may not update itself.
pub fn tea() -> Raw {
    let round = list(vec![add(var(SUM), DELTA), add(var(V0), mixed(V1, 0)), add(var(V1), mixed(V0, 2))]);
    let body = block(
        V0,
        2,
        vec![
            swap(var(V0), at(TEXT, 0)),
            swap(var(V1), at(TEXT, 1)),
            for_loop(SUM, 0, ROUNDS * DELTA, round),
            swap(var(V0), at(TEXT, 0)),
            swap(var(V1), at(TEXT, 1)),
        ],
    );
    let parameters = [secret_array(32, 0), secret_array(32, 0)];
    single(&parameters, &[secret(32), secret(32), Variable::Counter], body)
}
