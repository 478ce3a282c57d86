//! AES-128 with unsafe look-ups (000, Figures B.17 and B.18). The step to the next round key is a procedure, called between the
//! rounds and uncalled afterwards, where 000 writes its inverse out.

use super::{counting, rotate_left, sub, xor};
use crate::image::Operator::{Add, And, Differ, Mul, Xor};
use crate::image::*;

const ROUNDS: u64 = 10;
const STATE_BYTES: u64 = 16;

/// 01 less than the field's polynomial 1b: the rotation has brought the 01 itself.
const CARRY: u64 = 0x1A;

mod next_key {
    pub const K: u16 = 0;
    pub const RC: u16 = 1;
    pub const SBOX: u16 = 2;
    pub const T: u16 = 3;
    pub const CARRIED: u16 = 4;
    pub const I: u16 = 5;
    pub const J: u16 = 6;
}

const NEXT_KEY: u16 = 0;
const KEY: u16 = 7;
const TEXT: u16 = 8;
const SBOX: u16 = 9;
const SBOX_BACK: u16 = 10;
const TIMES_3: u16 = 11;
const TIMES_E: u16 = 12;
const TIMES_B: u16 = 13;
const TIMES_D: u16 = 14;
const TIMES_9: u16 = 15;
const X: u16 = 16;
const K: u16 = 17;
const RC: u16 = 18;
/// The four bytes of a column.
const COLUMN: [u16; 4] = [19, 20, 21, 22];
const ROUND: u16 = 23;
const BACK: u16 = 24;
/// Six counters, one for each loop over the state.
const STATE: [u16; 6] = [25, 26, 27, 28, 29, 30];

/// FIPS 197, 5.2, on the round key in place; `rc` is the round constant, of which the carry bit is rotated in.
fn next_key_procedure() -> Procedure {
    use next_key::*;
    let carry = bin(And, bin(Differ, var(CARRIED), 0), CARRY);
    let last_word = || at(K, bin(Add, 12, bin(And, bin(Add, var(I), 1), 3)));
    let first_word = vec![xor(var(T), last_word()), xor(at(K, var(I)), unsafe_at(SBOX, var(T))), xor(var(T), last_word())];
    let other_words = vec![xor(var(T), at(K, var(J))), xor(at(K, bin(Add, var(J), 4)), var(T)), xor(var(T), at(K, var(J)))];
    let body = vec![
        xor(at(K, 0), var(RC)),
        rotate_left(var(RC), 1),
        add(var(CARRIED), bin(And, var(RC), 1)),
        xor(var(RC), carry),
        sub(var(CARRIED), bin(And, var(RC), 1)),
        counting(I, 0, 4, 1, first_word),
        counting(J, 0, 12, 1, other_words),
    ];
    let parameters = [secret_array(8, 0), public(8), secret_array(8, 0)];
    let locals = [secret(8), public(8), Variable::Counter, Variable::Counter];
    procedure(&parameters, &locals, block(T, 2, body))
}

fn over_state(counter: u16, step: u64, body: Vec<Stmt>) -> Stmt {
    counting(counter, 0, STATE_BYTES, step, body)
}

/// SubBytes and ShiftRows: the text's bytes go to their places in `x`, and the text is taken back to 0.
fn substituted(i: u16) -> Stmt {
    let moved = || at(X, bin(And, bin(Mul, 13, var(i)), 15));
    let body = vec![xor(moved(), unsafe_at(SBOX, at(TEXT, var(i)))), xor(at(TEXT, var(i)), unsafe_at(SBOX_BACK, moved()))];
    over_state(i, 1, body)
}

/// `x[i + row]`
fn of_column(i: u16, row: u64) -> LValue {
    at(X, bin(Add, var(i), row))
}

/// `x[i + row] ^= times3[p ^ q] ^ r ^ s`, p being the row's own byte.
fn mixed_byte(i: u16, row: usize) -> Stmt {
    let byte = |k: usize| var(COLUMN[(row + k) % 4]);
    let tripled = unsafe_at(TIMES_3, bin(Xor, byte(0), byte(1)));
    xor(of_column(i, row as u64), bin(Xor, bin(Xor, tripled, byte(2)), byte(3)))
}

/// The byte of a row again, from the mixed column by the inverse matrix, so that it is taken back to 0.
fn unmixed_byte(i: u16, row: usize) -> Stmt {
    let times = [TIMES_E, TIMES_B, TIMES_D, TIMES_9];
    let term = |k: usize| Expr::from(unsafe_at(times[k], of_column(i, ((row + k) % 4) as u64)));
    let sum = bin(Xor, bin(Xor, bin(Xor, term(0), term(1)), term(2)), term(3));
    xor(var(COLUMN[row]), sum)
}

fn mixed_columns(i: u16) -> Stmt {
    let mut column: Vec<Stmt> = (0..4).map(|row| xor(var(COLUMN[row]), of_column(i, row as u64))).collect();
    column.extend((0..4).map(|row| mixed_byte(i, row)));
    column.extend((0..4).map(|row| unmixed_byte(i, row)));
    over_state(i, 4, vec![block(COLUMN[0], 4, column)])
}

fn round_body() -> Vec<Stmt> {
    let [_, _, add_key, sub_bytes, mix, _] = STATE;
    let mix = if_else(bin(Differ, var(ROUND), ROUNDS - 1), mixed_columns(mix), Stmt::Empty);
    let to_next = list(vec![call(NEXT_KEY, vec![var(K), var(RC), var(SBOX)]), substituted(sub_bytes), mix]);
    let key_added = vec![swap(at(TEXT, var(add_key)), at(X, var(add_key))), xor(at(TEXT, var(add_key)), at(K, var(add_key)))];
    vec![over_state(add_key, 1, key_added), if_else(bin(Differ, var(ROUND), ROUNDS), to_next, Stmt::Empty)]
}

/// Secret u8 key[16], text[16] and seven tables of 256.
pub fn aes128() -> Raw {
    let [copy, load, _, _, _, clear] = STATE;
    let body = vec![
        add(var(RC), 1),
        over_state(copy, 1, vec![xor(at(K, var(copy)), at(KEY, var(copy)))]),
        over_state(load, 1, vec![swap(at(X, var(load)), at(TEXT, var(load)))]),
        counting(ROUND, 0, ROUNDS + 1, 1, round_body()),
        counting(BACK, 0, ROUNDS, 1, vec![uncall(NEXT_KEY, vec![var(K), var(RC), var(SBOX)])]),
        over_state(clear, 1, vec![xor(at(K, var(clear)), at(KEY, var(clear)))]),
        sub(var(RC), 1),
    ];
    let mut locals = vec![secret_array(8, 16), secret_array(8, 16), public(8)];
    locals.extend([secret(8); 4]);
    locals.extend([Variable::Counter; 8]);
    let main = procedure(&[secret_array(8, 0); 9], &locals, block(X, 3, body));
    assemble(&[next_key_procedure(), main])
}
