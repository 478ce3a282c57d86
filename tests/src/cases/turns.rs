//! Document 01's sample turns.

use super::{checked, ran, CheckCase, RunCase};
use crate::image::*;

/// One parameter that one update changes.
fn updating(parameter: Variable, change: Change, value: impl Into<Expr>) -> Vec<u8> {
    single(&[parameter], &[], update(change, var(0), value)).bytes()
}

/// `for (i = 0; 4) { x += i; i += 1; }`
fn summing_loop() -> Vec<u8> {
    let body = list(vec![add(var(0), var(1)), add(var(1), 1)]);
    single(&[public(64)], &[Variable::Counter], for_loop(1, 0, 4, body)).bytes()
}

/// `{ secret u8 t; t += x; }`
fn uncleared_secret() -> Vec<u8> {
    let body = block(1, 1, vec![add(var(1), var(0))]);
    single(&[secret(8)], &[secret(8)], body).bytes()
}

fn conditional_swap() -> Vec<u8> {
    let types = [public(64), public(64), public(64)];
    single(&types, &[], swap_if(var(2), var(0), var(1))).bytes()
}

fn array_and_scalar(body: Stmt) -> Vec<u8> {
    single(&[public_array(64, 0), public(64)], &[], body).bytes()
}

/// `x += ~~...~1`, whose last node, the deepest, has the given depth and the same number.
pub fn deep(depth: usize) -> Vec<u8> {
    let mut value: Expr = 1.into();
    for _ in 2..depth {
        value = not(value);
    }
    updating(public(64), Change::Add, value)
}

/// The 40 bytes that document 01 prints.
pub const PRINTED: [u8; 40] = [
    0x01, 0x00, 0x01, 0x00, 0x00, 0x00, 0x01, 0x00, 0x00, 0x00, 0x14, 0x00, 0x1c, 0x00, 0x1c, 0x00, 0x28, 0x00, 0x28, 0x00, 0x00, 0x00,
    0x00, 0x00, 0x00, 0x00, 0x00, 0x00, 0x01, 0x00, 0x00, 0x00, 0x00, 0x00, 0x00, 0x00, 0x00, 0x00, 0xff, 0xff,
];

pub fn checks() -> Vec<CheckCase> {
    let size_of_itself = add(at(0, 0), size(0));
    let doubled = add(var(1), var(1));
    let nested_index = swap(at(0, at(0, 0)), var(1));
    vec![
        checked("turn: the printed 40 bytes", PRINTED.to_vec(), 0, 0),
        checked("turn: a[0] += size a", array_and_scalar(size_of_itself), 0, 0),
        checked("turn: x += x", array_and_scalar(doubled), 11, 0),
        checked("turn: a[a[0]] <-> x", array_and_scalar(nested_index), 11, 0),
        checked("turn: depth 32", deep(32), 0, 0),
        checked("turn: depth 33", deep(33), 6, 33),
    ]
}

pub fn starred() -> Vec<RunCase> {
    let mut cases = arithmetic();
    cases.extend(control());
    cases
}

pub fn unstarred() -> Vec<RunCase> {
    let touching = || array_and_scalar(add(at(0, 0), 1));
    vec![
        ran("turn: a[0] of length 0", touching(), &[0, 1], &[5]).refused(24, 1),
        ran("turn: a[0] of length 1", touching(), &[1, 1], &[4, 5]).gives(&[5, 5]),
        ran("turn: run of depth 32", deep(32), &[1], &[6]).gives(&[7]),
        ran("turn: run of depth 33", deep(33), &[1], &[6]).refused(6, 33),
    ]
}

fn arithmetic() -> Vec<RunCase> {
    let rotate = |amount: u64| updating(public(8), Change::RotateLeft, amount);
    let shifted = |amount: u64| updating(public(64), Change::Add, bin(Operator::Left, 1, amount));
    let less = updating(public(8), Change::Add, bin(Operator::Less, 3, 5));
    let three_hundred = updating(public(8), Change::Add, 300);
    vec![
        ran("turn: u8 129 <<= 18", rotate(18), &[1], &[129]).gives(&[6]),
        ran("turn: u8 1 <<= 13", rotate(13), &[1], &[1]).gives(&[32]),
        ran("turn: u8 250 += 300", three_hundred, &[1], &[250]).gives(&[38]),
        ran("turn: u8 1 += (3 < 5)", less, &[1], &[1]).gives(&[0]),
        ran("turn: 1 << 63", shifted(63), &[1], &[0]).gives(&[1 << 63]),
        ran("turn: 1 << 64", shifted(64), &[1], &[0]).gives(&[0]),
    ]
}

fn control() -> Vec<RunCase> {
    let still = single(&[], &[Variable::Counter], for_loop(0, 3, 3, Stmt::Empty)).bytes();
    let back = update(Change::Xor, var(0), 1);
    let returning = single(&[], &[Variable::Counter], for_loop(0, 0, 2, back)).bytes();
    let nothing = single(&[], &[], list(vec![])).bytes();
    vec![
        ran("turn: condition 2 swaps", conditional_swap(), &[1, 1, 1], &[7, 9, 2]).gives(&[9, 7, 2]),
        ran("turn: condition 0 does not", conditional_swap(), &[1, 1, 1], &[7, 9, 0]).gives(&[7, 9, 0]),
        ran("turn: summing loop", summing_loop(), &[1], &[0]).gives(&[6]).steps(17).entries(29),
        ran("turn: summing loop inverse", summing_loop(), &[1], &[6]).inverse().gives(&[0]).steps(17),
        ran("turn: summing loop, budget 16", summing_loop(), &[1], &[0]).budget(16).refused(23, 7).steps(16),
        ran("turn: summing loop, budget 17", summing_loop(), &[1], &[0]).budget(17).gives(&[6]).steps(17),
        ran("turn: for (i = 3; 3)", still, &[], &[]).steps(1),
        ran("turn: for (i = 0; 2) i ^= 1", returning, &[], &[]).refused(28, 0).steps(5),
        ran("turn: t += x, x = 0", uncleared_secret(), &[1], &[0]).gives(&[0]),
        ran("turn: t += x, x = 1", uncleared_secret(), &[1], &[1]).refused(27, 0),
        ran("turn: empty block", nothing, &[], &[]).steps(1),
    ]
}
