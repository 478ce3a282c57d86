//! Runs that finish.

use super::{ran, RunCase};
use crate::image::Variable::{Constant, Counter};
use crate::image::*;

pub fn runs() -> Vec<RunCase> {
    let mut cases = binary_operators();
    cases.extend(update_operators());
    cases.extend(operator_edges());
    cases.extend(calls());
    cases.extend(locals());
    cases.extend(loops());
    cases.extend(swaps());
    cases.extend(branches());
    cases.extend(cells());
    cases
}

/// Four results (parameters 0 to 3), each updated by one operator on l (4) and r (5).
fn four(operators: &[Operator], sizes: [u8; 4]) -> Vec<u8> {
    let mut types: Vec<Variable> = sizes.iter().map(|z| public(*z)).collect();
    types.extend([public(64), public(64)]);
    let updates = (0..4).map(|i| add(var(i), bin(operators[i as usize], var(4), var(5))));
    single(&types, &[], list(updates.collect())).bytes()
}

fn binary_operators() -> Vec<RunCase> {
    const ALL: u64 = u64::MAX;
    let ones = [1; 6];
    let groups = ["+ - * /", "% and or xor", "== != < >", "<= >= << >>"];
    // Four results each: l = 2^64 - 2, r = 3 into u64; l = 300, r = 300 into u8, u16, u32, u64.
    let wide = [
        [1, ALL - 4, ALL - 5, 6_148_914_691_236_517_204],
        [2, 2, ALL, ALL - 2],
        [0, ALL, 0, ALL],
        [0, ALL, ALL - 15, 2_305_843_009_213_693_951],
    ];
    let narrow = [[88, 0, 90_000, 1], [0, 300, 300, 0], [255, 0, 0, 0], [255, 65_535, 0, 0]];
    let mut cases = Vec::new();
    for (i, group) in groups.iter().enumerate() {
        let operators = &OPERATORS[4 * i..4 * i + 4];
        let [a, b, c, d] = wide[i];
        cases.push(ran(&format!("{group} of 2^64-2 and 3"), four(operators, [64; 4]), &ones, &[0, 0, 0, 0, ALL - 1, 3]).gives(&[
            a,
            b,
            c,
            d,
            ALL - 1,
            3,
        ]));
        let [a, b, c, d] = narrow[i];
        cases.push(
            ran(&format!("{group} of 300 and 300 cut to 8, 16, 32, 64"), four(operators, [8, 16, 32, 64]), &ones, &[0, 0, 0, 0, 300, 300])
                .gives(&[a, b, c, d, 300, 300]),
        );
    }
    cases
}

/// Five scalars of one size, each changed by one update operator with the value v (5).
fn five(z: u8) -> Vec<u8> {
    let mut types = vec![secret(z); 5];
    types.push(secret(64));
    let updates = (0..5).map(|i| update(CHANGES[i as usize], var(i), var(5)));
    single(&types, &[], list(updates.collect())).bytes()
}

fn update_operators() -> Vec<RunCase> {
    const V: u64 = 0x1234_5678_9ABC_DEF5;
    let start = [0x81, 0x02, 0x0F, 0x81, 0x81];
    let after: [(u8, [u64; 5]); 4] = [
        (8, [0x76, 0x0D, 0xFA, 0x30, 0x0C]),
        (16, [0xDF76, 0x210D, 0xDEFA, 0x1020, 0x0804]),
        (32, [0x9ABC_DF76, 0x6543_210D, 0x9ABC_DEFA, 0x1020_0000, 0x0004_0800]),
        (64, [0x1234_5678_9ABC_DF76, 0xEDCB_A987_6543_210D, 0x1234_5678_9ABC_DEFA, 0x1020_0000_0000_0000, 0x0004_0800]),
    ];
    let mut cases = Vec::new();
    for (z, changed) in after {
        let with = |cells: [u64; 5]| [&cells[..], &[V]].concat();
        let forward = ran(&format!("updates of u{z}"), five(z), &[1; 6], &with(start));
        cases.push(forward.gives(&with(changed)).steps(6).entries(16));
        let inverse = ran(&format!("updates of u{z}, inverse"), five(z), &[1; 6], &with(changed));
        cases.push(inverse.inverse().gives(&with(start)).steps(6).entries(16));
    }
    cases
}

fn operator_edges() -> Vec<RunCase> {
    let shift = |operator, amount: u64| single(&[public(64)], &[], add(var(0), bin(operator, 3, amount))).bytes();
    let negated = single(&[public(16)], &[], add(var(0), not(5))).bytes();
    let full_turn = single(&[public(16)], &[], update(Change::RotateRight, var(0), 32)).bytes();
    vec![
        ran("3 >> 64", shift(Operator::Right, 64), &[1], &[9]).gives(&[9]),
        ran("3 << 2^32", shift(Operator::Left, 1 << 32), &[1], &[9]).gives(&[9]),
        ran("3 >> 2^64-1", shift(Operator::Right, u64::MAX), &[1], &[9]).gives(&[9]),
        ran("u16 += ~5", negated, &[1], &[6]).gives(&[0]),
        ran("u16 >>= 32 changes nothing and is traced", full_turn, &[1], &[6]).gives(&[6]).entries(2),
    ]
}

/// Callee 0: `x += 5`. Callee 1: `uncall 0(x); x <<= 1`. Last: the given body over x (2) and a (3).
fn layered(body: Stmt) -> Vec<u8> {
    let add_five = procedure(&[public(16)], &[], add(var(0), 5));
    let inner = list(vec![uncall(0, vec![var(1)]), update(Change::RotateLeft, var(1), 1)]);
    let types = [public(16), public_array(16, 0)];
    assemble(&[add_five, procedure(&[public(16)], &[], inner), procedure(&types, &[], body)]).bytes()
}

/// Callee 0: `a[size a - 1] += x`; the last calls it with an element and an array.
fn array_callee() -> Vec<u8> {
    let last = bin(Operator::Sub, size(1), 1);
    let callee = procedure(&[secret(32), secret_array(32, 0)], &[], add(at(1, last), var(0)));
    let types = [secret_array(32, 0), secret_array(32, 0), public(8)];
    let caller = procedure(&types, &[], call(0, vec![at(2, var(4)), var(3)]));
    assemble(&[callee, caller]).bytes()
}

fn calls() -> Vec<RunCase> {
    let one = |body: Stmt, x: u64| ran("", layered(body), &[1, 2], &[x, 10, 20]);
    let named = |name: &str, case: RunCase| RunCase { name: name.to_string(), ..case };
    let arrays = || ran("", array_callee(), &[2, 3, 1], &[7, 8, 1, 2, 3, 1]);
    vec![
        named("call of x += 5", one(call(0, vec![var(2)]), 1).gives(&[6, 10, 20]).steps(2)),
        named("uncall of x += 5", one(uncall(0, vec![var(2)]), 1).gives(&[65_532, 10, 20])),
        named("inverse call of x += 5", one(call(0, vec![var(2)]), 6).inverse().gives(&[1, 10, 20])),
        named("inverse uncall of x += 5", one(uncall(0, vec![var(2)]), 6).inverse().gives(&[11, 10, 20])),
        named("call of a call, element argument", one(call(1, vec![at(3, 1)]), 1).gives(&[1, 10, 30]).steps(5)),
        named("uncall of a list with an uncall", one(uncall(1, vec![at(3, 0)]), 1).gives(&[1, 10, 20]).steps(5)),
        named("inverse uncall of a list with an uncall", one(uncall(1, vec![at(3, 1)]), 1).inverse().gives(&[1, 10, 30])),
        named("array and element arguments", arrays().gives(&[7, 8, 1, 2, 11, 1]).entries(5)),
        named("array and element arguments, inverse", arrays().inverse().gives(&[7, 8, 1, 2, 0xFFFF_FFFB, 1])),
    ]
}

fn locals() -> Vec<RunCase> {
    // { t += x; y ^= t; t -= x; }
    let copy = block(2, 1, vec![add(var(2), var(0)), update(Change::Xor, var(1), var(2)), update(Change::Sub, var(2), var(0))]);
    let copied = || single(&[secret(8), secret(8)], &[secret(8)], copy.clone()).bytes();
    // { const k = 1000; u64 a[3]; a[2] += k; x += a[2]; a[2] -= k; }
    let with_array = block(1, 2, vec![add(at(2, 2), var(1)), add(var(0), at(2, 2)), update(Change::Sub, at(2, 2), var(1))]);
    let array = single(&[public(64)], &[Constant(1000), public_array(64, 3)], with_array).bytes();
    let twice = {
        let callee = procedure(&[secret(8), secret(8)], &[secret(8)], copy.clone());
        let again = list(vec![call(0, vec![var(3), var(4)]), call(0, vec![var(3), var(5)])]);
        assemble(&[callee, procedure(&[secret(8), secret(8), secret(8)], &[], again)]).bytes()
    };
    vec![
        ran("local copied and cleared", copied(), &[1, 1], &[200, 7]).gives(&[200, 207]).entries(10),
        ran("local copied and cleared, inverse", copied(), &[1, 1], &[200, 207]).inverse().gives(&[200, 7]),
        ran("constant and local array", array, &[1], &[1]).gives(&[1001]).entries(8),
        ran("a callee's local used twice", twice, &[1, 1, 1], &[9, 1, 2]).gives(&[9, 8, 11]),
    ]
}

fn loops() -> Vec<RunCase> {
    let down = for_loop(1, 5, 0, list(vec![add(var(0), var(1)), update(Change::Sub, var(1), 1)]));
    let down = || single(&[public(64)], &[Counter], down.clone()).bytes();
    // for (i = x; y) { i += 2; s += 1; }: both bounds are read from cells
    let bounds = for_loop(3, var(0), var(1), list(vec![add(var(3), 2), add(var(2), 1)]));
    let bounds = || single(&[public(8), public(8), secret(16)], &[Counter], bounds.clone()).bytes();
    // for (i = 0; 2) { for (j = 0; 3) { x += 1; j += 1; } i += 1; }
    let inner = for_loop(2, 0, 3, list(vec![add(var(0), 1), add(var(2), 1)]));
    let nested = for_loop(1, 0, 2, list(vec![inner, add(var(1), 1)]));
    let nested = || single(&[public(64)], &[Counter, Counter], nested.clone()).bytes();
    let swapped = for_loop(1, 1, 9, swap(var(0), var(1)));
    let swapped = single(&[public(64)], &[Counter], swapped).bytes();
    let in_callee = {
        let callee = procedure(&[public(64)], &[], add(var(0), 3));
        let body = for_loop(1, 0, 9, call(0, vec![var(1)]));
        assemble(&[callee, procedure(&[], &[Counter], body)]).bytes()
    };
    vec![
        ran("loop downwards", down(), &[1], &[0]).gives(&[15]).steps(21),
        ran("loop downwards, inverse", down(), &[1], &[15]).inverse().gives(&[0]).steps(21),
        ran("bounds from cells", bounds(), &[1, 1, 1], &[3, 9, 0]).gives(&[3, 9, 3]).steps(13).entries(21),
        ran("bounds from cells, inverse reads the second first", bounds(), &[1, 1, 1], &[3, 9, 3]).inverse().gives(&[3, 9, 0]).steps(13),
        ran("loop in a loop", nested(), &[1], &[0]).gives(&[6]).steps(33),
        ran("loop in a loop, inverse", nested(), &[1], &[6]).inverse().gives(&[0]).steps(33),
        ran("counter swapped out of the loop", swapped, &[1], &[9]).gives(&[1]).steps(3),
        ran("counter as argument", in_callee, &[], &[]).steps(10),
    ]
}

fn swaps() -> Vec<RunCase> {
    let types = [secret_array(8, 0), public(8), secret(8)];
    let image = |body: Stmt| single(&types, &[], body).bytes();
    let pair = || image(swap(at(0, 0), at(0, var(1))));
    let chosen = || image(swap_if(var(2), at(0, var(1)), at(0, 0)));
    let lengths = [3, 1, 1];
    vec![
        ran("a[0] <-> a[i]", pair(), &lengths, &[1, 2, 3, 2, 0]).gives(&[3, 2, 1, 2, 0]).entries(4),
        ran("a[0] <-> a[i] with i = 0", pair(), &lengths, &[1, 2, 3, 0, 0]).gives(&[1, 2, 3, 0, 0]).entries(4),
        ran("secret condition 128 swaps", chosen(), &lengths, &[1, 2, 3, 2, 128]).gives(&[3, 2, 1, 2, 128]).entries(5),
        ran("secret condition 0, same entries", chosen(), &lengths, &[1, 2, 3, 2, 0]).gives(&[1, 2, 3, 2, 0]).entries(5),
        ran("conditional swap, inverse", chosen(), &lengths, &[3, 2, 1, 2, 128]).inverse().gives(&[1, 2, 3, 2, 128]),
    ]
}

fn branches() -> Vec<RunCase> {
    let body = if_else(bin(Operator::Less, var(0), 10), add(var(1), 1), update(Change::Sub, var(1), 1));
    let image = || single(&[public(8), public(8)], &[], body.clone()).bytes();
    let unsafe_read = single(&[secret_array(16, 0), secret(8), secret(32)], &[], add(var(2), unsafe_at(0, var(1))));
    vec![
        ran("then", image(), &[1, 1], &[9, 4]).gives(&[9, 5]).entries(4),
        ran("else", image(), &[1, 1], &[10, 4]).gives(&[10, 3]),
        ran("then, inverse", image(), &[1, 1], &[9, 5]).inverse().gives(&[9, 4]),
        ran("unsafe element by a secret index", unsafe_read.bytes(), &[2, 1, 1], &[500, 600, 1, 1]).gives(&[500, 600, 1, 601]).entries(4),
    ]
}

fn cells() -> Vec<RunCase> {
    let sized = || single(&[secret_array(8, 0), public(16)], &[], add(var(1), size(0))).bytes();
    let full = single(
        &[public(8)],
        &[public_array(8, 4095)],
        block(1, 1, vec![add(at(1, 4094), var(0)), update(Change::Sub, at(1, 4094), var(0))]),
    );
    vec![
        ran("size of an array of length 0", sized(), &[0, 1], &[7]).gives(&[7]),
        ran("size of an array of length 3", sized(), &[3, 1], &[1, 2, 3, 7]).gives(&[1, 2, 3, 10]),
        ran("exactly 4096 cells", full.bytes(), &[1], &[3]).gives(&[3]).entries(7),
        ran("no room for the trace", sized(), &[0, 1], &[7]).room(0).entries(2),
        ran("room as long as the trace", sized(), &[0, 1], &[7]).room(2).entries(2),
        ran("exact budget", sized(), &[0, 1], &[7]).budget(1).gives(&[7]),
        ran("largest budget", sized(), &[0, 1], &[7]).budget(u32::MAX).gives(&[7]),
        ran("more work words than needed", sized(), &[0, 1], &[7]).works(8_200).gives(&[7]),
    ]
}
