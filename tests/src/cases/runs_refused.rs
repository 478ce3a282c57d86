//! Runs that are refused: the check's numbers first, then 19 to 22, then 23 to 28.

use super::{ran, RunCase};
use crate::image::Variable::Counter;
use crate::image::*;

pub fn runs() -> Vec<RunCase> {
    let mut cases = before_the_run();
    cases.extend(store_and_lengths());
    cases.extend(too_many_cells());
    cases.extend(budgets());
    cases.extend(indices());
    cases.extend(divisors());
    cases.extend(uncleared());
    cases.extend(returning());
    cases
}

/// `x += 1` over a u8 x, after an u8 array a.
fn array_and_scalar() -> Vec<u8> {
    single(&[public_array(8, 0), public(8)], &[], add(var(1), 1)).bytes()
}

fn before_the_run() -> Vec<RunCase> {
    let clash = single(&[public(8)], &[], add(var(0), var(0))).bytes();
    vec![
        ran("run: format 0 before 19", vec![0; 40], &[], &[]).works(0).refused(1, 0).steps(0).entries(0),
        ran("run: 11 before 20", clash, &[], &[]).refused(11, 0).entries(0),
        ran("19: 8191 work words", array_and_scalar(), &[1, 1], &[1, 2]).works(8_191).refused(19, 0).entries(0),
        ran("19 before 20", array_and_scalar(), &[], &[1, 2]).works(3).refused(19, 0),
    ]
}

fn store_and_lengths() -> Vec<RunCase> {
    let with = |lengths: &[u64], store: &[u64]| ran("", array_and_scalar(), lengths, store);
    let named = |name: &str, case: RunCase| RunCase { name: name.to_string(), ..case };
    vec![
        named("20: list too short", with(&[2], &[1, 2]).refused(20, 0)),
        named("20: list too long", with(&[1, 1, 0], &[1, 2]).refused(20, 0)),
        named("20: scalar of length 0", with(&[2, 0], &[1, 2]).refused(20, 0)),
        named("20: scalar of length 2", with(&[0, 2], &[1, 2]).refused(20, 0)),
        named("20: array of length 4097", with(&[4097, 1], &[1, 2]).refused(20, 0)),
        named("20: lengths whose sum wraps", with(&[u64::MAX, 1], &[]).refused(20, 0)),
        named("20: store too short", with(&[2, 1], &[1, 2]).refused(20, 0)),
        named("20: store too long", with(&[0, 1], &[1, 2]).refused(20, 0)),
        named("20 before 21", with(&[1, 1], &[256, 2, 3]).refused(20, 0)),
        named("21: scalar 256", with(&[1, 1], &[255, 256]).refused(21, 1).entries(0)),
        named("21: first of two large cells", with(&[3, 1], &[1, 300, 256, 999]).refused(21, 1)),
        named("21: 2^64-1 in a u8", with(&[0, 1], &[u64::MAX]).refused(21, 0)),
    ]
}

fn too_many_cells() -> Vec<RunCase> {
    let local = block(1, 1, vec![]);
    let one_over = single(&[public(8)], &[public_array(8, 4096)], local.clone()).bytes();
    let never_called = {
        let idle = procedure(&[], &[public_array(8, 4000), secret_array(8, 97)], block(0, 2, vec![]));
        assemble(&[idle, procedure(&[], &[], Stmt::Empty)]).bytes()
    };
    let counted = {
        let body = block(0, 1, vec![for_loop(1, 0, 0, Stmt::Empty)]);
        single(&[], &[public_array(8, 4096), Counter], body).bytes()
    };
    vec![
        ran("22: 4097 cells", one_over.clone(), &[1], &[1]).refused(22, 0).entries(0),
        ran("22: locals of a procedure never called", never_called, &[], &[]).refused(22, 0),
        ran("22: a counter is a cell", counted, &[], &[]).refused(22, 0),
        ran("21 before 22", one_over, &[1], &[256]).refused(21, 0),
    ]
}

fn budgets() -> Vec<RunCase> {
    let list_of_two = || single(&[public(8)], &[], list(vec![add(var(0), 1), add(var(0), 2)])).bytes();
    let endless = for_loop(1, 1, 0, list(vec![add(var(0), 1), add(var(1), 1)]));
    let endless = || single(&[public(8)], &[Counter], endless.clone()).bytes();
    let returning = || single(&[], &[Counter], for_loop(0, 0, 2, update(Change::Xor, var(0), 1))).bytes();
    let called = {
        let callee = procedure(&[public(8)], &[], add(var(0), 1));
        assemble(&[callee, procedure(&[public(8)], &[], call(0, vec![var(1)]))]).bytes()
    };
    vec![
        ran("23: budget 0", list_of_two(), &[1], &[5]).budget(0).refused(23, 0).steps(0).entries(0),
        ran("23: second statement, store as at entry", list_of_two(), &[1], &[5]).budget(2).refused(23, 4).steps(2).entries(3),
        ran("23: second statement is the first one inverse", list_of_two(), &[1], &[5]).inverse().budget(2).refused(23, 1).steps(2),
        ran("23: a turn's place is its for", endless(), &[1], &[5]).budget(9).refused(23, 0).steps(9),
        ran("23: body of a turn", endless(), &[1], &[5]).budget(10).refused(23, 3).steps(10),
        ran("23: endless loop", endless(), &[1], &[5]).budget(120).refused(23, 7).steps(120),
        ran("23: body of a callee", called, &[1], &[5]).budget(1).refused(23, 0).steps(1),
        ran("28 before the next turn's 23", returning(), &[], &[]).budget(5).refused(28, 0).steps(5),
        ran("23 inside the turn before 28", returning(), &[], &[]).budget(4).refused(23, 3).steps(4),
    ]
}

/// Public u64 array a (0), x (1), y (2).
fn three(body: Stmt) -> Vec<u8> {
    single(&[public_array(64, 0), public(64), public(64)], &[], body).bytes()
}

fn indices() -> Vec<RunCase> {
    let zero = || bin(Operator::Div, 1, 0);
    let body = |body: Stmt| ran("", three(body), &[2, 1, 1], &[10, 20, 2, 4]);
    let named = |name: &str, case: RunCase| RunCase { name: name.to_string(), ..case };
    let both = bin(Operator::Add, at(0, 2), at(0, 3));
    let changed_before = list(vec![add(var(1), 1), add(at(0, var(1)), 1)]);
    let argument = {
        let callee = procedure(&[public(64)], &[], Stmt::Empty);
        let caller = procedure(&[public_array(64, 0)], &[], call(0, vec![at(1, 3)]));
        assemble(&[callee, caller]).bytes()
    };
    vec![
        named("24: target index is the length", body(add(at(0, var(1)), 1)).refused(24, 1).entries(2)),
        named("24: index 2^64-1", body(add(at(0, not(0)), 1)).refused(24, 1)),
        named("24: value index", body(add(var(1), at(0, var(2)))).refused(24, 2).entries(2)),
        named("24: left operand first", body(add(var(1), both)).refused(24, 3).entries(1)),
        named("24 of the target before 25 of the value", body(add(at(0, 5), zero())).refused(24, 1)),
        named("24: conditional swap with condition 0", body(swap_if(0, at(0, 1), at(0, 2))).refused(24, 4).entries(1)),
        named("24: index of an index", body(add(var(1), at(0, at(0, var(2))))).refused(24, 3)),
        named("24 after a change, store as at entry", body(changed_before).refused(24, 5).steps(3).entries(5)),
        ran("24: argument", argument, &[3], &[1, 2, 3]).refused(24, 2).steps(1).entries(1),
    ]
}

fn divisors() -> Vec<RunCase> {
    let body = |value: Expr| ran("", three(add(var(1), value)), &[2, 1, 1], &[10, 20, 2, 0]);
    let named = |name: &str, case: RunCase| RunCase { name: name.to_string(), ..case };
    let inner = bin(Operator::Add, 1, bin(Operator::Mod, 7, 0));
    vec![
        named("25: / 0 from a cell", body(bin(Operator::Div, 7, var(2))).refused(25, 2).entries(2)),
        named("25: % 0", body(bin(Operator::Mod, 7, 0)).refused(25, 2).entries(1)),
        named("25: inner operator", body(inner).refused(25, 4)),
        named("24 of the divisor before 25", body(bin(Operator::Div, 7, at(0, 2))).refused(24, 4)),
        named("25, inverse", body(bin(Operator::Div, 0, 0)).inverse().refused(25, 2)),
    ]
}

fn uncleared() -> Vec<RunCase> {
    let left = |locals: &[Variable], statements: Vec<Stmt>| {
        ran("", single(&[public(8)], locals, block(1, locals.len() as u16, statements)).bytes(), &[1], &[5])
    };
    let named = |name: &str, case: RunCase| RunCase { name: name.to_string(), ..case };
    let one = |number: u16| add(var(number), 1);
    let both = || vec![one(1), one(2)];
    let inner = list(vec![add(var(0), 1), block(1, 1, vec![one(1)])]);
    let inner = single(&[public(8)], &[secret(8)], inner).bytes();
    vec![
        named("26: public scalar", left(&[public(8)], vec![one(1)]).refused(26, 0).steps(2)),
        named("26: public array", left(&[public_array(8, 3)], vec![add(at(1, 2), 1)]).refused(26, 0)),
        named("26: secret before public", left(&[secret(8), public(8)], both()).refused(26, 0)),
        named("26: public before secret", left(&[public(8), secret(8)], both()).refused(26, 0)),
        named("26, inverse", left(&[public(8)], vec![one(1)]).inverse().refused(26, 0)),
        named("27: secret array", left(&[secret_array(8, 2)], vec![add(at(1, 1), 1)]).refused(27, 0)),
        named("27: secret left, public cleared", left(&[public(8), secret(8)], vec![one(2)]).refused(27, 0)),
        ran("27: inner block, store as at entry", inner, &[1], &[5]).refused(27, 4).steps(4),
    ]
}

fn returning() -> Vec<RunCase> {
    // A rotation by 64 leaves the counter where it is, in both directions.
    let staying = for_loop(0, 0, 1, update(Change::RotateLeft, var(0), 64));
    let staying = || single(&[], &[Counter], staying.clone()).bytes();
    let jump = for_loop(1, var(0), 9, update(Change::Xor, var(1), 6));
    let jump = || single(&[public(8)], &[Counter], jump.clone()).bytes();
    let unset = |statement: Stmt| {
        let body = for_loop(0, 0, 2, block(1, 1, vec![statement, update(Change::Xor, var(0), 0)]));
        single(&[], &[Counter, public(8)], body).bytes()
    };
    vec![
        ran("28: a counter that stays", staying(), &[], &[]).refused(28, 0).steps(3),
        ran("28, inverse: back at the second bound", staying(), &[], &[]).inverse().refused(28, 0).steps(3),
        ran("28: back at a bound from a cell", jump(), &[1], &[3]).refused(28, 0).steps(5).entries(8),
        ran("28, inverse: back at 9", jump(), &[1], &[3]).inverse().refused(28, 0).steps(5).entries(8),
        ran("26 of the turn before 28", unset(add(var(1), 1)), &[], &[]).refused(26, 3),
    ]
}
