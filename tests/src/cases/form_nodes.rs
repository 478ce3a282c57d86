//! Verdicts 5 and 6: node records and the tree.

use super::{checked, CheckCase};
use crate::image::*;

pub fn checks() -> Vec<CheckCase> {
    let mut cases = kinds_and_operators();
    cases.extend(fields());
    cases.extend(references());
    cases.extend(classes());
    cases.extend(nexts());
    cases.extend(references_counted());
    cases.extend(shape());
    cases
}

/// Two public u64 parameters x (0) and y (1) and a body; `damage` gets the nodes.
fn damaged(body: Stmt, damage: impl Fn(&mut Vec<NodeRecord>)) -> Vec<u8> {
    let mut raw = single(&[public(64), public(64)], &[], body);
    damage(&mut raw.nodes);
    raw.bytes()
}

/// `x += y + 5`: update 0, x 1, sum 2, y 3, number 4.
fn sum(damage: impl Fn(&mut Vec<NodeRecord>)) -> Vec<u8> {
    damaged(add(var(0), bin(Operator::Add, var(1), 5)), damage)
}

fn kinds_and_operators() -> Vec<CheckCase> {
    vec![
        checked("0: x += y + 5", sum(|_| ()), 0, 0),
        checked("5: kind 0", damaged(Stmt::Empty, |n| n[0].kind = 0), 5, 0),
        checked("5: kind 10", damaged(Stmt::Empty, |n| n[0].kind = 10), 5, 0),
        checked("5: kind 19 referred to blames the one that refers", sum(|n| n[4].kind = 19), 5, 2),
        checked("5: kind 27 referred to blames the one that refers", sum(|n| n[2].kind = 27), 5, 0),
        checked("5: kind 255", damaged(Stmt::Empty, |n| n[0].kind = 255), 5, 0),
        checked("5: update operator 0", sum(|n| n[0].operator = 0), 5, 0),
        checked("5: update operator 6", sum(|n| n[0].operator = 6), 5, 0),
        checked("5: binary operator 0", sum(|n| n[2].operator = 0), 5, 2),
        checked("5: binary operator 17", sum(|n| n[2].operator = 17), 5, 2),
        checked("5: operator on a kind without", damaged(Stmt::Empty, |n| n[0].operator = 1), 5, 0),
    ]
}

fn fields() -> Vec<CheckCase> {
    let size_of = damaged(add(var(0), size(2)), |_| ());
    let element_of = damaged(add(var(0), at(2, 0)), |_| ());
    vec![
        checked("5: unused a", damaged(Stmt::Empty, |n| n[0].a = 1), 5, 0),
        checked("5: unused d missing instead of 0", damaged(Stmt::Empty, |n| n[0].d = MISSING), 5, 0),
        checked("5: unused b of a variable", sum(|n| n[1].b = 1), 5, 1),
        checked("5: unused c of a binary", sum(|n| n[2].c = 4), 5, 2),
        checked("5: constant number K", sum(|n| n[4].a = 1), 5, 4),
        checked("5: variable number V", sum(|n| n[3].a = 2), 5, 3),
        checked("5: element of variable V", element_of, 5, 2),
        checked("5: size of variable V", size_of, 5, 2),
        checked("5: for over variable V", damaged(for_loop(2, 0, 0, Stmt::Empty), |_| ()), 5, 0),
        checked("5: call of procedure P", damaged(call(1, vec![]), |_| ()), 5, 0),
        checked("5: block range passes V", damaged(block(1, 2, vec![]), |_| ()), 5, 0),
        checked("5: block range far past V", damaged(block(65_535, 2, vec![]), |_| ()), 5, 0),
        checked("5: block of no names with a first one", damaged(block(1, 0, vec![]), |_| ()), 5, 0),
    ]
}

fn references() -> Vec<CheckCase> {
    let branches = |damage: fn(&mut Vec<NodeRecord>)| damaged(if_else(var(0), Stmt::Empty, Stmt::Empty), damage);
    vec![
        checked("5: missing value", sum(|n| n[0].b = MISSING), 5, 0),
        checked("5: missing else", branches(|n| n[0].c = MISSING), 5, 0),
        checked("5: missing loop body", damaged(for_loop(0, 0, 0, Stmt::Empty), |n| n[0].d = MISSING), 5, 0),
        checked("5: reference to N", sum(|n| n[2].b = 5), 5, 2),
        checked("5: reference to itself", sum(|n| n[2].a = 2), 5, 2),
        checked("5: reference to a lower node", sum(|n| n[2].a = 1), 5, 2),
        checked(
            "5: two wrong, lowest first",
            sum(|n| {
                n[4].a = 9;
                n[2].c = 1
            }),
            5,
            2,
        ),
    ]
}

fn classes() -> Vec<CheckCase> {
    let to_statement = |body: Stmt, damage: fn(&mut Vec<NodeRecord>)| damaged(body, damage);
    let number_argument = to_statement(call(0, vec![var(0)]), |n| n[1] = node(20, 0, [0; 4]));
    let number_target = sum(|n| n[1] = node(20, 0, [0; 4]));
    let statement_value = sum(|n| n[2] = node(1, 0, [0; 4]));
    let swap_size = damaged(swap(var(0), var(1)), |n| n[2].kind = 24);
    let lvalue_in_block = damaged(list(vec![Stmt::Empty]), |n| n[1] = node(21, 0, [0; 4]));
    let condition = damaged(if_else(var(0), Stmt::Empty, Stmt::Empty), |n| n[1] = node(1, 0, [0; 4]));
    let branch = damaged(if_else(var(0), Stmt::Empty, Stmt::Empty), |n| n[3] = node(21, 0, [0; 4]));
    let constant_argument = {
        let mut raw = single(&[public(64)], &[], call(0, vec![var(0)]));
        raw.constants.push(3);
        raw.nodes[1] = node(20, 0, [0; 4]);
        raw.bytes()
    };
    vec![
        checked("5: update target is a number", number_target, 5, 0),
        checked("5: update value is a statement", statement_value, 5, 0),
        checked("5: swap target is a size", swap_size, 5, 0),
        checked("5: block's statement is an L-value", lvalue_in_block, 5, 0),
        checked("5: if condition is a statement", condition, 5, 0),
        checked("5: else is an L-value", branch, 5, 0),
        checked("5: argument is a number without constants", number_argument, 5, 0),
        checked("5: argument is a number", constant_argument, 5, 0),
    ]
}

/// `{ x += 1; y += 1; }`: block 0, update 1, x 2, number 3, update 4, y 5, number 6.
fn pair(damage: impl Fn(&mut Vec<NodeRecord>)) -> Vec<u8> {
    damaged(list(vec![add(var(0), 1), add(var(1), 1)]), damage)
}

fn nexts() -> Vec<CheckCase> {
    vec![
        checked("0: { x += 1; y += 1; }", pair(|_| ()), 0, 0),
        checked("5: next to itself", pair(|n| n[1].next = 1), 5, 1),
        checked("5: next to a lower node", pair(|n| n[4].next = 1), 5, 4),
        checked("5: next is N", pair(|n| n[4].next = 7), 5, 4),
        checked("5: next on a number", pair(|n| n[3].next = 6), 5, 3),
        checked("5: next 0 on a number", pair(|n| n[3].next = 0), 5, 3),
        checked("5: next of a statement is an L-value", pair(|n| n[1].next = 5), 5, 1),
        checked("5: next of an L-value is a statement", pair(|n| n[2].next = 4), 5, 2),
    ]
}

fn references_counted() -> Vec<CheckCase> {
    let mut shared_body = assemble(&vec![procedure(&[], &[], Stmt::Empty); 2]);
    shared_body.procedures[1].body = 0;
    let mut body_is_child = assemble(&[procedure(&[], &[], list(vec![Stmt::Empty])), procedure(&[], &[], Stmt::Empty)]);
    body_is_child.procedures[1].body = 1;
    let mut body_and_count = assemble(&[procedure(&[], &[], add(var(0), 1))]);
    body_and_count.procedures[0].body = 1;
    body_and_count.variables.push(VariableRecord { kind: 0, secrecy: 0, size: 8, zero: 0, extra: 0 });
    body_and_count.procedures[0].count = 1;
    body_and_count.procedures[0].parameters = 1;
    vec![
        checked("6: statement never referred to", pair(|n| n[1].next = MISSING), 6, 4),
        checked("6: node 0 never referred to", body_and_count.bytes(), 6, 0),
        checked("6: a number never referred to, a later one twice", pair(|n| n[1].b = 6), 6, 3),
        checked("6: both operands one node", sum(|n| n[2].a = 4), 6, 3),
        checked("6: one body for two procedures", shared_body.bytes(), 6, 0),
        checked("6: a body that is a child too", body_is_child.bytes(), 6, 1),
        checked(
            "5 before 6: reference counts and a field",
            pair(|n| {
                n[1].next = MISSING;
                n[6].a = 9
            }),
            5,
            6,
        ),
    ]
}

/// Blocks inside blocks; the innermost, an empty statement, has the given depth.
fn nested(depth: usize) -> Stmt {
    (1..depth).fold(Stmt::Empty, |inner, _| list(vec![inner]))
}

/// A procedure whose body is the number node 0, before one whose body is fine.
fn number_body() -> Raw {
    let mut raw = assemble(&[procedure(&[], &[], Stmt::Empty)]);
    raw.nodes[0] = node(20, 0, [0; 4]);
    raw.constants.push(1);
    raw
}

fn shape() -> Vec<CheckCase> {
    let branches = if_else(var(0), Stmt::Empty, Stmt::Empty);
    let then_next = damaged(branches, |n| {
        n[2].next = 4;
        n.push(node(1, 0, [0; 4]));
    });
    let body_next = damaged(Stmt::Empty, |n| {
        n[0].next = 1;
        n.push(node(1, 0, [0; 4]));
    });
    let target_next = damaged(add(var(0), 1), |n| {
        n[1].next = 3;
        n.push(node(21, 0, [1, 0, 0, 0]));
    });
    let value_next = damaged(add(var(0), var(1)), |n| {
        n[2].next = 3;
        n.push(node(21, 0, [1, 0, 0, 0]));
    });
    let mut late_count = number_body();
    late_count.nodes.push(node(1, 0, [0; 4]));
    let mut two_faults = number_body();
    two_faults.procedures.insert(0, ProcedureRecord { body: 1, ..two_faults.procedures[0] });
    two_faults.nodes.push(node(1, 0, [0; 4]).next(2));
    two_faults.nodes.push(node(1, 0, [0; 4]));
    vec![
        checked("6: body is a number", number_body().bytes(), 6, 0),
        checked("6: next on a branch", then_next, 6, 2),
        checked("6: next on a body", body_next, 6, 0),
        checked("6: next on an update's target", target_next, 6, 1),
        checked("6: next on an update's value", value_next, 6, 2),
        checked("6: a count before a bad body", late_count.bytes(), 6, 1),
        checked("6: bad body before a bad next, lowest node", two_faults.bytes(), 6, 0),
        checked("0: blocks to depth 32", damaged(nested(32), |_| ()), 0, 0),
        checked("6: blocks to depth 33", damaged(nested(33), |_| ()), 6, 32),
        checked("0: next keeps the depth", damaged(list(vec![Stmt::Empty; 34]), |_| ()), 0, 0),
        checked("0: arguments keep the depth of the first", arguments_chain(), 0, 0),
    ]
}

fn arguments_chain() -> Vec<u8> {
    let types = vec![public(8); 16];
    let callee = procedure(&types, &[], Stmt::Empty);
    let deep_call = (1..30).fold(call(0, (16..32).map(var).collect()), |inner, _| list(vec![inner]));
    assemble(&[callee, procedure(&types, &[], deep_call)]).bytes()
}
