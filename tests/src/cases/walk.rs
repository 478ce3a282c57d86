//! Verdicts 7 to 9: scope, declarations and kinds of variables.

use super::{checked, CheckCase};
use crate::image::Variable::{Constant, Counter};
use crate::image::*;

pub fn checks() -> Vec<CheckCase> {
    let mut cases = names_out_of_scope();
    cases.extend(declarations());
    cases.extend(declared_nowhere());
    cases.extend(arrays_and_constants());
    cases.extend(declared_kinds());
    cases.extend(order());
    cases
}

/// One parameter, public u64 x (0); locals from 1 on.
fn with(locals: &[Variable], body: Stmt) -> Vec<u8> {
    single(&[public(64)], locals, body).bytes()
}

/// Two procedures of one public u64 parameter (0 and 1); the first one's body is empty.
fn second(body: Stmt) -> Vec<u8> {
    let types = [public(64)];
    assemble(&[procedure(&types, &[], Stmt::Empty), procedure(&types, &[], body)]).bytes()
}

fn names_out_of_scope() -> Vec<CheckCase> {
    let after_block = list(vec![block(1, 1, vec![]), add(var(1), 1)]);
    let before_block = list(vec![add(var(0), var(1)), block(1, 1, vec![])]);
    let after_loop = list(vec![for_loop(1, 0, 0, Stmt::Empty), add(var(0), var(1))]);
    let array_after = |value: Expr| list(vec![block(1, 1, vec![]), add(var(0), value)]);
    let small = [public_array(8, 2)];
    let counter_in_body = for_loop(1, 0, 1, add(var(1), 1));
    let constant = block(1, 1, vec![add(var(0), var(1))]);
    vec![
        checked("7: local after its block", with(&[public(8)], after_block), 7, 3),
        checked("7: local before its block", with(&[public(8)], before_block), 7, 3),
        checked("7: counter in its own first bound", with(&[Counter], for_loop(1, var(1), 0, Stmt::Empty)), 7, 1),
        checked("7: counter in its own second bound", with(&[Counter], for_loop(1, 0, var(1), Stmt::Empty)), 7, 2),
        checked("7: counter after its loop", with(&[Counter], after_loop), 7, 7),
        checked("0: counter in its body", with(&[Counter], counter_in_body), 0, 0),
        checked("7: element of an array after its block", with(&small, array_after(at(1, 0).into())), 7, 4),
        checked("7: size of an array after its block", with(&small, array_after(size(1))), 7, 4),
        checked("7: another procedure's parameter", second(add(var(1), var(0))), 7, 3),
        checked("0: constant in its block", with(&[Constant(9)], constant), 0, 0),
        checked("7: local that nothing declares, before 8", with(&[public(8)], add(var(0), var(1))), 7, 2),
    ]
}

fn declarations() -> Vec<CheckCase> {
    let beside = list(vec![block(1, 1, vec![]), block(1, 1, vec![])]);
    let inside = block(1, 1, vec![block(1, 1, vec![])]);
    let part = list(vec![block(1, 1, vec![]), block(1, 2, vec![])]);
    let loops = list(vec![for_loop(1, 0, 0, Stmt::Empty), for_loop(1, 0, 0, Stmt::Empty)]);
    let loop_inside = for_loop(1, 0, 0, for_loop(1, 0, 0, Stmt::Empty));
    let of_block = block(1, 1, vec![for_loop(1, 0, 0, Stmt::Empty)]);
    vec![
        checked("7: declared by blocks beside each other", with(&[public(8)], beside), 7, 2),
        checked("7: declared inside its own block", with(&[public(8)], inside), 7, 1),
        checked("7: one of two names declared before", with(&[public(8), secret(8)], part), 7, 2),
        checked("7: block declares a parameter", with(&[], block(0, 1, vec![])), 7, 0),
        checked("7: block declares another procedure's variable", second(block(0, 1, vec![])), 7, 1),
        checked("7: for over a parameter", with(&[], for_loop(0, 0, 0, Stmt::Empty)), 7, 0),
        checked("7: for over another procedure's variable", second(for_loop(0, 0, 0, Stmt::Empty)), 7, 1),
        checked("7: two loops over one counter", with(&[Counter], loops), 7, 5),
        checked("7: loop inside a loop over the same counter", with(&[Counter], loop_inside), 7, 3),
        checked("7: for over a name that a block declared", with(&[public(64)], of_block), 7, 1),
    ]
}

fn declared_nowhere() -> Vec<CheckCase> {
    let two_bad = {
        let first = procedure(&[], &[public(8)], Stmt::Empty);
        let later = procedure(&[public(8)], &[], add(var(0), 1));
        assemble(&[first, later]).bytes()
    };
    let with_13 = with(&[secret(8)], add(var(0), bin(Operator::Div, 1, 0)));
    let own_10 = {
        let body = if_else(var(0), Stmt::Empty, Stmt::Empty);
        single(&[secret(8)], &[public(8)], body).bytes()
    };
    vec![
        checked("8: scalar", with(&[public(8)], Stmt::Empty), 8, 1),
        checked("8: array", with(&[secret_array(8, 3)], Stmt::Empty), 8, 1),
        checked("8: constant", with(&[Constant(1)], Stmt::Empty), 8, 1),
        checked("8: counter", with(&[Counter], Stmt::Empty), 8, 1),
        checked("8: lowest first", with(&[public(8), public(8), public(8)], block(2, 1, vec![])), 8, 1),
        checked("8: behind a declared one", with(&[public(8), public(8)], block(1, 1, vec![])), 8, 2),
        checked("8 before a later procedure's 7", two_bad, 8, 0),
        checked("8: division of public numbers is fine", with_13, 8, 1),
        checked("10 of the same procedure before 8", own_10, 10, 0),
    ]
}

/// x (0), array a (1), constant k (2) declared around one statement, which is node 1.
fn named(statement: Stmt) -> Vec<u8> {
    single(&[public(64), public_array(64, 0)], &[Constant(3)], block(2, 1, vec![statement])).bytes()
}

fn arrays_and_constants() -> Vec<CheckCase> {
    let as_argument = {
        let callee = procedure(&[public(64)], &[], Stmt::Empty);
        let caller = procedure(&[], &[Constant(3)], block(1, 1, vec![call(0, vec![var(1)])]));
        assemble(&[callee, caller]).bytes()
    };
    let mut element_of_constant = single(&[public(64)], &[Constant(3)], block(1, 1, vec![add(var(0), at(1, 0))]));
    element_of_constant.constants.push(0);
    vec![
        checked("9: array as value", named(add(var(0), var(1))), 9, 3),
        checked("9: array as update target", named(add(var(1), var(0))), 9, 2),
        checked("9: array as swap target", named(swap(var(0), var(1))), 9, 3),
        checked("9: array as condition", named(if_else(var(1), Stmt::Empty, Stmt::Empty)), 9, 2),
        checked("9: array as index", named(add(var(0), at(1, var(1)))), 9, 4),
        checked("9: element of a scalar", named(add(at(0, 0), 1)), 9, 2),
        checked("9: unsafe element of a scalar", named(add(unsafe_at(0, 0), 1)), 9, 2),
        checked("9: element of a constant", element_of_constant.bytes(), 9, 3),
        checked("9: size of a scalar", named(add(at(1, 0), size(0))), 9, 4),
        checked("9: size of a constant", named(add(var(0), size(2))), 9, 3),
        checked("9: constant as update target", named(add(var(2), 1)), 9, 2),
        checked("9: constant as swap target", named(swap(var(0), var(2))), 9, 3),
        checked("9: constant as conditional swap target", named(swap_if(1, var(2), var(0))), 9, 3),
        checked("9: constant as argument", as_argument, 9, 3),
    ]
}

fn declared_kinds() -> Vec<CheckCase> {
    let looped = |local: Variable| with(&[local], for_loop(1, 5, 5, Stmt::Empty));
    vec![
        checked("9: for over a scalar", looped(public(64)), 9, 0),
        checked("9: for over an array", looped(public_array(64, 1)), 9, 0),
        checked("9: for over a constant", looped(Constant(5)), 9, 0),
        checked("9: block declares a counter", with(&[Counter], block(1, 1, vec![])), 9, 0),
        checked("9: block declares a counter behind a scalar", with(&[public(8), Counter], block(1, 2, vec![])), 9, 0),
    ]
}

fn order() -> Vec<CheckCase> {
    let later_7 = list(vec![add(at(0, 0), 1), add(var(1), 1)]);
    let block_first = block(1, 1, vec![add(var(2), 1)]);
    let both = list(vec![block(1, 1, vec![]), block(1, 2, vec![])]);
    let bounds_first = for_loop(0, var(1), 0, Stmt::Empty);
    let name_before_body = for_loop(0, 0, 0, add(var(1), 1));
    let target_9_value_7 = add(at(0, 0), var(1));
    let index_7_array_9 = add(at(0, var(1)), 1);
    let index_9_array_7 = add(at(1, at(0, 0)), 1);
    let locals = [public(64)];
    vec![
        checked("9 before a later statement's 7", with(&locals, later_7), 9, 2),
        checked("9 of a target before the value's 7", with(&locals, target_9_value_7), 9, 1),
        checked("7 of an index before the element's own 9", with(&locals, index_7_array_9), 7, 2),
        checked("9 of an index before the element's own 7", with(&locals, index_9_array_7), 9, 2),
        checked("9 of a block before its statements", with(&[Counter, public(8)], block_first), 9, 0),
        checked("7 for all names of a block before 9", with(&[public(8), Counter], both), 7, 2),
        checked("7 of a bound before the for's own 7", with(&locals, bounds_first), 7, 1),
        checked("7 of a for before its body", with(&locals, name_before_body), 7, 0),
    ]
}
