//! Verdicts 10 to 13: secrecy, root clashes, calls and division.

use super::{checked, CheckCase};
use crate::image::Variable::Counter;
use crate::image::*;

pub fn checks() -> Vec<CheckCase> {
    let mut cases = secrecy();
    cases.extend(secret_control());
    cases.extend(clashes());
    cases.extend(swap_clashes());
    cases.extend(locked());
    cases.extend(call_clashes());
    cases.extend(calls_that_do_not_fit());
    cases.extend(swap_types());
    cases.extend(division());
    cases
}

/// The parameters of `mixed`.
const P: u16 = 0;
const S: u16 = 1;
const PA: u16 = 2;
const SA: u16 = 3;

/// Public u64 p, secret u64 s, public u64 array pa, secret u64 array sa; the body is node 0.
fn mixed(body: Stmt) -> Vec<u8> {
    let types = [public(64), secret(64), public_array(64, 0), secret_array(64, 0)];
    single(&types, &[], body).bytes()
}

fn empty() -> Stmt {
    Stmt::Empty
}

fn secrecy() -> Vec<CheckCase> {
    let sum = bin(Operator::Add, var(P), var(S));
    vec![
        checked("10: secret index of a target", mixed(add(at(SA, var(S)), 1)), 10, 1),
        checked("10: secret index in a value", mixed(add(var(S), at(PA, not(var(S))))), 10, 2),
        checked("0: unsafe with a secret index", mixed(add(unsafe_at(SA, var(S)), 1)), 0, 0),
        checked("0: unsafe with a public index", mixed(add(unsafe_at(SA, var(P)), 1)), 0, 0),
        checked("10: unsafe on a public array", mixed(add(unsafe_at(PA, var(P)), 1)), 10, 1),
        checked("10: secret into public", mixed(add(var(P), var(S))), 10, 0),
        checked("10: mixed operands into public", mixed(add(var(P), bin(Operator::Mul, 2, var(S)))), 10, 0),
        checked("10: secret element into a public element", mixed(add(at(PA, 0), at(SA, 0))), 10, 0),
        checked("0: public into secret", mixed(add(var(S), var(P))), 0, 0),
        checked("0: size of a secret array is public", mixed(add(var(P), size(SA))), 0, 0),
        checked("10 before 11: p += p + s", mixed(add(var(P), sum)), 10, 0),
        checked("10 of an unsafe before the update's 11", mixed(add(unsafe_at(PA, at(PA, 0)), 1)), 10, 1),
    ]
}

fn secret_control() -> Vec<CheckCase> {
    let changed = if_else(var(S), add(var(S), 1), empty());
    let inner_first = if_else(var(S), add(var(P), var(P)), empty());
    let looped =
        |first: Expr, second: Expr, body: Stmt| single(&[public(64), secret(64)], &[Counter], for_loop(2, first, second, body)).bytes();
    let both = [public(64), secret(64), secret(64), secret(8)];
    let swapped = |condition: Expr, left: u16, right: u16| single(&both, &[], swap_if(condition, var(left), var(right))).bytes();
    vec![
        checked("10: secret if condition", mixed(if_else(var(S), empty(), empty())), 10, 0),
        checked("10 before 11: secret if condition that is changed", mixed(changed), 10, 0),
        checked("11 in a branch before the if's own 10", mixed(inner_first), 11, 2),
        checked("10: secret first bound", looped(var(1).into(), 0.into(), empty()), 10, 0),
        checked("10: secret second bound", looped(0.into(), var(1).into(), empty()), 10, 0),
        checked("11 in a body before the for's own 10", looped(var(1).into(), 0.into(), add(var(0), var(0))), 11, 3),
        checked("10: secret swap condition, first target public", swapped(var(1).into(), 0, 2), 10, 0),
        checked("10: secret swap condition, second target public", swapped(var(1).into(), 2, 0), 10, 0),
        checked("0: secret swap condition, secret targets", swapped(var(1).into(), 2, 2), 0, 0),
        checked("10 before 11: secret swap condition clashes", swapped(var(1).into(), 1, 0), 10, 0),
        checked("12: conditional swap of different sizes", swapped(1.into(), 2, 3), 12, 0),
        checked("11 before 12: condition names a target of another size", swapped(var(3).into(), 2, 3), 11, 0),
    ]
}

fn clashes() -> Vec<CheckCase> {
    let last = bin(Operator::Sub, size(PA), 1);
    vec![
        checked("11: x += ~x", mixed(add(var(P), not(var(P)))), 11, 0),
        checked("11: a[0] += a[1]", mixed(add(at(PA, 0), at(PA, 1))), 11, 0),
        checked("11: a[a[0]] += 1", mixed(add(at(PA, at(PA, 0)), 1)), 11, 0),
        checked("11: unsafe a[a[0]] += 1", mixed(add(unsafe_at(SA, at(SA, 0)), 1)), 11, 0),
        checked("11: x += a[x]", mixed(add(var(P), at(PA, var(P)))), 11, 0),
        checked("11: unsafe a[unsafe a[0]] += 1", mixed(add(unsafe_at(SA, unsafe_at(SA, 0)), 1)), 11, 0),
        checked("0: a[size a - 1] += 1", mixed(add(at(PA, last), 1)), 0, 0),
        checked("0: a[x] += x", mixed(add(at(PA, var(P)), var(P))), 0, 0),
    ]
}

fn swap_clashes() -> Vec<CheckCase> {
    let two = |body: Stmt| single(&[public_array(64, 0), public_array(64, 0), public(64)], &[], body).bytes();
    vec![
        checked("11: a[x] <-> x", two(swap(at(0, var(2)), var(2))), 11, 0),
        checked("11: x <-> a[x]", two(swap(var(2), at(0, var(2)))), 11, 0),
        checked("11: a[a[0]] <-> b[0], only its own index", two(swap(at(0, at(0, 0)), at(1, 0))), 11, 0),
        checked("11: b[0] <-> a[a[0]], only its own index", two(swap(at(1, 0), at(0, at(0, 0)))), 11, 0),
        checked("11: conditional swap, root in the condition", two(swap_if(at(1, 0), at(0, 0), at(1, 1))), 11, 0),
        checked("11: conditional swap, root in its own index", two(swap_if(1, at(0, at(0, 0)), at(1, 0))), 11, 0),
        checked("0: conditional swap, size of a root in the condition", two(swap_if(size(0), at(0, 0), var(2))), 0, 0),
        checked("0: x <-> x", two(swap(var(2), var(2))), 0, 0),
        checked("0: a[0] <-> a[0]", two(swap(at(0, 0), at(0, 0))), 0, 0),
        checked("0: a[x] <-> b[x]", two(swap(at(0, var(2)), at(1, var(2)))), 0, 0),
    ]
}

/// Callee (public u64 parameter 0); caller with public u64 x (1), array a (2) and counter i (3).
fn caller(body: Stmt) -> Vec<u8> {
    let callee = procedure(&[public(64)], &[], add(var(0), 1));
    let types = [public(64), public_array(64, 0)];
    assemble(&[callee, procedure(&types, &[Counter], body)]).bytes()
}

/// The same with the counter used up by a loop of its own behind the statement. The block is node 3.
fn caller_list(statement: Stmt) -> Vec<u8> {
    caller(list(vec![statement, for_loop(3, 0, 0, Stmt::Empty)]))
}

fn locked() -> Vec<CheckCase> {
    let looped = |second: Expr, body: Stmt| caller(for_loop(3, 0, second, body));
    let branch = |condition: Expr, yes: Stmt, no: Stmt| caller_list(if_else(condition, yes, no));
    let in_size = branch(size(2), add(at(2, 0), 1), empty());
    let deep = list(vec![empty(), list(vec![swap(at(2, 0), var(1))])]);
    let counted = add(var(3), 1);
    vec![
        checked("11: condition changed in then", branch(var(1).into(), add(var(1), 1), empty()), 11, 4),
        checked("11: condition changed in else", branch(var(1).into(), empty(), add(var(1), 1)), 11, 4),
        checked("11: array of the condition changed", branch(at(2, 0).into(), add(at(2, 1), 1), empty()), 11, 4),
        checked("11: index of the condition changed", branch(at(2, var(1)).into(), add(var(1), 1), empty()), 11, 4),
        checked("11: condition changed by an argument", branch(var(1).into(), call(0, vec![var(1)]), empty()), 11, 4),
        checked("0: size in the condition does not lock", in_size, 0, 0),
        checked("11: bound changed in the body", looped(var(1).into(), add(var(1), 1)), 11, 3),
        checked("11: bound changed deep in the body", looped(var(1).into(), deep), 11, 3),
        checked("11: bound changed by an uncall", looped(at(2, 0).into(), uncall(0, vec![at(2, 1)])), 11, 3),
        checked("0: counter changed in the body", looped(var(1).into(), counted), 0, 0),
        checked("0: counter as argument", looped(var(1).into(), call(0, vec![var(3)])), 0, 0),
        checked("0: counter swapped with a public u64", looped(4.into(), swap(var(3), var(1))), 0, 0),
    ]
}

/// Callee of a public u64 scalar and a public u64 array; caller with x (2), y (3), arrays a (4), b (5).
fn pair_call(statement: Stmt) -> Vec<u8> {
    let callee = procedure(&[public(64), public_array(64, 0)], &[], Stmt::Empty);
    let types = [public(64), public(64), public_array(64, 0), public_array(64, 0)];
    assemble(&[callee, procedure(&types, &[], statement)]).bytes()
}

fn call_clashes() -> Vec<CheckCase> {
    let fits = |l: LValue, r: LValue| pair_call(call(0, vec![l, r]));
    vec![
        checked("0: call f(x, a)", fits(var(2), var(4)), 0, 0),
        checked("0: call f(a[x], b)", fits(at(4, var(2)), var(5)), 0, 0),
        checked("0: call f(a[size a], b)", fits(at(4, size(4)), var(5)), 0, 0),
        checked("11: an array and its element as arguments", fits(at(4, 0), var(4)), 11, 1),
        checked("11: argument in the other's index", fits(at(4, at(5, 0)), var(5)), 11, 1),
        checked("11: argument in its own index", fits(at(4, at(4, 0)), var(5)), 11, 1),
        checked("11 before 12: two scalars with one root", fits(var(2), var(2)), 11, 1),
        checked("11 before 12: too many arguments, one root", pair_call(call(0, vec![var(2), var(4), var(2)])), 11, 1),
        checked("11 before 12: own number, one root", pair_call(uncall(1, vec![var(2), var(2)])), 11, 1),
        checked("9 of an argument before the call's own 12", pair_call(call(0, vec![at(2, 0)])), 9, 2),
    ]
}

fn calls_that_do_not_fit() -> Vec<CheckCase> {
    let other = |parameter: Variable, own: Variable, argument: LValue| {
        let callee = procedure(&[parameter], &[], Stmt::Empty);
        assemble(&[callee, procedure(&[own], &[], call(0, vec![argument]))]).bytes()
    };
    let later = {
        let bare = |body: Stmt| procedure(&[], &[], body);
        assemble(&[bare(call(1, vec![])), bare(Stmt::Empty)]).bytes()
    };
    vec![
        checked("12: call of itself", single(&[], &[], call(0, vec![])).bytes(), 12, 0),
        checked("12: uncall of itself", single(&[], &[], uncall(0, vec![])).bytes(), 12, 0),
        checked("12: call of a later procedure", later, 12, 0),
        checked("12: too few arguments", pair_call(call(0, vec![var(2)])), 12, 1),
        checked("12: no arguments", pair_call(call(0, vec![])), 12, 1),
        checked("12: too many arguments", pair_call(uncall(0, vec![var(2), var(4), var(3)])), 12, 1),
        checked("12: arguments the wrong way round", pair_call(call(0, vec![var(4), var(2)])), 12, 1),
        checked("12: array for a scalar", other(public(8), public_array(8, 0), var(1)), 12, 1),
        checked("12: scalar for an array", other(public_array(8, 0), public(8), var(1)), 12, 1),
        checked("12: element for an array", other(public_array(8, 0), public_array(8, 0), at(1, 0)), 12, 1),
        checked("12: public for secret", other(secret(8), public(8), var(1)), 12, 1),
        checked("12: secret for public", other(public(8), secret(8), var(1)), 12, 1),
        checked("12: another size", other(secret(8), secret(16), var(1)), 12, 1),
        checked("0: element for a scalar", other(secret(8), secret_array(8, 0), at(1, 0)), 0, 0),
        checked("0: unsafe element for a scalar", other(secret(8), secret_array(8, 0), unsafe_at(1, 0)), 0, 0),
    ]
}

fn swap_types() -> Vec<CheckCase> {
    let types = |left: Variable, right: Variable| single(&[left, right], &[], swap(var(0), var(1))).bytes();
    vec![
        checked("12: swap of different sizes", types(public(8), public(16)), 12, 0),
        checked("12: swap of public and secret", types(public(8), secret(8)), 12, 0),
        checked(
            "11 before 12: a[x] <-> x of different sizes",
            single(&[public_array(8, 0), public(64)], &[], swap(at(0, var(1)), var(1))).bytes(),
            11,
            0,
        ),
        checked("0: swap of an element and a scalar", mixed(swap(at(SA, 0), var(S))), 0, 0),
    ]
}

fn division() -> Vec<CheckCase> {
    let divided = |l: Expr, r: Expr| bin(Operator::Div, l, r);
    let rest = |l: Expr, r: Expr| bin(Operator::Mod, l, r);
    let s = || Expr::from(var(S));
    let twice = rest(divided(s(), 3.into()), 2.into());
    vec![
        checked("13: secret / public", mixed(add(var(S), divided(at(SA, 0).into(), 3.into()))), 13, 2),
        checked("13: public % secret", mixed(add(var(P), rest(7.into(), s()))), 13, 2),
        checked("13: secret under a not", mixed(add(var(P), rest(not(s()), 2.into()))), 13, 2),
        checked("13: inner operator first", mixed(add(at(SA, 0), twice)), 13, 4),
        checked("13 in an index before the element's 10", mixed(add(at(SA, divided(s(), 3.into())), 1)), 13, 2),
        checked("0: public / public into secret", mixed(add(var(S), divided(var(P).into(), 0.into()))), 0, 0),
        checked("0: size of a secret array as divisor", mixed(add(var(P), rest(7.into(), size(SA)))), 0, 0),
    ]
}
