//! Images that give a checker as much to do as document 01's limits allow, and a long loop, a long list and the deepest nesting for a
//! runner. All but one are accepted.

use crate::image::Operator::Or;
use crate::image::*;

const MOST_PROCEDURES: usize = 32;
const MOST_VARIABLES: u16 = 1_024;
const MOST_NODES: usize = 4_096;
const MOST_CONSTANTS: usize = 512;
const MOST_PARAMETERS: u16 = 16;
const DEEPEST: u16 = 32;
const NESTED: u16 = 29;
const CHANGES: u16 = 2_000;

/// Names and images for timing the check.
pub fn images() -> Vec<(&'static str, Vec<u8>)> {
    vec![
        ("40 bytes", single(&[], &[], Stmt::Empty).bytes()),
        ("largest", largest()),
        ("if over 970 names, 2,000 changes", wide_condition()),
        ("29 nested ifs, 2,000 changes", nested_ifs()),
        ("29 nested fors, 2,000 changes", nested_fors()),
        ("update with 2,046 mentions", long_update()),
        ("124 calls of 16 elements", many_calls()),
        ("4,095 statements in a block", long_list()),
    ]
}

/// `for (i = 0; turns) { x += i; i += 1; }`: four steps a turn and one more.
pub fn long_loop(turns: u64) -> Vec<u8> {
    let body = list(vec![add(var(0), var(1)), add(var(1), 1)]);
    single(&[public(64)], &[Variable::Counter], for_loop(1, 0, turns, body)).bytes()
}

/// As many statements in a row as fit: forward and inverse, a list is as long as it can be.
pub fn long_list() -> Vec<u8> {
    single(&[], &[], list(vec![Stmt::Empty; MOST_NODES - 1])).bytes()
}

/// A call with as many arguments as fit. It is refused with 11, since it lends one variable more than once.
pub fn long_call() -> Vec<u8> {
    let caller = procedure(&[public(64)], &[], call(0, vec![var(0); MOST_NODES - 2]));
    assemble(&[procedure(&[], &[], Stmt::Empty), caller]).bytes()
}

/// Every procedure calls the one before it as deep inside as it may: 32 levels in each of 32 procedures.
pub fn deepest_run() -> Vec<u8> {
    let deep = |inner: Stmt| (1..DEEPEST).fold(inner, |body, _| list(vec![body]));
    let mut procedures = vec![procedure(&[], &[], deep(Stmt::Empty))];
    for below in 0..MOST_PROCEDURES as u16 - 1 {
        procedures.push(procedure(&[], &[], deep(call(below, vec![]))));
    }
    assemble(&procedures).bytes()
}

/// The names or-ed together, in a tree as low as can be.
fn all_of(names: &[u16]) -> Expr {
    if let [name] = names {
        return var(*name).into();
    }
    let (left, right) = names.split_at(names.len() / 2);
    bin(Or, all_of(left), all_of(right))
}

fn largest() -> Vec<u8> {
    let mut procedures = vec![procedure(&[], &[], Stmt::Empty); MOST_PROCEDURES - 1];
    let left = MOST_NODES - procedures.len() - 1;
    let names = (0..left / 3).map(|i| i as u16 % (MOST_VARIABLES - 1));
    let mut statements: Vec<Stmt> = names.map(|name| add(var(name), var(name + 1))).collect();
    statements.extend(vec![Stmt::Empty; left % 3]);
    let locals = vec![public(64); usize::from(MOST_VARIABLES)];
    procedures.push(procedure(&[], &locals, block(0, MOST_VARIABLES, statements)));
    let mut raw = assemble(&procedures);
    raw.constants = vec![0; MOST_CONSTANTS];
    raw.bytes()
}

/// An image of two procedures, of which 0 takes `width` scalars, so that a call changes that many names in `width + 1` nodes.
/// The second has 16 parameters, from number `width` on.
fn with_changer(width: u16, parameter: Variable, locals: &[Variable], body: Stmt) -> Vec<u8> {
    let changer = procedure(&vec![public(64); usize::from(width)], &[], Stmt::Empty);
    assemble(&[changer, procedure(&[parameter; MOST_PARAMETERS as usize], locals, body)]).bytes()
}

/// Calls that change the first `width` parameters.
fn changes(width: u16) -> Stmt {
    let arguments: Vec<LValue> = (width..2 * width).map(var).collect();
    list(vec![call(0, arguments); usize::from(CHANGES / width)])
}

fn wide_condition() -> Vec<u8> {
    let first = 2 * MOST_PARAMETERS;
    let names: Vec<u16> = (first..first + 970).collect();
    let body = if_else(all_of(&names), changes(MOST_PARAMETERS), Stmt::Empty);
    let locals = vec![public(64); names.len()];
    with_changer(MOST_PARAMETERS, public(64), &locals, block(first, names.len() as u16, vec![body]))
}

/// Half of the parameters change, the other half are named by conditions and bounds: no block fits around 29 levels.
const HALF: u16 = MOST_PARAMETERS / 2;

/// Sixteen mentions of what does not change, or as many as still fit below a statement of this depth.
fn unchanged(depth: u16) -> Expr {
    let mentions = 1 << (DEEPEST - depth - 1).min(4);
    let names: Vec<u16> = (0..mentions).map(|i| 2 * HALF + i % HALF).collect();
    all_of(&names)
}

fn nested(locals: &[Variable], around: impl Fn(u16, Stmt) -> Stmt) -> Vec<u8> {
    let body = (1..=NESTED).rev().fold(changes(HALF), |body, depth| around(depth, body));
    with_changer(HALF, public(64), locals, body)
}

fn nested_ifs() -> Vec<u8> {
    nested(&[], |depth, body| if_else(unchanged(depth), body, Stmt::Empty))
}

fn nested_fors() -> Vec<u8> {
    let first_counter = HALF + MOST_PARAMETERS;
    let counters = [Variable::Counter; NESTED as usize];
    nested(&counters, |depth, body| for_loop(first_counter + depth - 1, 0, unchanged(depth), body))
}

/// Each of 1,023 names is mentioned twice.
fn long_update() -> Vec<u8> {
    let names: Vec<u16> = (0..2 * (MOST_VARIABLES - 1)).map(|i| 1 + i % (MOST_VARIABLES - 1)).collect();
    let locals = vec![public(64); usize::from(MOST_VARIABLES)];
    single(&[], &locals, block(0, MOST_VARIABLES, vec![add(var(0), all_of(&names))])).bytes()
}

fn many_calls() -> Vec<u8> {
    let index = 2 * MOST_PARAMETERS;
    let arguments: Vec<LValue> = (MOST_PARAMETERS..index).map(|array| at(array, var(index))).collect();
    let body = block(index, 1, vec![call(0, arguments); 124]);
    with_changer(MOST_PARAMETERS, public_array(64, 0), &[public(64)], body)
}

#[cfg(test)]
mod tests {
    use super::*;
    use crate::reference::{check, run, Call, WORK_WORDS};

    #[test]
    fn all_are_accepted() {
        for (name, image) in images() {
            assert_eq!(check(&image), (0, 0), "{name}");
        }
    }

    #[test]
    fn the_largest_is_as_large_as_can_be() {
        assert_eq!(largest().len(), 59_668);
    }

    #[test]
    fn the_deepest_run_takes_every_level() {
        let image = deepest_run();
        assert_eq!(check(&image), (0, 0));
        let work = &mut [0; WORK_WORDS];
        let answer = run(Call { image: &image, inverse: true, lengths: &[], store: &mut [], work, budget: 2_000, trace: &mut [] });
        assert_eq!((answer.number, answer.steps), (0, u64::from(DEEPEST) * MOST_PROCEDURES as u64));
        assert_eq!(check(&long_call()).0, 11);
    }

    #[test]
    fn a_loop_takes_four_steps_a_turn() {
        let mut store = [0];
        let (image, work) = (long_loop(25), &mut [0; WORK_WORDS]);
        let answer = run(Call { image: &image, inverse: false, lengths: &[1], store: &mut store, work, budget: 101, trace: &mut [] });
        assert_eq!((answer.number, answer.steps, store), (0, 101, [300]));
    }
}
