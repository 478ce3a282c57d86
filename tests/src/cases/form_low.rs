//! Verdicts 1 to 4: size, layout, procedure and variable records.

use super::turns::PRINTED;
use super::{checked, CheckCase};
use crate::image::*;

pub fn checks() -> Vec<CheckCase> {
    let mut cases = sizes();
    cases.extend(layouts());
    cases.extend(procedures());
    cases.extend(shared_out());
    cases.extend(variables());
    cases.extend(extras());
    cases
}

fn empty_body() -> Procedure {
    procedure(&[], &[], Stmt::Empty)
}

fn header_word(offset: usize, value: u16) -> Vec<u8> {
    let mut bytes = PRINTED.to_vec();
    set_word(&mut bytes, offset, value);
    bytes
}

fn sizes() -> Vec<CheckCase> {
    let mut format_and_count = header_word(0, 0);
    set_word(&mut format_and_count, 2, 0);
    vec![
        checked("1: no bytes", vec![], 1, 0),
        checked("1: 19 bytes", PRINTED[..19].to_vec(), 1, 0),
        checked("1: format 2", header_word(0, 2), 1, 0),
        checked("1: format 257", header_word(0, 257), 1, 0),
        checked("1 before 2: format 0 and no procedures", format_and_count, 1, 0),
    ]
}

fn layouts() -> Vec<CheckCase> {
    let mut tail = header_word(18, 41);
    tail.push(0);
    let mut longer = PRINTED.to_vec();
    longer.push(0);
    let mut gap = PRINTED.to_vec();
    gap.splice(28..28, [0, 0]);
    for (offset, value) in [(12, 30), (14, 30), (16, 42), (18, 42)] {
        set_word(&mut gap, offset, value);
    }
    let no_nodes = Raw { nodes: vec![], ..assemble(&[empty_body()]) };
    let no_procedures = Raw { procedures: vec![], ..assemble(&[empty_body()]) };
    let mut count_and_body = header_word(4, 1);
    set_word(&mut count_and_body, 26, 9);
    vec![
        checked("2: the header alone", PRINTED[..20].to_vec(), 2, 0),
        checked("2: last byte cut off", PRINTED[..39].to_vec(), 2, 0),
        checked("2: one byte more than the total", longer, 2, 0),
        checked("2: tail behind the constants that the total counts", tail, 2, 0),
        checked("2: gap between procedures and variables", gap, 2, 0),
        checked("2: no procedures", no_procedures.bytes(), 2, 0),
        checked("2: no nodes", no_nodes.bytes(), 2, 0),
        checked("2: one variable too many counted", header_word(4, 1), 2, 0),
        checked("2: one constant too many counted", header_word(8, 1), 2, 0),
        checked("2: node count with a high byte", header_word(6, 257), 2, 0),
        checked("2: offset of procedures", header_word(10, 21), 2, 0),
        checked("2: offset of variables", header_word(12, 29), 2, 0),
        checked("2: offset of nodes", header_word(14, 27), 2, 0),
        checked("2: offset of constants", header_word(16, 0), 2, 0),
        checked("2: total", header_word(18, 39), 2, 0),
        checked("2: 33 procedures", assemble(&vec![empty_body(); 33]).bytes(), 2, 0),
        checked("0: 32 procedures", assemble(&vec![empty_body(); 32]).bytes(), 0, 0),
        checked("2 before 3: a count and a body wrong", count_and_body, 2, 0),
    ]
}

/// Two procedures of one parameter each; `damage` gets their records.
fn two(damage: impl Fn(&mut Vec<ProcedureRecord>)) -> Vec<u8> {
    let one = procedure(&[public(8)], &[], Stmt::Empty);
    let mut raw = assemble(&[one.clone(), one]);
    damage(&mut raw.procedures);
    raw.bytes()
}

fn procedures() -> Vec<CheckCase> {
    let many = |count: usize| single(&vec![public(8); count], &[], Stmt::Empty).bytes();
    let mut no_variables = assemble(&[empty_body()]);
    no_variables.procedures[0].parameters = 1;
    let mut large_first = assemble(&[empty_body()]);
    large_first.procedures[0].first = 65_535;
    let mut before_4 = single(&[public(8)], &[], Stmt::Empty);
    before_4.procedures[0].body = 1;
    before_4.variables[0].size = 7;
    vec![
        checked("3: 17 parameters", many(17), 3, 0),
        checked("0: 16 parameters", many(16), 0, 0),
        checked("3: more parameters than variables", no_variables.bytes(), 3, 0),
        checked("3: first variable far off, none owned", large_first.bytes(), 3, 0),
        checked("3: body is N", two(|p| p[1].body = 2), 3, 1),
        checked("3: body is 65535", two(|p| p[0].body = MISSING), 3, 0),
        checked(
            "3: both records wrong, lowest first",
            two(|p| {
                p[1].body = 9;
                p[0].body = 9
            }),
            3,
            0,
        ),
        checked("3 before 4: body is N, size 7", before_4.bytes(), 3, 0),
    ]
}

fn shared_out() -> Vec<CheckCase> {
    let mut left_over = single(&[public(8)], &[], Stmt::Empty);
    left_over.procedures[0] = ProcedureRecord { first: 0, count: 0, parameters: 0, body: 0 };
    let empty_range = two(|p| {
        p[0].count = 2;
        p[1] = ProcedureRecord { first: 1, count: 0, parameters: 0, body: 1 };
    });
    let gap = two(|p| {
        p[0].count = 0;
        p[0].parameters = 0;
    });
    vec![
        checked("3: first variable not 0", two(|p| p[0].first = 1), 3, 0),
        checked("3: gap in the middle blames the later one", gap, 3, 1),
        checked("3: ranges overlap", two(|p| p[1] = ProcedureRecord { first: 0, count: 2, ..p[1] }), 3, 1),
        checked("3: empty range with its first variable off", empty_range, 3, 1),
        checked("3: range passes V", two(|p| p[1].count = 2), 3, 1),
        checked("3: count 65535", two(|p| p[0].count = 65_535), 3, 0),
        checked("3: left-over variable, one procedure", left_over.bytes(), 3, 0),
        checked(
            "3: left-over variable, the last of two",
            two(|p| {
                p[1].count = 0;
                p[1].parameters = 0
            }),
            3,
            1,
        ),
    ]
}

/// One parameter, one local that a block declares, one constant; `damage` gets the variable records.
fn with(parameter: Variable, local: Variable, damage: impl Fn(&mut Vec<VariableRecord>)) -> Vec<u8> {
    let body = match local {
        Variable::Counter => for_loop(1, 7, 7, Stmt::Empty),
        _ => block(1, 1, vec![]),
    };
    let mut raw = single(&[parameter], &[local], body);
    raw.constants.resize(1, 7);
    damage(&mut raw.variables);
    raw.bytes()
}

fn variables() -> Vec<CheckCase> {
    let plain = |damage: fn(&mut Vec<VariableRecord>)| with(public(8), secret(16), damage);
    let constant = |damage: fn(&mut Vec<VariableRecord>)| with(public(8), Variable::Constant(7), damage);
    let counter = |damage: fn(&mut Vec<VariableRecord>)| with(public(8), Variable::Counter, damage);
    let as_parameter = |kind: u8| with(public(64), public(64), move |v| v[0].kind = kind);
    vec![
        checked("0: parameter and local scalar", plain(|_| ()), 0, 0),
        checked("0: constant", constant(|_| ()), 0, 0),
        checked("0: counter", counter(|_| ()), 0, 0),
        checked("4: kind 4", plain(|v| v[1].kind = 4), 4, 1),
        checked("4: secrecy 2", plain(|v| v[0].secrecy = 2), 4, 0),
        checked("4: size 0", plain(|v| v[0].size = 0), 4, 0),
        checked("4: size 24", plain(|v| v[1].size = 24), 4, 1),
        checked("4: size 128", plain(|v| v[1].size = 128), 4, 1),
        checked("4: zero byte 1", plain(|v| v[1].zero = 1), 4, 1),
        checked(
            "4: two wrong, lowest first",
            plain(|v| {
                v[1].size = 0;
                v[0].zero = 1
            }),
            4,
            0,
        ),
        checked("4: secret constant", constant(|v| v[1].secrecy = 1), 4, 1),
        checked("4: constant of size 32", constant(|v| v[1].size = 32), 4, 1),
        checked("4: secret counter", counter(|v| v[1].secrecy = 1), 4, 1),
        checked("4: counter of size 8", counter(|v| v[1].size = 8), 4, 1),
        checked("4: parameter that is a constant", as_parameter(2), 4, 0),
        checked("4: parameter that is a counter", as_parameter(3), 4, 0),
    ]
}

fn extras() -> Vec<CheckCase> {
    let array = |length: u16| with(public(8), public_array(8, length), |_| ());
    let extra = |local: Variable, number: usize| with(public(8), local, move |v| v[number].extra = 1);
    let array_parameter = |length: u16| with(secret_array(8, length), secret(8), |_| ());
    let mut before_5 = single(&[public_array(8, 1)], &[], Stmt::Empty);
    before_5.nodes[0].kind = 0;
    vec![
        checked("4: scalar parameter with extra", extra(public(8), 0), 4, 0),
        checked("4: local scalar with extra", extra(public(8), 1), 4, 1),
        checked("4: counter with extra", extra(Variable::Counter, 1), 4, 1),
        checked("4: constant number K", extra(Variable::Constant(7), 1), 4, 1),
        checked("4: local array of length 0", array(0), 4, 1),
        checked("4: local array of length 4097", array(4097), 4, 1),
        checked("0: local array of length 4096", array(4096), 0, 0),
        checked("4: array parameter with a length", array_parameter(1), 4, 0),
        checked("0: array parameter", array_parameter(0), 0, 0),
        checked("4 before 5: array parameter with a length, kind 0", before_5.bytes(), 4, 0),
    ]
}
