//! Numbers 1 to 6: layout, records and tree.

use super::reader::*;
use super::Refusal;

const LARGEST_IMAGE: usize = 65_535;
const MOST_PROCEDURES: usize = 32;
const MOST_VARIABLES: usize = 1_024;
const MOST_NODES: usize = 4_096;
const MOST_CONSTANTS: usize = 512;
const MOST_PARAMETERS: usize = 16;
const LONGEST_LOCAL_ARRAY: usize = 4_096;
const DEEPEST: usize = 32;

#[derive(Clone, Copy, PartialEq, Eq)]
enum Class {
    Statement,
    LValue,
    Expression,
}

/// What a field of a node is.
#[derive(Clone, Copy, PartialEq, Eq)]
enum Field {
    Unused,
    Reference(Class),
    ReferenceOrMissing(Class),
    VariableNumber,
    ProcedureNumber,
    ConstantNumber,
    RangeFirst,
    RangeCount,
}

use Field::{ConstantNumber, ProcedureNumber, RangeCount, RangeFirst, Unused, VariableNumber};
const STATEMENT: Field = Field::Reference(Class::Statement);
const LVALUE: Field = Field::Reference(Class::LValue);
const EXPRESSION: Field = Field::Reference(Class::Expression);
const STATEMENTS: Field = Field::ReferenceOrMissing(Class::Statement);
const ARGUMENTS: Field = Field::ReferenceOrMissing(Class::LValue);

/// Kind, the kind's last operator (operators start at 1; 0: it has none), fields a to d.
const TABLE: [(u8, u8, [Field; 4]); 16] = [
    (EMPTY, 0, [Unused, Unused, Unused, Unused]),
    (UPDATE, 5, [LVALUE, EXPRESSION, Unused, Unused]),
    (SWAP, 0, [LVALUE, LVALUE, Unused, Unused]),
    (SWAP_IF, 0, [EXPRESSION, LVALUE, LVALUE, Unused]),
    (IF, 0, [EXPRESSION, STATEMENT, STATEMENT, Unused]),
    (FOR, 0, [VariableNumber, EXPRESSION, EXPRESSION, STATEMENT]),
    (CALL, 0, [ProcedureNumber, ARGUMENTS, Unused, Unused]),
    (UNCALL, 0, [ProcedureNumber, ARGUMENTS, Unused, Unused]),
    (BLOCK, 0, [RangeFirst, RangeCount, STATEMENTS, Unused]),
    (NUMBER, 0, [ConstantNumber, Unused, Unused, Unused]),
    (VARIABLE, 0, [VariableNumber, Unused, Unused, Unused]),
    (ELEMENT, 0, [VariableNumber, EXPRESSION, Unused, Unused]),
    (UNSAFE, 0, [VariableNumber, EXPRESSION, Unused, Unused]),
    (SIZE, 0, [VariableNumber, Unused, Unused, Unused]),
    (BINARY, 16, [EXPRESSION, EXPRESSION, Unused, Unused]),
    (NOT, 0, [EXPRESSION, Unused, Unused, Unused]),
];

pub fn form(bytes: &[u8]) -> Result<Image<'_>, Refusal> {
    if bytes.len() < HEADER_LENGTH || bytes.len() > LARGEST_IMAGE || word(bytes, 0) != 1 {
        return Err((1, 0));
    }
    let image = layout(bytes).ok_or((2, 0))?;
    procedure_records(&image)?;
    variable_records(&image)?;
    node_records(&image)?;
    referred_once(&image)?;
    tree_shape(&image)?;
    Ok(image)
}

fn layout(bytes: &[u8]) -> Option<Image<'_>> {
    let [procedures, variables, nodes, constants] = [2, 4, 6, 8].map(|at| word(bytes, at));
    let counts_fit = (1..=MOST_PROCEDURES).contains(&procedures)
        && variables <= MOST_VARIABLES
        && (1..=MOST_NODES).contains(&nodes)
        && constants <= MOST_CONSTANTS;
    let variables_at = HEADER_LENGTH + PROCEDURE_LENGTH * procedures;
    let nodes_at = variables_at + VARIABLE_LENGTH * variables;
    let constants_at = nodes_at + NODE_LENGTH * nodes;
    let total = constants_at + CONSTANT_LENGTH * constants;
    let offsets = [HEADER_LENGTH, variables_at, nodes_at, constants_at, total];
    let stated = [10, 12, 14, 16, 18].map(|at| word(bytes, at));
    if !counts_fit || stated != offsets || total != bytes.len() {
        return None;
    }
    Some(Image { bytes, procedures, variables, nodes, constants, variables_at, nodes_at, constants_at })
}

fn procedure_records(image: &Image) -> Result<(), Refusal> {
    let mut shared_out = 0;
    for number in 0..image.procedures {
        let p = image.procedure(number);
        let is_last = number + 1 == image.procedures;
        let fits = p.first == shared_out
            && p.end() <= image.variables
            && p.parameters <= MOST_PARAMETERS
            && p.parameters <= p.count
            && p.body < image.nodes
            && !(is_last && p.end() < image.variables);
        if !fits {
            return Err((3, number as u64));
        }
        shared_out = p.end();
    }
    Ok(())
}

fn variable_records(image: &Image) -> Result<(), Refusal> {
    let is_parameter = image.parameters();
    match (0..image.variables).find(|v| !variable_fits(image, *v, is_parameter[*v])) {
        Some(number) => Err((4, number as u64)),
        None => Ok(()),
    }
}

fn variable_fits(image: &Image, number: usize, parameter: bool) -> bool {
    let v = image.variable(number);
    let extra_fits = match v.kind {
        SCALAR_KIND | COUNTER_KIND => v.extra == 0,
        ARRAY_KIND if parameter => v.extra == 0,
        ARRAY_KIND => (1..=LONGEST_LOCAL_ARRAY).contains(&v.extra),
        CONSTANT_KIND => v.extra < image.constants,
        _ => false,
    };
    let is_name_only = v.is_constant() || v.is_counter();
    extra_fits
        && v.secrecy <= 1
        && [8, 16, 32, 64].contains(&v.size)
        && v.zero == 0
        && !(is_name_only && (v.is_secret() || v.size != 64 || parameter))
}

fn entry_of(kind: u8) -> Option<&'static (u8, u8, [Field; 4])> {
    let row = if kind < NUMBER { kind.checked_sub(EMPTY)? } else { kind - NUMBER + BLOCK };
    TABLE.get(usize::from(row)).filter(|entry| entry.0 == kind)
}

fn is_of(class: Class, kind: u8) -> bool {
    match class {
        Class::Statement => (EMPTY..=BLOCK).contains(&kind),
        Class::LValue => (VARIABLE..=UNSAFE).contains(&kind),
        Class::Expression => (NUMBER..=NOT).contains(&kind),
    }
}

fn node_records(image: &Image) -> Result<(), Refusal> {
    match (0..image.nodes).find(|n| !node_fits(image, *n)) {
        Some(number) => Err((5, number as u64)),
        None => Ok(()),
    }
}

fn node_fits(image: &Image, number: usize) -> bool {
    let node = image.node(number);
    let Some((_, last_operator, fields)) = entry_of(node.kind) else {
        return false;
    };
    let operator_fits = if *last_operator == 0 { node.operator == 0 } else { 1 <= node.operator && node.operator <= *last_operator };
    operator_fits && (0..4).all(|i| field_fits(image, number, &node, fields[i], node.fields[i])) && next_fits(image, number, &node)
}

fn field_fits(image: &Image, number: usize, node: &Node, field: Field, value: usize) -> bool {
    match field {
        Field::Unused => value == 0,
        Field::Reference(class) => refers(image, number, value, class),
        Field::ReferenceOrMissing(class) => value == MISSING || refers(image, number, value, class),
        Field::VariableNumber => value < image.variables,
        Field::ProcedureNumber => value < image.procedures,
        Field::ConstantNumber => value < image.constants,
        Field::RangeFirst => node.b() != 0 || value == 0,
        Field::RangeCount => node.a() + value <= image.variables,
    }
}

fn refers(image: &Image, from: usize, to: usize, class: Class) -> bool {
    from < to && to < image.nodes && is_of(class, image.node(to).kind)
}

fn next_fits(image: &Image, number: usize, node: &Node) -> bool {
    node.next == MISSING
        || [Class::Statement, Class::LValue].iter().any(|class| is_of(*class, node.kind) && refers(image, number, node.next, *class))
}

/// The nodes that a node's fields refer to, each with whether it starts a chain.
fn children(node: &Node) -> impl Iterator<Item = (usize, bool)> + '_ {
    let fields = entry_of(node.kind).map_or([Unused; 4], |entry| entry.2);
    fields.into_iter().zip(node.fields).filter_map(|(field, value)| match field {
        Field::Reference(_) => Some((value, false)),
        Field::ReferenceOrMissing(_) if value != MISSING => Some((value, true)),
        _ => None,
    })
}

fn referred_once(image: &Image) -> Result<(), Refusal> {
    let mut references = vec![0usize; image.nodes];
    for p in 0..image.procedures {
        references[image.procedure(p).body] += 1;
    }
    for node in (0..image.nodes).map(|n| image.node(n)) {
        for (child, _) in children(&node) {
            references[child] += 1;
        }
        if node.next != MISSING {
            references[node.next] += 1;
        }
    }
    match references.iter().position(|count| *count != 1) {
        Some(number) => Err((6, number as u64)),
        None => Ok(()),
    }
}

/// References go to larger numbers, so one pass upwards meets each node after the one that refers to it.
fn tree_shape(image: &Image) -> Result<(), Refusal> {
    let mut depth = vec![0usize; image.nodes];
    let mut chained = vec![false; image.nodes];
    let mut is_body = vec![false; image.nodes];
    for p in 0..image.procedures {
        let body = image.procedure(p).body;
        depth[body] = 1;
        is_body[body] = true;
    }
    for number in 0..image.nodes {
        let node = image.node(number);
        let bad_body = is_body[number] && !is_of(Class::Statement, node.kind);
        let bad_next = node.next != MISSING && !chained[number];
        if bad_body || depth[number] > DEEPEST || bad_next {
            return Err((6, number as u64));
        }
        for (child, starts_chain) in children(&node) {
            depth[child] = depth[number] + 1;
            chained[child] = starts_chain;
        }
        if node.next != MISSING {
            depth[node.next] = depth[number];
            chained[node.next] = true;
        }
    }
    Ok(())
}
