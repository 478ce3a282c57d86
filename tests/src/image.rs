//! Images from readable trees, and from raw records that a test may damage field by field.

pub const MISSING: u16 = 65_535;
pub const HEADER_LENGTH: usize = 20;

#[derive(Clone, Copy, PartialEq, Eq, Debug)]
pub enum Secrecy {
    Public = 0,
    Secret = 1,
}

/// An array's length is 0 where it is a parameter.
#[derive(Clone, Copy, PartialEq, Eq, Debug)]
pub enum Variable {
    Scalar(Secrecy, u8),
    Array(Secrecy, u8, u16),
    Constant(u64),
    Counter,
}

pub fn public(size: u8) -> Variable {
    Variable::Scalar(Secrecy::Public, size)
}

pub fn secret(size: u8) -> Variable {
    Variable::Scalar(Secrecy::Secret, size)
}

pub fn public_array(size: u8, length: u16) -> Variable {
    Variable::Array(Secrecy::Public, size, length)
}

pub fn secret_array(size: u8, length: u16) -> Variable {
    Variable::Array(Secrecy::Secret, size, length)
}

#[derive(Clone, Copy, PartialEq, Eq, Debug)]
#[repr(u8)]
pub enum Operator {
    Add = 1,
    Sub,
    Mul,
    Div,
    Mod,
    And,
    Or,
    Xor,
    Equal,
    Differ,
    Less,
    Greater,
    LessEqual,
    GreaterEqual,
    Left,
    Right,
}

pub const OPERATORS: [Operator; 16] = [
    Operator::Add,
    Operator::Sub,
    Operator::Mul,
    Operator::Div,
    Operator::Mod,
    Operator::And,
    Operator::Or,
    Operator::Xor,
    Operator::Equal,
    Operator::Differ,
    Operator::Less,
    Operator::Greater,
    Operator::LessEqual,
    Operator::GreaterEqual,
    Operator::Left,
    Operator::Right,
];

#[derive(Clone, Copy, PartialEq, Eq, Debug)]
#[repr(u8)]
pub enum Change {
    Add = 1,
    Sub,
    Xor,
    RotateLeft,
    RotateRight,
}

pub const CHANGES: [Change; 5] = [Change::Add, Change::Sub, Change::Xor, Change::RotateLeft, Change::RotateRight];

#[derive(Clone, Debug)]
pub enum LValue {
    Variable(u16),
    Element(u16, Box<Expr>),
    Unsafe(u16, Box<Expr>),
}

#[derive(Clone, Debug)]
pub enum Expr {
    Number(u64),
    LValue(LValue),
    Size(u16),
    Binary(Operator, Box<Expr>, Box<Expr>),
    Not(Box<Expr>),
}

/// A block's two numbers are its first declared variable and how many it declares.
#[derive(Clone, Debug)]
pub enum Stmt {
    Empty,
    Update(Change, LValue, Expr),
    Swap(LValue, LValue),
    SwapIf(Expr, LValue, LValue),
    If(Expr, Box<Stmt>, Box<Stmt>),
    For(u16, Expr, Expr, Box<Stmt>),
    Call(u16, Vec<LValue>),
    Uncall(u16, Vec<LValue>),
    Block(u16, u16, Vec<Stmt>),
}

impl From<u64> for Expr {
    fn from(value: u64) -> Expr {
        Expr::Number(value)
    }
}

impl From<LValue> for Expr {
    fn from(lvalue: LValue) -> Expr {
        Expr::LValue(lvalue)
    }
}

pub fn var(number: u16) -> LValue {
    LValue::Variable(number)
}

pub fn at(array: u16, index: impl Into<Expr>) -> LValue {
    LValue::Element(array, Box::new(index.into()))
}

pub fn unsafe_at(array: u16, index: impl Into<Expr>) -> LValue {
    LValue::Unsafe(array, Box::new(index.into()))
}

pub fn size(array: u16) -> Expr {
    Expr::Size(array)
}

pub fn bin(operator: Operator, left: impl Into<Expr>, right: impl Into<Expr>) -> Expr {
    Expr::Binary(operator, Box::new(left.into()), Box::new(right.into()))
}

pub fn not(operand: impl Into<Expr>) -> Expr {
    Expr::Not(Box::new(operand.into()))
}

pub fn update(change: Change, target: LValue, value: impl Into<Expr>) -> Stmt {
    Stmt::Update(change, target, value.into())
}

pub fn add(target: LValue, value: impl Into<Expr>) -> Stmt {
    update(Change::Add, target, value)
}

pub fn swap(left: LValue, right: LValue) -> Stmt {
    Stmt::Swap(left, right)
}

pub fn swap_if(condition: impl Into<Expr>, left: LValue, right: LValue) -> Stmt {
    Stmt::SwapIf(condition.into(), left, right)
}

pub fn if_else(condition: impl Into<Expr>, yes: Stmt, no: Stmt) -> Stmt {
    Stmt::If(condition.into(), Box::new(yes), Box::new(no))
}

pub fn for_loop(counter: u16, first: impl Into<Expr>, second: impl Into<Expr>, body: Stmt) -> Stmt {
    Stmt::For(counter, first.into(), second.into(), Box::new(body))
}

pub fn call(procedure: u16, arguments: Vec<LValue>) -> Stmt {
    Stmt::Call(procedure, arguments)
}

pub fn uncall(procedure: u16, arguments: Vec<LValue>) -> Stmt {
    Stmt::Uncall(procedure, arguments)
}

/// A block that declares nothing.
pub fn list(statements: Vec<Stmt>) -> Stmt {
    Stmt::Block(0, 0, statements)
}

pub fn block(first: u16, count: u16, statements: Vec<Stmt>) -> Stmt {
    Stmt::Block(first, count, statements)
}

/// Variables are numbered through the whole program: each procedure's parameters, then its locals.
#[derive(Clone, Debug)]
pub struct Procedure {
    pub parameters: Vec<Variable>,
    pub locals: Vec<Variable>,
    pub body: Stmt,
}

pub fn procedure(parameters: &[Variable], locals: &[Variable], body: Stmt) -> Procedure {
    Procedure { parameters: parameters.to_vec(), locals: locals.to_vec(), body }
}

#[derive(Clone, Copy, PartialEq, Eq, Debug)]
pub struct ProcedureRecord {
    pub first: u16,
    pub count: u16,
    pub parameters: u16,
    pub body: u16,
}

#[derive(Clone, Copy, PartialEq, Eq, Debug)]
pub struct VariableRecord {
    pub kind: u8,
    pub secrecy: u8,
    pub size: u8,
    pub zero: u8,
    pub extra: u16,
}

#[derive(Clone, Copy, PartialEq, Eq, Debug)]
pub struct NodeRecord {
    pub kind: u8,
    pub operator: u8,
    pub a: u16,
    pub b: u16,
    pub c: u16,
    pub d: u16,
    pub next: u16,
}

pub fn node(kind: u8, operator: u8, fields: [u16; 4]) -> NodeRecord {
    let [a, b, c, d] = fields;
    NodeRecord { kind, operator, a, b, c, d, next: MISSING }
}

impl NodeRecord {
    pub fn next(self, next: u16) -> NodeRecord {
        NodeRecord { next, ..self }
    }
}

#[derive(Clone, Default, Debug)]
pub struct Raw {
    pub procedures: Vec<ProcedureRecord>,
    pub variables: Vec<VariableRecord>,
    pub nodes: Vec<NodeRecord>,
    pub constants: Vec<u64>,
}

impl Raw {
    /// The header's ten words; lists too long for a word wrap, which only damaged images want.
    pub fn header(&self) -> [u16; 10] {
        let variables_at = HEADER_LENGTH + 8 * self.procedures.len();
        let nodes_at = variables_at + 6 * self.variables.len();
        let constants_at = nodes_at + 12 * self.nodes.len();
        let total = constants_at + 8 * self.constants.len();
        [
            1,
            self.procedures.len() as u16,
            self.variables.len() as u16,
            self.nodes.len() as u16,
            self.constants.len() as u16,
            HEADER_LENGTH as u16,
            variables_at as u16,
            nodes_at as u16,
            constants_at as u16,
            total as u16,
        ]
    }

    pub fn bytes(&self) -> Vec<u8> {
        let mut bytes = Vec::new();
        push_words(&mut bytes, &self.header());
        for p in &self.procedures {
            push_words(&mut bytes, &[p.first, p.count, p.parameters, p.body]);
        }
        for v in &self.variables {
            bytes.extend_from_slice(&[v.kind, v.secrecy, v.size, v.zero]);
            push_words(&mut bytes, &[v.extra]);
        }
        for n in &self.nodes {
            bytes.extend_from_slice(&[n.kind, n.operator]);
            push_words(&mut bytes, &[n.a, n.b, n.c, n.d, n.next]);
        }
        for constant in &self.constants {
            bytes.extend_from_slice(&constant.to_le_bytes());
        }
        bytes
    }
}

fn push_words(bytes: &mut Vec<u8>, words: &[u16]) {
    for word in words {
        bytes.extend_from_slice(&word.to_le_bytes());
    }
}

/// Overwrites the 16-bit number at a byte offset.
pub fn set_word(bytes: &mut [u8], offset: usize, value: u16) {
    bytes[offset..offset + 2].copy_from_slice(&value.to_le_bytes());
}

pub fn assemble(procedures: &[Procedure]) -> Raw {
    let mut raw = Raw::default();
    for p in procedures {
        let first = raw.variables.len() as u16;
        for variable in p.parameters.iter().chain(&p.locals) {
            let record = variable_record(&mut raw, *variable);
            raw.variables.push(record);
        }
        let body = emit_statement(&mut raw, &p.body);
        raw.procedures.push(ProcedureRecord {
            first,
            count: raw.variables.len() as u16 - first,
            parameters: p.parameters.len() as u16,
            body,
        });
    }
    raw
}

/// An image of one procedure.
pub fn single(parameters: &[Variable], locals: &[Variable], body: Stmt) -> Raw {
    assemble(&[procedure(parameters, locals, body)])
}

fn variable_record(raw: &mut Raw, variable: Variable) -> VariableRecord {
    let (kind, secrecy, size, extra) = match variable {
        Variable::Scalar(secrecy, size) => (0, secrecy, size, 0),
        Variable::Array(secrecy, size, length) => (1, secrecy, size, length),
        Variable::Constant(value) => (2, Secrecy::Public, 64, constant_number(raw, value)),
        Variable::Counter => (3, Secrecy::Public, 64, 0),
    };
    VariableRecord { kind, secrecy: secrecy as u8, size, zero: 0, extra }
}

fn constant_number(raw: &mut Raw, value: u64) -> u16 {
    if let Some(found) = raw.constants.iter().position(|c| *c == value) {
        return found as u16;
    }
    raw.constants.push(value);
    raw.constants.len() as u16 - 1
}

/// Takes the next node number; its record is filled in once its children have theirs.
fn reserve(raw: &mut Raw) -> usize {
    raw.nodes.push(node(0, 0, [0; 4]));
    raw.nodes.len() - 1
}

fn emit_expression(raw: &mut Raw, expression: &Expr) -> u16 {
    if let Expr::LValue(lvalue) = expression {
        return emit_lvalue(raw, lvalue);
    }
    let number = reserve(raw);
    raw.nodes[number] = match expression {
        Expr::Number(value) => {
            let constant = constant_number(raw, *value);
            node(20, 0, [constant, 0, 0, 0])
        }
        Expr::Size(array) => node(24, 0, [*array, 0, 0, 0]),
        Expr::Binary(operator, left, right) => {
            let a = emit_expression(raw, left);
            let b = emit_expression(raw, right);
            node(25, *operator as u8, [a, b, 0, 0])
        }
        Expr::Not(operand) => {
            let a = emit_expression(raw, operand);
            node(26, 0, [a, 0, 0, 0])
        }
        Expr::LValue(_) => unreachable!("taken above"),
    };
    number as u16
}

fn emit_lvalue(raw: &mut Raw, lvalue: &LValue) -> u16 {
    let number = reserve(raw);
    raw.nodes[number] = match lvalue {
        LValue::Variable(variable) => node(21, 0, [*variable, 0, 0, 0]),
        LValue::Element(array, index) => {
            let b = emit_expression(raw, index);
            node(22, 0, [*array, b, 0, 0])
        }
        LValue::Unsafe(array, index) => {
            let b = emit_expression(raw, index);
            node(23, 0, [*array, b, 0, 0])
        }
    };
    number as u16
}

/// Emits a list and chains it by next; the number of its first node, or missing.
fn emit_chain<T>(raw: &mut Raw, items: &[T], emit: fn(&mut Raw, &T) -> u16) -> u16 {
    let mut first = MISSING;
    let mut last: Option<usize> = None;
    for item in items {
        let number = emit(raw, item);
        match last {
            None => first = number,
            Some(before) => raw.nodes[before].next = number,
        }
        last = Some(number as usize);
    }
    first
}

fn emit_statement(raw: &mut Raw, statement: &Stmt) -> u16 {
    let number = reserve(raw);
    raw.nodes[number] = match statement {
        Stmt::Empty => node(1, 0, [0; 4]),
        Stmt::Update(change, target, value) => {
            let a = emit_lvalue(raw, target);
            let b = emit_expression(raw, value);
            node(2, *change as u8, [a, b, 0, 0])
        }
        Stmt::Swap(left, right) => {
            let a = emit_lvalue(raw, left);
            let b = emit_lvalue(raw, right);
            node(3, 0, [a, b, 0, 0])
        }
        Stmt::SwapIf(condition, left, right) => {
            let a = emit_expression(raw, condition);
            let b = emit_lvalue(raw, left);
            let c = emit_lvalue(raw, right);
            node(4, 0, [a, b, c, 0])
        }
        Stmt::If(condition, yes, no) => {
            let a = emit_expression(raw, condition);
            let b = emit_statement(raw, yes);
            let c = emit_statement(raw, no);
            node(5, 0, [a, b, c, 0])
        }
        Stmt::For(counter, first, second, body) => {
            let b = emit_expression(raw, first);
            let c = emit_expression(raw, second);
            let d = emit_statement(raw, body);
            node(6, 0, [*counter, b, c, d])
        }
        Stmt::Call(callee, arguments) => {
            let b = emit_chain(raw, arguments, emit_lvalue);
            node(7, 0, [*callee, b, 0, 0])
        }
        Stmt::Uncall(callee, arguments) => {
            let b = emit_chain(raw, arguments, emit_lvalue);
            node(8, 0, [*callee, b, 0, 0])
        }
        Stmt::Block(first, count, statements) => {
            let c = emit_chain(raw, statements, emit_statement);
            node(9, 0, [*first, *count, c, 0])
        }
    };
    number as u16
}
