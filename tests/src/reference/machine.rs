//! The run itself: cells, steps, trace, and 23 to 28.

use super::program::Program;
use super::reader::*;
use super::Refusal;

/// A cell's trace entry is this plus its number.
const CELL_ENTRY: u32 = 65_536;
const TRUE: u64 = u64::MAX;
const MOST_PARAMETERS: usize = 16;

/// Where a variable's cells are: the first one and how many. Procedures never call themselves, so each
/// variable has one place at a time.
#[derive(Clone, Copy, Default)]
struct Cells {
    first: usize,
    length: usize,
}

pub struct Machine<'a, 't> {
    program: &'a Program,
    cells: Vec<u64>,
    bound: Vec<Cells>,
    budget: u64,
    pub steps: u64,
    pub entries: u64,
    trace: &'t mut [u32],
}

impl<'a, 't> Machine<'a, 't> {
    pub fn new(program: &'a Program, lengths: &[u64], store: &[u64], budget: u32, trace: &'t mut [u32]) -> Self {
        let mut machine = Machine {
            program,
            cells: store.to_vec(),
            bound: vec![Cells::default(); program.variables.len()],
            budget: u64::from(budget),
            steps: 0,
            entries: 0,
            trace,
        };
        machine.bind_parameters(lengths);
        machine.bind_locals();
        machine
    }

    fn bind_parameters(&mut self, lengths: &[u64]) {
        let first_parameter = self.program.last_procedure().first;
        let mut first = 0;
        for (i, length) in lengths.iter().enumerate() {
            let length = *length as usize;
            self.bound[first_parameter + i] = Cells { first, length };
            first += length;
        }
    }

    fn bind_locals(&mut self) {
        for (variable, v) in self.program.variables.iter().enumerate() {
            if self.program.is_parameter[variable] {
                continue;
            }
            let first = self.cells.len();
            let length = v.local_cells();
            self.bound[variable] = Cells { first, length };
            self.cells.resize(first + length, 0);
        }
    }

    pub fn run_last(&mut self, inverse: bool) -> Result<(), Refusal> {
        self.statement(self.program.last_procedure().body, inverse)
    }

    pub fn store(&self, length: usize) -> &[u64] {
        &self.cells[..length]
    }

    fn node(&self, number: usize) -> &'a Node {
        &self.program.nodes[number]
    }

    fn record(&mut self, entry: u32) {
        let position = usize::try_from(self.entries).ok();
        if let Some(slot) = position.and_then(|at| self.trace.get_mut(at)) {
            *slot = entry;
        }
        self.entries += 1;
    }

    fn step(&mut self, node: usize) -> Result<(), Refusal> {
        if self.steps == self.budget {
            return Err((23, node as u64));
        }
        self.steps += 1;
        self.record(node as u32);
        Ok(())
    }

    fn touch(&mut self, cell: usize) {
        self.record(CELL_ENTRY + cell as u32);
    }

    fn statement(&mut self, number: usize, inverse: bool) -> Result<(), Refusal> {
        self.step(number)?;
        let node = self.node(number);
        match node.kind {
            UPDATE => self.update(node, inverse),
            SWAP => self.swap(node.a(), node.b(), true),
            SWAP_IF => {
                let condition = self.evaluate(node.a())?;
                self.swap(node.b(), node.c(), condition != 0)
            }
            IF => {
                let condition = self.evaluate(node.a())?;
                let branch = if condition != 0 { node.b() } else { node.c() };
                self.statement(branch, inverse)
            }
            FOR => self.for_loop(number, node, inverse),
            CALL => self.call(number, node, inverse),
            UNCALL => self.call(number, node, !inverse),
            BLOCK => self.block(number, node, inverse),
            _ => Ok(()),
        }
    }

    fn update(&mut self, node: &Node, inverse: bool) -> Result<(), Refusal> {
        let cell = self.locate(node.a())?;
        let value = self.evaluate(node.b())?;
        self.touch(cell);
        let root = self.node(node.a()).a();
        let size = u32::from(self.program.variables[root].size);
        self.cells[cell] = updated(node.operator, inverse, size, self.cells[cell], value);
        Ok(())
    }

    fn swap(&mut self, left: usize, right: usize, wanted: bool) -> Result<(), Refusal> {
        let left = self.locate(left)?;
        let right = self.locate(right)?;
        self.touch(left);
        self.touch(right);
        if wanted {
            self.cells.swap(left, right);
        }
        Ok(())
    }

    fn for_loop(&mut self, number: usize, node: &Node, inverse: bool) -> Result<(), Refusal> {
        let (from, to) = if inverse { (node.c(), node.b()) } else { (node.b(), node.c()) };
        let first = self.evaluate(from)?;
        let second = self.evaluate(to)?;
        let counter = self.bound[node.a()].first;
        self.cells[counter] = first;
        while self.cells[counter] != second {
            self.step(number)?;
            self.statement(node.d(), inverse)?;
            if self.cells[counter] == first {
                return Err((28, number as u64));
            }
        }
        self.cells[counter] = 0;
        Ok(())
    }

    fn call(&mut self, number: usize, node: &Node, inverse: bool) -> Result<(), Refusal> {
        let program = self.program;
        let callee = &program.procedures[node.a()];
        let mut places = [Cells::default(); MOST_PARAMETERS];
        for (place, argument) in places.iter_mut().zip(&program.chains[number]) {
            *place = self.argument(*argument)?;
        }
        let count = callee.parameters;
        self.bound[callee.first..callee.first + count].copy_from_slice(&places[..count]);
        self.statement(callee.body, inverse)
    }

    fn argument(&mut self, number: usize) -> Result<Cells, Refusal> {
        let node = self.node(number);
        if node.kind == VARIABLE {
            return Ok(self.bound[node.a()]);
        }
        let first = self.locate(number)?;
        Ok(Cells { first, length: 1 })
    }

    fn block(&mut self, number: usize, node: &Node, inverse: bool) -> Result<(), Refusal> {
        let program = self.program;
        let statements = &program.chains[number];
        for k in 0..statements.len() {
            let turn = if inverse { statements.len() - 1 - k } else { k };
            self.statement(statements[turn], inverse)?;
        }
        let (mut public_left, mut secret_left) = (false, false);
        for variable in node.a()..node.a() + node.b() {
            let Cells { first, length } = self.bound[variable];
            let left = self.cells[first..first + length].iter().any(|c| *c != 0);
            let secret = program.variables[variable].is_secret();
            public_left |= left && !secret;
            secret_left |= left && secret;
        }
        match (public_left, secret_left) {
            (true, _) => Err((26, number as u64)),
            (false, true) => Err((27, number as u64)),
            (false, false) => Ok(()),
        }
    }

    /// The cell of a scalar or element; an element's index is worked out and tested.
    fn locate(&mut self, number: usize) -> Result<usize, Refusal> {
        let node = self.node(number);
        let Cells { first, length } = self.bound[node.a()];
        if node.kind == VARIABLE {
            return Ok(first);
        }
        let index = self.evaluate(node.b())?;
        if index >= length as u64 {
            return Err((24, number as u64));
        }
        Ok(first + index as usize)
    }

    fn evaluate(&mut self, number: usize) -> Result<u64, Refusal> {
        let node = self.node(number);
        match node.kind {
            NUMBER => Ok(self.program.constants[node.a()]),
            VARIABLE | ELEMENT | UNSAFE => self.read(number, node.a()),
            SIZE => Ok(self.bound[node.a()].length as u64),
            BINARY => {
                let left = self.evaluate(node.a())?;
                let right = self.evaluate(node.b())?;
                combined(node.operator, left, right).ok_or((25, number as u64))
            }
            _ => Ok(!self.evaluate(node.a())?),
        }
    }

    fn read(&mut self, number: usize, variable: usize) -> Result<u64, Refusal> {
        let v = &self.program.variables[variable];
        if v.is_constant() {
            return Ok(self.program.constants[v.extra]);
        }
        let cell = self.locate(number)?;
        self.touch(cell);
        Ok(self.cells[cell])
    }
}

fn truth(holds: bool) -> u64 {
    if holds {
        TRUE
    } else {
        0
    }
}

/// A binary operator's value; none for a zero divisor.
fn combined(operator: u8, left: u64, right: u64) -> Option<u64> {
    let amount = u32::try_from(right).unwrap_or(u32::MAX);
    Some(match operator {
        1 => left.wrapping_add(right),
        2 => left.wrapping_sub(right),
        3 => left.wrapping_mul(right),
        4 => left.checked_div(right)?,
        5 => left.checked_rem(right)?,
        6 => left & right,
        7 => left | right,
        8 => left ^ right,
        9 => truth(left == right),
        10 => truth(left != right),
        11 => truth(left < right),
        12 => truth(left > right),
        13 => truth(left <= right),
        14 => truth(left >= right),
        15 => left.checked_shl(amount).unwrap_or(0),
        _ => left.checked_shr(amount).unwrap_or(0),
    })
}

fn inverted(operator: u8) -> u8 {
    match operator {
        1 => 2,
        2 => 1,
        4 => 5,
        5 => 4,
        other => other,
    }
}

/// A cell of size z after an update: the value is cut to z bits and the work is modulo 2^z.
fn updated(operator: u8, inverse: bool, size: u32, cell: u64, value: u64) -> u64 {
    let mask = u64::MAX >> (64 - size);
    let value = value & mask;
    let operator = if inverse { inverted(operator) } else { operator };
    let size = u64::from(size);
    let amount = value % size;
    match operator {
        1 => cell.wrapping_add(value) & mask,
        2 => cell.wrapping_sub(value) & mask,
        3 => cell ^ value,
        4 => rotated_left(cell, amount, size) & mask,
        _ => rotated_left(cell, (size - amount) % size, size) & mask,
    }
}

/// `amount` is below `size`; the result may have bits above `size`.
fn rotated_left(cell: u64, amount: u64, size: u64) -> u64 {
    if amount == 0 {
        return cell;
    }
    (cell << amount) | (cell >> (size - amount))
}
