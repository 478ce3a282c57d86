//! Programs that mostly obey the checker's rules, and now and then break one on purpose.

mod expressions;
mod statements;

use super::random::Random;
use crate::image::{list, Procedure, Secrecy, Stmt, Variable};

const SIZES: [u8; 4] = [8, 16, 32, 64];

pub struct Generator<'r> {
    random: &'r mut Random,
    /// Chance in a thousand that a choice ignores its rule.
    carelessness: u64,
    /// Chance in a thousand that a root clash is not avoided.
    forgetfulness: u64,
    unsafe_allowed: bool,
    /// The types in use; few, so that arguments and swap targets are found.
    palette: Vec<(Secrecy, u8)>,
    /// The parameters of the procedures made so far.
    made: Vec<Vec<Variable>>,
    /// The number of the current procedure's first variable.
    base: u16,
    /// The variables of all procedures so far, the current one's last.
    variables: Vec<Variable>,
    scope: Vec<u16>,
    locked: Vec<u16>,
    /// How many statements may still be made.
    fuel: u64,
}

/// The procedures of a random program.
pub fn program(random: &mut Random) -> Vec<Procedure> {
    let carelessness = if random.chance(350) { 25 } else { 0 };
    let forgetfulness = if random.chance(80) { 300 } else { 0 };
    let unsafe_allowed = random.chance(250);
    let mut palette = vec![(Secrecy::Public, 64)];
    for _ in 0..2 {
        let secrecy = if random.chance(700) { Secrecy::Secret } else { Secrecy::Public };
        palette.push((secrecy, SIZES[random.below(4) as usize]));
    }
    let mut generator = Generator {
        random,
        carelessness,
        forgetfulness,
        unsafe_allowed,
        palette,
        made: Vec::new(),
        base: 0,
        variables: Vec::new(),
        scope: Vec::new(),
        locked: Vec::new(),
        fuel: 0,
    };
    let count = 1 + generator.random.below(3);
    (0..count).map(|_| generator.procedure()).collect()
}

impl Generator<'_> {
    fn procedure(&mut self) -> Procedure {
        self.base = self.variables.len() as u16;
        let parameters: Vec<Variable> = (0..self.random.below(5)).map(|_| self.parameter()).collect();
        self.variables.extend(&parameters);
        self.scope = (self.base..self.variables.len() as u16).collect();
        self.locked.clear();
        self.fuel = 4 + self.random.below(14);
        let mut body = self.statement(4);
        if self.random.chance(10) {
            body = (0..22 + self.random.below(10)).fold(body, |inner, _| list(vec![inner]));
        }
        if self.careless() {
            let stray = self.local();
            self.variables.push(stray);
        }
        let locals = self.variables[self.base as usize + parameters.len()..].to_vec();
        self.made.push(parameters.clone());
        Procedure { parameters, locals, body }
    }

    fn careless(&mut self) -> bool {
        self.random.chance(self.carelessness)
    }

    fn forgetful(&mut self) -> bool {
        self.careless() || self.random.chance(self.forgetfulness)
    }

    fn typed(&mut self) -> (Secrecy, u8) {
        self.random.pick(&self.palette).unwrap_or((Secrecy::Public, 64))
    }

    fn parameter(&mut self) -> Variable {
        let (secrecy, size) = self.typed();
        if self.random.chance(400) {
            Variable::Array(secrecy, size, 0)
        } else {
            Variable::Scalar(secrecy, size)
        }
    }

    fn local(&mut self) -> Variable {
        let (secrecy, size) = self.typed();
        match self.random.below(8) {
            0 => Variable::Constant(self.random.number()),
            1 | 2 => Variable::Array(secrecy, size, 1 + self.random.below(4) as u16),
            3 if self.random.chance(40) => Variable::Array(secrecy, size, 4_096),
            _ => Variable::Scalar(secrecy, size),
        }
    }

    /// Gives a new variable of the current procedure its number.
    fn number(&mut self, variable: Variable) -> u16 {
        self.variables.push(variable);
        self.variables.len() as u16 - 1
    }

    fn kind(&self, number: u16) -> Variable {
        self.variables[number as usize]
    }

    /// A variable in scope that `fits`; a careless one may be any of the program.
    fn choose(&mut self, fits: impl Fn(u16, Variable) -> bool) -> Option<u16> {
        if self.careless() && !self.variables.is_empty() {
            return Some(self.random.below(self.variables.len() as u64) as u16);
        }
        let fitting: Vec<u16> = self.scope.iter().copied().filter(|v| fits(*v, self.kind(*v))).collect();
        self.random.pick(&fitting)
    }
}

/// Secrecy and size of a variable's value.
fn type_of(variable: Variable) -> (Secrecy, u8) {
    match variable {
        Variable::Scalar(secrecy, size) | Variable::Array(secrecy, size, _) => (secrecy, size),
        Variable::Constant(_) | Variable::Counter => (Secrecy::Public, 64),
    }
}

fn is_array(variable: Variable) -> bool {
    matches!(variable, Variable::Array(..))
}

fn is_constant(variable: Variable) -> bool {
    matches!(variable, Variable::Constant(_))
}

/// The inverse of a statement that clears what the statement set.
fn undone(statement: &Stmt) -> Stmt {
    use crate::image::Change::*;
    match statement {
        Stmt::Update(change, target, value) => {
            let back = match change {
                Add => Sub,
                Sub => Add,
                Xor => Xor,
                RotateLeft => RotateRight,
                RotateRight => RotateLeft,
            };
            Stmt::Update(back, target.clone(), value.clone())
        }
        other => other.clone(),
    }
}
