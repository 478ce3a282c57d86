//! Random expressions and L-values.

use super::{is_array, is_constant, type_of, Generator};
use crate::image::*;

/// All that an expression names, except under size.
pub fn names(expression: &Expr) -> Vec<u16> {
    match expression {
        Expr::Number(_) | Expr::Size(_) => Vec::new(),
        Expr::LValue(lvalue) => [index_names(lvalue), vec![root(lvalue)]].concat(),
        Expr::Binary(_, left, right) => [names(left), names(right)].concat(),
        Expr::Not(operand) => names(operand),
    }
}

pub fn index_names(lvalue: &LValue) -> Vec<u16> {
    match lvalue {
        LValue::Variable(_) => Vec::new(),
        LValue::Element(_, index) | LValue::Unsafe(_, index) => names(index),
    }
}

pub fn root(lvalue: &LValue) -> u16 {
    match lvalue {
        LValue::Variable(v) | LValue::Element(v, _) | LValue::Unsafe(v, _) => *v,
    }
}

impl Generator<'_> {
    /// An expression that names none of `avoid`, public where that is wanted.
    pub fn expression(&mut self, depth: u32, public: bool, avoid: &[u16]) -> Expr {
        let public = public && !self.careless();
        if depth == 0 {
            return self.leaf(public, avoid, depth);
        }
        match self.random.below(10) {
            0..=3 => self.leaf(public, avoid, depth - 1),
            4 => not(self.expression(depth - 1, public, avoid)),
            _ => self.binary(depth - 1, public, avoid),
        }
    }

    fn binary(&mut self, depth: u32, public: bool, avoid: &[u16]) -> Expr {
        let operator = OPERATORS[self.random.below(16) as usize];
        let divides = matches!(operator, Operator::Div | Operator::Mod);
        let left = self.expression(depth, public || divides, avoid);
        let mut right = self.expression(depth, public || divides, avoid);
        let shifts = matches!(operator, Operator::Left | Operator::Right);
        if divides && !self.random.chance(150) {
            right = bin(Operator::Or, right, 1);
        }
        if shifts && self.random.chance(500) {
            right = bin(Operator::And, right, 63);
        }
        bin(operator, left, right)
    }

    fn leaf(&mut self, public: bool, avoid: &[u16], depth: u32) -> Expr {
        let avoid = if self.forgetful() { &[] } else { avoid };
        let readable = |v: u16, kind: Variable| !(avoid.contains(&v) || public && type_of(kind).0 == Secrecy::Secret);
        match self.random.below(10) {
            0..=4 => {
                if let Some(v) = self.choose(|v, kind| readable(v, kind) && !is_array(kind)) {
                    return var(v).into();
                }
            }
            5 | 6 => {
                if let Some(v) = self.choose(|v, kind| readable(v, kind) && is_array(kind)) {
                    return self.element(v, depth, avoid).into();
                }
            }
            7 => {
                if let Some(v) = self.choose(|_, kind| is_array(kind)) {
                    return size(v);
                }
            }
            _ => {}
        }
        self.random.number().into()
    }

    /// An element whose index mostly lies in the array.
    pub fn element(&mut self, array: u16, depth: u32, avoid: &[u16]) -> LValue {
        let secret = type_of(self.kind(array)).0 == Secrecy::Secret;
        if self.unsafe_allowed && (secret || self.careless()) && self.random.chance(400) {
            let index = self.expression(depth.min(1), false, avoid);
            return unsafe_at(array, bin(Operator::And, index, 1));
        }
        let index = match self.random.below(12) {
            0..=5 => self.random.below(2).into(),
            6..=8 => bin(Operator::And, self.expression(depth.min(1), true, avoid), 1),
            9 | 10 => bin(Operator::Mod, self.expression(depth.min(1), true, avoid), size(array)),
            _ => self.expression(depth.min(1), true, avoid),
        };
        at(array, index)
    }

    /// The root of a target of the given type (any, if none is given).
    pub fn target_root(&mut self, wanted: Option<(Secrecy, u8)>) -> Option<u16> {
        let locked = if self.forgetful() { Vec::new() } else { self.locked.clone() };
        self.choose(|v, kind| !locked.contains(&v) && !is_constant(kind) && wanted.is_none_or(|t| type_of(kind) == t))
    }

    /// A target with the given root and an index that names none of `avoid`.
    pub fn target(&mut self, root: u16, avoid: &[u16]) -> LValue {
        if is_array(self.kind(root)) && !self.careless() {
            let avoid = if self.forgetful() { &[] } else { avoid };
            self.element(root, 1, avoid)
        } else {
            var(root)
        }
    }
}
