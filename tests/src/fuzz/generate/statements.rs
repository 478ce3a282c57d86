//! Random statements.

use super::expressions::{index_names, names, root};
use super::{is_array, is_constant, type_of, undone, Generator};
use crate::image::*;

impl Generator<'_> {
    pub fn statement(&mut self, depth: u32) -> Stmt {
        if self.fuel == 0 {
            return Stmt::Empty;
        }
        self.fuel -= 1;
        if depth == 0 {
            return self.update();
        }
        match self.random.below(20) {
            0 => Stmt::Empty,
            1..=4 => self.update(),
            5 | 6 => self.swap(),
            7 | 8 => self.swap_if(),
            9 | 10 => self.if_else(depth - 1),
            11..=13 => self.for_loop(depth - 1),
            14..=16 => self.call(),
            _ => self.block(depth - 1),
        }
    }

    fn statements(&mut self, depth: u32) -> Vec<Stmt> {
        (0..1 + self.random.below(3)).map(|_| self.statement(depth)).collect()
    }

    /// Makes something while more variables may not be changed.
    fn locking<T>(&mut self, more: &[u16], make: impl FnOnce(&mut Self) -> T) -> T {
        let before = self.locked.len();
        self.locked.extend(more);
        let made = make(self);
        self.locked.truncate(before);
        made
    }

    fn is_public(&self, root: u16) -> bool {
        type_of(self.kind(root)).0 == Secrecy::Public
    }

    fn update(&mut self) -> Stmt {
        match self.target_root(None) {
            Some(root) => self.update_of(root),
            None => Stmt::Empty,
        }
    }

    fn update_of(&mut self, root: u16) -> Stmt {
        let target = self.target(root, &[root]);
        let value = self.expression(2, self.is_public(root), &[root]);
        let change = CHANGES[self.random.below(5) as usize];
        update(change, target, value)
    }

    /// The roots of two swap targets.
    fn swap_roots(&mut self) -> Option<[u16; 2]> {
        let left = self.target_root(None)?;
        let wanted = if self.careless() { None } else { Some(type_of(self.kind(left))) };
        let right = self.target_root(wanted)?;
        Some([left, right])
    }

    fn swap(&mut self) -> Stmt {
        let Some(roots) = self.swap_roots() else {
            return Stmt::Empty;
        };
        swap(self.target(roots[0], &roots), self.target(roots[1], &roots))
    }

    fn swap_if(&mut self) -> Stmt {
        let Some(roots) = self.swap_roots() else {
            return Stmt::Empty;
        };
        let public = roots.iter().any(|r| self.is_public(*r));
        let condition = self.expression(2, public, &roots);
        swap_if(condition, self.target(roots[0], &roots), self.target(roots[1], &roots))
    }

    fn if_else(&mut self, depth: u32) -> Stmt {
        let condition = self.expression(2, true, &[]);
        let named = names(&condition);
        let [yes, no] = self.locking(&named, |g| [g.statement(depth), g.statement(depth)]);
        if_else(condition, yes, no)
    }

    fn for_loop(&mut self, depth: u32) -> Stmt {
        let (first, second, step) = self.bounds();
        let named = [names(&first), names(&second)].concat();
        let counter = self.number(Variable::Counter);
        self.scope.push(counter);
        let body = self.locking(&named, |g| g.loop_body(counter, step, depth));
        self.scope.pop();
        for_loop(counter, first, second, body)
    }

    /// Two bounds and the step that leads from one to the other; sometimes it does not.
    fn bounds(&mut self) -> (Expr, Expr, u64) {
        let step = 1 + self.random.below(3);
        let turns = self.random.below(4);
        let start = self.random.number();
        match self.random.below(10) {
            0..=5 => (start.into(), start.wrapping_add(turns * step).into(), step),
            6..=8 => {
                let second = bin(Operator::And, self.expression(1, true, &[]), 3);
                (0.into(), second, 1)
            }
            _ => (self.expression(1, true, &[]), self.expression(1, true, &[]), step),
        }
    }

    fn loop_body(&mut self, counter: u16, step: u64, depth: u32) -> Stmt {
        if self.random.chance(60) {
            return self.update_of(counter);
        }
        let mut statements = self.locking(&[counter], |g| g.statements(depth));
        let position = self.random.below(statements.len() as u64 + 1) as usize;
        statements.insert(position, add(var(counter), step));
        list(statements)
    }

    fn block(&mut self, depth: u32) -> Stmt {
        let count = self.random.below(4) as usize;
        let first = self.variables.len() as u16;
        let scope_before = self.scope.len();
        for _ in 0..count {
            let local = self.local();
            let number = self.number(local);
            self.scope.push(number);
        }
        let own: Vec<u16> = (first..first + count as u16).collect();
        let statements = self.cleared(&own, depth);
        self.scope.truncate(scope_before);
        if self.careless() && count > 0 {
            return block(first.wrapping_sub(1), count as u16 + 1, statements);
        }
        block(if count == 0 { 0 } else { first }, count as u16, statements)
    }

    /// Sets the locals, works with them, and mostly clears them again.
    fn cleared(&mut self, own: &[u16], depth: u32) -> Vec<Stmt> {
        let mut before = Vec::new();
        let mut locks = Vec::new();
        for local in own {
            if !is_constant(self.kind(*local)) {
                let (setting, stays) = self.setting(*local, own, &locks);
                before.push(setting);
                locks.extend(stays);
            }
        }
        if self.random.chance(100) {
            locks.retain(|v| !own.contains(v));
        }
        let middle = self.locking(&locks, |g| g.statements(depth));
        let mut after: Vec<Stmt> = before.iter().rev().map(undone).collect();
        if self.random.chance(120) {
            after.pop();
        }
        [before, middle, after].concat()
    }

    /// A statement that sets a local, and what must stay for it to be undone: a swap with a scalar outside lets
    /// the local change, an update does not.
    fn setting(&mut self, local: u16, own: &[u16], locks: &[u16]) -> (Stmt, Vec<u16>) {
        if self.random.chance(250) {
            if let Some(outer) = self.lent_root(local, own, locks) {
                return (swap(self.target(local, &[own, &[outer]].concat()), var(outer)), vec![outer]);
            }
        }
        let target = self.target(local, own);
        let value = self.expression(2, self.is_public(local), own);
        let stays = [names(&value), index_names(&target), vec![local]].concat();
        let change = CHANGES[self.random.below(5) as usize];
        (update(change, target, value), stays)
    }

    /// A scalar outside the block that a local can be swapped with.
    fn lent_root(&mut self, local: u16, own: &[u16], locks: &[u16]) -> Option<u16> {
        let wanted = type_of(self.kind(local));
        let locked = self.locked.clone();
        self.choose(|v, kind| {
            !own.contains(&v)
                && !locks.contains(&v)
                && !locked.contains(&v)
                && !is_array(kind)
                && !is_constant(kind)
                && type_of(kind) == wanted
        })
    }

    fn call(&mut self) -> Stmt {
        if self.careless() {
            return call(self.random.below(self.made.len() as u64 + 1) as u16, vec![]);
        }
        if self.made.is_empty() {
            return self.update();
        }
        let callee = self.random.below(self.made.len() as u64) as usize;
        let Some(arguments) = self.arguments(&self.made[callee].clone()) else {
            return self.update();
        };
        if self.random.chance(400) {
            uncall(callee as u16, arguments)
        } else {
            call(callee as u16, arguments)
        }
    }

    fn arguments(&mut self, parameters: &[Variable]) -> Option<Vec<LValue>> {
        let mut roots: Vec<u16> = Vec::new();
        for parameter in parameters {
            let locked = [self.locked.clone(), roots.clone()].concat();
            let wanted = *parameter;
            let found = self.choose(|v, kind| {
                !locked.contains(&v) && !is_constant(kind) && type_of(kind) == type_of(wanted) && (is_array(kind) || !is_array(wanted))
            })?;
            roots.push(found);
        }
        let arguments: Vec<LValue> = (0..roots.len())
            .map(|i| match is_array(parameters[i]) {
                true => var(roots[i]),
                false => self.target(roots[i], &roots),
            })
            .collect();
        debug_assert!(arguments.iter().map(root).eq(roots.iter().copied()));
        Some(arguments)
    }
}
