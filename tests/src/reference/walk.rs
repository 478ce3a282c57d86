//! Numbers 7 to 13: one walk over each procedure, children first, then a node's own rules, then next.

use super::reader::*;
use super::Refusal;

const DIVIDE: u8 = 4;
const REMAINDER: u8 = 5;

/// What an L-value or expression is named for.
#[derive(Clone, Copy, PartialEq, Eq)]
enum Role {
    Value,
    Target,
    Argument,
}

/// What a call and a swap compare: secrecy, size, array or not.
#[derive(PartialEq, Eq)]
struct Type {
    secret: bool,
    size: u8,
    array: bool,
}

struct Walk<'a> {
    image: &'a Image<'a>,
    caller: usize,
    own: Procedure,
    declared: Vec<bool>,
    in_scope: Vec<bool>,
}

pub fn walk(image: &Image) -> Result<(), Refusal> {
    let mut walk =
        Walk { image, caller: 0, own: image.procedure(0), declared: vec![false; image.variables], in_scope: vec![false; image.variables] };
    for number in 0..image.procedures {
        walk.procedure(number)?;
    }
    Ok(())
}

fn refuse_if(broken: bool, number: u64, place: usize) -> Result<(), Refusal> {
    if broken {
        Err((number, place as u64))
    } else {
        Ok(())
    }
}

fn share_any(left: &[usize], right: &[usize]) -> bool {
    left.iter().any(|v| right.contains(v))
}

impl Walk<'_> {
    fn procedure(&mut self, number: usize) -> Result<(), Refusal> {
        self.caller = number;
        self.own = self.image.procedure(number);
        let first = self.own.first;
        let locals = first + self.own.parameters..self.own.end();
        self.in_scope.fill(false);
        self.in_scope[first..locals.start].fill(true);
        self.statement(self.own.body)?;
        for variable in locals {
            refuse_if(!self.declared[variable], 8, variable)?;
        }
        Ok(())
    }

    fn statement(&mut self, number: usize) -> Result<(), Refusal> {
        let node = self.image.node(number);
        match node.kind {
            UPDATE => self.update(number, &node),
            SWAP => self.swap(number, &node),
            SWAP_IF => self.swap_if(number, &node),
            IF => self.if_else(number, &node),
            FOR => self.for_loop(number, &node),
            CALL | UNCALL => self.call(number, &node),
            BLOCK => self.block(number, &node),
            _ => Ok(()),
        }
    }

    fn update(&mut self, number: usize, node: &Node) -> Result<(), Refusal> {
        let (target, value) = (node.a(), node.b());
        self.expression(target, Role::Target)?;
        self.expression(value, Role::Value)?;
        let into_public = self.is_secret(value) && !self.is_secret(target);
        refuse_if(into_public, 10, number)?;
        let mut read = self.variables(&[value]);
        self.add_index_variables(target, &mut read);
        refuse_if(read.contains(&self.root(target)), 11, number)
    }

    fn swap(&mut self, number: usize, node: &Node) -> Result<(), Refusal> {
        let targets = [node.a(), node.b()];
        for target in targets {
            self.expression(target, Role::Target)?;
        }
        self.swap_rules(number, targets, Vec::new())
    }

    fn swap_if(&mut self, number: usize, node: &Node) -> Result<(), Refusal> {
        let condition = node.a();
        let targets = [node.b(), node.c()];
        self.expression(condition, Role::Value)?;
        for target in targets {
            self.expression(target, Role::Target)?;
        }
        let public_target = targets.iter().any(|t| !self.is_secret(*t));
        refuse_if(self.is_secret(condition) && public_target, 10, number)?;
        self.swap_rules(number, targets, self.variables(&[condition]))
    }

    /// 11 and 12 of both swaps; `read` holds the condition's variables.
    fn swap_rules(&self, number: usize, targets: [usize; 2], mut read: Vec<usize>) -> Result<(), Refusal> {
        for target in targets {
            self.add_index_variables(target, &mut read);
        }
        let roots = targets.map(|t| self.root(t));
        refuse_if(share_any(&roots, &read), 11, number)?;
        let same = self.type_of(targets[0]) == self.type_of(targets[1]);
        refuse_if(!same, 12, number)
    }

    fn if_else(&mut self, number: usize, node: &Node) -> Result<(), Refusal> {
        let condition = node.a();
        self.expression(condition, Role::Value)?;
        self.statement(node.b())?;
        self.statement(node.c())?;
        refuse_if(self.is_secret(condition), 10, number)?;
        let clash = self.any_changes(&[node.b(), node.c()], &self.variables(&[condition]));
        refuse_if(clash, 11, number)
    }

    fn for_loop(&mut self, number: usize, node: &Node) -> Result<(), Refusal> {
        let (counter, bounds, body) = (node.a(), [node.b(), node.c()], node.d());
        for bound in bounds {
            self.expression(bound, Role::Value)?;
        }
        refuse_if(!self.may_declare(counter), 7, number)?;
        refuse_if(!self.image.variable(counter).is_counter(), 9, number)?;
        self.declared[counter] = true;
        self.in_scope[counter] = true;
        self.statement(body)?;
        self.in_scope[counter] = false;
        let secret_bound = bounds.iter().any(|b| self.is_secret(*b));
        refuse_if(secret_bound, 10, number)?;
        let clash = self.any_changes(&[body], &self.variables(&bounds));
        refuse_if(clash, 11, number)
    }

    fn block(&mut self, number: usize, node: &Node) -> Result<(), Refusal> {
        let names = node.a()..node.a() + node.b();
        let all_free = names.clone().all(|v| self.may_declare(v));
        refuse_if(!all_free, 7, number)?;
        let counter = names.clone().any(|v| self.image.variable(v).is_counter());
        refuse_if(counter, 9, number)?;
        self.declared[names.clone()].fill(true);
        self.in_scope[names.clone()].fill(true);
        for statement in self.image.chain(node.c()) {
            self.statement(statement)?;
        }
        self.in_scope[names].fill(false);
        Ok(())
    }

    fn may_declare(&self, variable: usize) -> bool {
        self.own.owns(variable) && !self.own.has_parameter(variable) && !self.declared[variable]
    }

    fn call(&mut self, number: usize, node: &Node) -> Result<(), Refusal> {
        let arguments: Vec<usize> = self.image.chain(node.b()).collect();
        for argument in &arguments {
            self.expression(*argument, Role::Argument)?;
        }
        refuse_if(self.arguments_clash(&arguments), 11, number)?;
        refuse_if(!self.call_fits(node.a(), &arguments), 12, number)
    }

    fn arguments_clash(&self, arguments: &[usize]) -> bool {
        let roots: Vec<usize> = arguments.iter().map(|l| self.root(*l)).collect();
        let one_root = (0..roots.len()).any(|i| roots[i + 1..].contains(&roots[i]));
        let mut read = Vec::new();
        for argument in arguments {
            self.add_index_variables(*argument, &mut read);
        }
        one_root || share_any(&read, &roots)
    }

    fn call_fits(&self, callee: usize, arguments: &[usize]) -> bool {
        let called = self.image.procedure(callee);
        callee < self.caller
            && arguments.len() == called.parameters
            && (0..arguments.len()).all(|i| self.type_of(arguments[i]) == self.variable_type(called.first + i))
    }

    fn expression(&mut self, number: usize, role: Role) -> Result<(), Refusal> {
        let node = self.image.node(number);
        match node.kind {
            VARIABLE => self.named(number, node.a(), role),
            ELEMENT | UNSAFE => self.element(number, &node),
            SIZE => {
                self.seen(number, node.a())?;
                refuse_if(!self.image.variable(node.a()).is_array(), 9, number)
            }
            BINARY => {
                self.expression(node.a(), Role::Value)?;
                self.expression(node.b(), Role::Value)?;
                let divides = node.operator == DIVIDE || node.operator == REMAINDER;
                refuse_if(divides && self.is_secret(number), 13, number)
            }
            NOT => self.expression(node.a(), Role::Value),
            _ => Ok(()),
        }
    }

    fn seen(&self, number: usize, variable: usize) -> Result<(), Refusal> {
        refuse_if(!self.in_scope[variable], 7, number)
    }

    fn named(&self, number: usize, variable: usize, role: Role) -> Result<(), Refusal> {
        self.seen(number, variable)?;
        let v = self.image.variable(variable);
        let stray_array = v.is_array() && role != Role::Argument;
        let stray_constant = v.is_constant() && role != Role::Value;
        refuse_if(stray_array || stray_constant, 9, number)
    }

    fn element(&mut self, number: usize, node: &Node) -> Result<(), Refusal> {
        let index = node.b();
        self.expression(index, Role::Value)?;
        self.seen(number, node.a())?;
        let array = self.image.variable(node.a());
        refuse_if(!array.is_array(), 9, number)?;
        let broken = if node.kind == UNSAFE { !array.is_secret() } else { self.is_secret(index) };
        refuse_if(broken, 10, number)
    }

    fn is_secret(&self, expression: usize) -> bool {
        let node = self.image.node(expression);
        match node.kind {
            VARIABLE | ELEMENT | UNSAFE => self.image.variable(node.a()).is_secret(),
            BINARY => self.is_secret(node.a()) || self.is_secret(node.b()),
            NOT => self.is_secret(node.a()),
            _ => false,
        }
    }

    fn variable_type(&self, variable: usize) -> Type {
        let v = self.image.variable(variable);
        Type { secret: v.is_secret(), size: v.size, array: v.is_array() }
    }

    fn type_of(&self, lvalue: usize) -> Type {
        let node = self.image.node(lvalue);
        let whole = self.variable_type(node.a());
        Type { array: whole.array && node.kind == VARIABLE, ..whole }
    }

    fn root(&self, lvalue: usize) -> usize {
        self.image.node(lvalue).a()
    }

    /// Adds all that an expression names, except under size.
    fn add_variables(&self, expression: usize, found: &mut Vec<usize>) {
        let node = self.image.node(expression);
        match node.kind {
            VARIABLE => found.push(node.a()),
            ELEMENT | UNSAFE => {
                self.add_variables(node.b(), found);
                found.push(node.a());
            }
            BINARY => {
                self.add_variables(node.a(), found);
                self.add_variables(node.b(), found);
            }
            NOT => self.add_variables(node.a(), found),
            _ => {}
        }
    }

    fn variables(&self, expressions: &[usize]) -> Vec<usize> {
        let mut found = Vec::new();
        for expression in expressions {
            self.add_variables(*expression, &mut found);
        }
        found
    }

    fn add_index_variables(&self, lvalue: usize, found: &mut Vec<usize>) {
        let node = self.image.node(lvalue);
        if node.kind != VARIABLE {
            self.add_variables(node.b(), found);
        }
    }

    /// Whether a statement changes one of these: the roots of all targets and arguments in it.
    fn changes(&self, statement: usize, names: &[bool]) -> bool {
        let node = self.image.node(statement);
        let has_root = |lvalue: usize| names[self.root(lvalue)];
        match node.kind {
            UPDATE => has_root(node.a()),
            SWAP => has_root(node.a()) || has_root(node.b()),
            SWAP_IF => has_root(node.b()) || has_root(node.c()),
            IF => self.changes(node.b(), names) || self.changes(node.c(), names),
            FOR => self.changes(node.d(), names),
            CALL | UNCALL => self.image.chain(node.b()).any(has_root),
            BLOCK => self.image.chain(node.c()).any(|s| self.changes(s, names)),
            _ => false,
        }
    }

    fn any_changes(&self, statements: &[usize], names: &[usize]) -> bool {
        let mut among = vec![false; self.image.variables];
        for name in names {
            among[*name] = true;
        }
        statements.iter().any(|s| self.changes(*s, &among))
    }
}
