//! Damage to records, bytes and what is lent to a run.

use super::random::Random;
use crate::image::{Raw, MISSING};

/// Changes random fields of random records, mostly few.
pub fn records(random: &mut Random, raw: &mut Raw) {
    let most = if random.chance(100) { 30 } else { 2 };
    for _ in 0..1 + random.below(most) {
        match random.below(10) {
            0 => procedure(random, raw),
            1 | 2 => variable(random, raw),
            3 => extra_node(random, raw),
            4 => rewire(random, raw),
            _ => node(random, raw),
        }
    }
}

fn word(random: &mut Random, old: u16, raw: &Raw) -> u16 {
    match random.below(9) {
        0 => 0,
        1 => MISSING,
        2 => old.wrapping_add(1),
        3 => old.wrapping_sub(1),
        4 => raw.nodes.len() as u16,
        5 => raw.variables.len() as u16,
        6 => random.below(raw.variables.len() as u64 + 1) as u16,
        7 => random.below(raw.nodes.len() as u64 + 1) as u16,
        _ => random.word() as u16,
    }
}

fn byte(random: &mut Random) -> u8 {
    match random.below(4) {
        0 => random.word() as u8,
        1 => [8, 16, 32, 64][random.below(4) as usize],
        _ => random.below(28) as u8,
    }
}

fn procedure(random: &mut Random, raw: &mut Raw) {
    let number = random.below(raw.procedures.len() as u64) as usize;
    let mut p = raw.procedures[number];
    let field = [&mut p.first, &mut p.count, &mut p.parameters, &mut p.body].into_iter().nth(random.below(4) as usize);
    if let Some(field) = field {
        *field = word(random, *field, raw);
    }
    raw.procedures[number] = p;
}

fn variable(random: &mut Random, raw: &mut Raw) {
    if raw.variables.is_empty() {
        return;
    }
    let number = random.below(raw.variables.len() as u64) as usize;
    let mut v = raw.variables[number];
    match random.below(6) {
        0 => v.kind = random.below(5) as u8,
        1 => v.secrecy ^= 1,
        2 => v.secrecy = random.below(3) as u8,
        3 => v.size = byte(random),
        4 => v.zero = random.below(2) as u8,
        _ => v.extra = word(random, v.extra, raw),
    }
    raw.variables[number] = v;
}

fn node(random: &mut Random, raw: &mut Raw) {
    let number = random.below(raw.nodes.len() as u64) as usize;
    let mut n = raw.nodes[number];
    match random.below(8) {
        0 => n.kind = byte(random),
        1 => n.operator = random.below(18) as u8,
        2 | 3 => n.a = word(random, n.a, raw),
        4 => n.b = word(random, n.b, raw),
        5 => n.c = word(random, n.c, raw),
        6 => n.d = word(random, n.d, raw),
        _ => n.next = word(random, n.next, raw),
    }
    raw.nodes[number] = n;
}

/// Adds a node that nothing refers to, or that some node has as next.
fn extra_node(random: &mut Random, raw: &mut Raw) {
    let number = random.below(raw.nodes.len() as u64) as usize;
    let copied = raw.nodes[number];
    if random.chance(700) {
        raw.nodes[number].next = raw.nodes.len() as u16;
    }
    raw.nodes.push(copied);
}

/// Lets two nodes change their variable, so that the form still holds.
fn rewire(random: &mut Random, raw: &mut Raw) {
    for _ in 0..2 {
        let number = random.below(raw.nodes.len() as u64) as usize;
        if (21..=24).contains(&raw.nodes[number].kind) {
            raw.nodes[number].a = random.below(raw.variables.len().max(1) as u64) as u16;
        }
    }
}

/// Changes, drops or adds a byte; the header is met more often than its share.
pub fn bytes(random: &mut Random, image: &mut Vec<u8>) {
    match random.below(6) {
        0 => image.truncate(random.below(image.len() as u64) as usize),
        1 => image.push(random.word() as u8),
        2 | 3 => image[random.below(20) as usize] ^= 1 << random.below(8),
        _ => {
            let at = random.below(image.len() as u64) as usize;
            image[at] ^= 1 << random.below(8);
        }
    }
}

pub fn lengths(random: &mut Random, lengths: &mut Vec<u64>, store: &mut Vec<u64>) {
    match random.below(5) {
        0 => lengths.push(1),
        1 => drop(lengths.pop()),
        2 => store.push(0),
        3 => drop(store.pop()),
        _ => {
            if let Some(length) = lengths.first_mut() {
                *length = random.number();
            }
        }
    }
}

pub fn cell(random: &mut Random, store: &mut [u64]) {
    if !store.is_empty() {
        let at = random.below(store.len() as u64) as usize;
        store[at] = random.number();
    }
}
