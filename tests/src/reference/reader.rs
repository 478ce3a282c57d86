//! The four parts of an image, read where they stand. Only the layout test reads before the layout is known to hold.

pub const MISSING: usize = 65_535;
pub const HEADER_LENGTH: usize = 20;
pub const PROCEDURE_LENGTH: usize = 8;
pub const VARIABLE_LENGTH: usize = 6;
pub const NODE_LENGTH: usize = 12;
pub const CONSTANT_LENGTH: usize = 8;

pub const EMPTY: u8 = 1;
pub const UPDATE: u8 = 2;
pub const SWAP: u8 = 3;
pub const SWAP_IF: u8 = 4;
pub const IF: u8 = 5;
pub const FOR: u8 = 6;
pub const CALL: u8 = 7;
pub const UNCALL: u8 = 8;
pub const BLOCK: u8 = 9;
pub const NUMBER: u8 = 20;
pub const VARIABLE: u8 = 21;
pub const ELEMENT: u8 = 22;
pub const UNSAFE: u8 = 23;
pub const SIZE: u8 = 24;
pub const BINARY: u8 = 25;
pub const NOT: u8 = 26;

pub const SCALAR_KIND: u8 = 0;
pub const ARRAY_KIND: u8 = 1;
pub const CONSTANT_KIND: u8 = 2;
pub const COUNTER_KIND: u8 = 3;

pub struct Image<'a> {
    pub bytes: &'a [u8],
    pub procedures: usize,
    pub variables: usize,
    pub nodes: usize,
    pub constants: usize,
    pub variables_at: usize,
    pub nodes_at: usize,
    pub constants_at: usize,
}

pub struct Procedure {
    pub first: usize,
    pub count: usize,
    pub parameters: usize,
    pub body: usize,
}

pub struct Variable {
    pub kind: u8,
    pub secrecy: u8,
    pub size: u8,
    pub zero: u8,
    pub extra: usize,
}

pub struct Node {
    pub kind: u8,
    pub operator: u8,
    pub fields: [usize; 4],
    pub next: usize,
}

pub fn word(bytes: &[u8], offset: usize) -> usize {
    usize::from(u16::from_le_bytes([bytes[offset], bytes[offset + 1]]))
}

impl Procedure {
    pub fn end(&self) -> usize {
        self.first + self.count
    }

    pub fn owns(&self, variable: usize) -> bool {
        self.first <= variable && variable < self.end()
    }

    pub fn has_parameter(&self, variable: usize) -> bool {
        self.first <= variable && variable < self.first + self.parameters
    }
}

impl Variable {
    pub fn is_array(&self) -> bool {
        self.kind == ARRAY_KIND
    }

    pub fn is_constant(&self) -> bool {
        self.kind == CONSTANT_KIND
    }

    pub fn is_counter(&self) -> bool {
        self.kind == COUNTER_KIND
    }

    pub fn is_secret(&self) -> bool {
        self.secrecy == 1
    }

    /// How many cells a local takes.
    pub fn local_cells(&self) -> usize {
        match self.kind {
            ARRAY_KIND => self.extra,
            CONSTANT_KIND => 0,
            _ => 1,
        }
    }
}

impl Node {
    pub fn a(&self) -> usize {
        self.fields[0]
    }

    pub fn b(&self) -> usize {
        self.fields[1]
    }

    pub fn c(&self) -> usize {
        self.fields[2]
    }

    pub fn d(&self) -> usize {
        self.fields[3]
    }
}

impl Image<'_> {
    pub fn procedure(&self, number: usize) -> Procedure {
        let at = HEADER_LENGTH + PROCEDURE_LENGTH * number;
        Procedure {
            first: word(self.bytes, at),
            count: word(self.bytes, at + 2),
            parameters: word(self.bytes, at + 4),
            body: word(self.bytes, at + 6),
        }
    }

    pub fn last_procedure(&self) -> Procedure {
        self.procedure(self.procedures - 1)
    }

    pub fn variable(&self, number: usize) -> Variable {
        let at = self.variables_at + VARIABLE_LENGTH * number;
        Variable {
            kind: self.bytes[at],
            secrecy: self.bytes[at + 1],
            size: self.bytes[at + 2],
            zero: self.bytes[at + 3],
            extra: word(self.bytes, at + 4),
        }
    }

    pub fn node(&self, number: usize) -> Node {
        let at = self.nodes_at + NODE_LENGTH * number;
        let record = &self.bytes[at..at + NODE_LENGTH];
        Node {
            kind: record[0],
            operator: record[1],
            fields: [word(record, 2), word(record, 4), word(record, 6), word(record, 8)],
            next: word(record, 10),
        }
    }

    pub fn constant(&self, number: usize) -> u64 {
        let at = self.constants_at + CONSTANT_LENGTH * number;
        let mut value = [0; CONSTANT_LENGTH];
        value.copy_from_slice(&self.bytes[at..at + CONSTANT_LENGTH]);
        u64::from_le_bytes(value)
    }

    /// For each variable whether it is a parameter; the procedures' ranges are known to lie below V.
    pub fn parameters(&self) -> Vec<bool> {
        let mut flags = vec![false; self.variables];
        for p in (0..self.procedures).map(|p| self.procedure(p)) {
            flags[p.first..p.first + p.parameters].fill(true);
        }
        flags
    }

    /// The nodes chained by next from a first one, which may be missing.
    pub fn chain(&self, first: usize) -> impl Iterator<Item = usize> + '_ {
        let present = |number: usize| (number != MISSING).then_some(number);
        std::iter::successors(present(first), move |number| present(self.node(*number).next))
    }
}
