//! Deterministic random numbers (xorshift).

pub struct Random {
    state: u64,
}

impl Random {
    pub fn new(seed: u64) -> Random {
        // The state may not be 0; the multiplication spreads small seeds.
        let mut random = Random { state: seed.wrapping_mul(0x9E37_79B9_7F4A_7C15) | 1 };
        for _ in 0..16 {
            random.word();
        }
        random
    }

    pub fn word(&mut self) -> u64 {
        self.state ^= self.state << 13;
        self.state ^= self.state >> 7;
        self.state ^= self.state << 17;
        self.state.wrapping_mul(0x2545_F491_4F6C_DD1D) >> 3 ^ self.state
    }

    /// A number below a limit that is not 0.
    pub fn below(&mut self, limit: u64) -> u64 {
        (self.word() >> 11) % limit
    }

    pub fn chance(&mut self, per_mille: u64) -> bool {
        self.below(1_000) < per_mille
    }

    pub fn pick<T: Copy>(&mut self, list: &[T]) -> Option<T> {
        if list.is_empty() {
            return None;
        }
        Some(list[self.below(list.len() as u64) as usize])
    }

    /// Numbers that programs like: small, near a power of two, or any.
    pub fn number(&mut self) -> u64 {
        match self.below(8) {
            0..=3 => self.below(6),
            4 => self.below(300),
            5 => 1u64 << self.below(64),
            6 => u64::MAX - self.below(3),
            _ => self.word(),
        }
    }

    /// A value below 2^size.
    pub fn cell(&mut self, size: u8) -> u64 {
        self.number() & (u64::MAX >> (64 - u32::from(size)))
    }
}
