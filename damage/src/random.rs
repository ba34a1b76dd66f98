//! A generator that anyone can make again: from a start x, x ^= x << 13, x ^= x >> 7, x ^= x << 17.

pub struct Random {
    x: u64,
}

impl Random {
    /// The start must not be 0.
    pub fn new(start: u64) -> Self {
        Random { x: start.max(1) }
    }

    pub fn next(&mut self) -> u64 {
        self.x ^= self.x << 13;
        self.x ^= self.x >> 7;
        self.x ^= self.x << 17;
        self.x
    }

    /// A number below a limit.
    pub fn below(&mut self, limit: usize) -> usize {
        ((self.next() >> 16) % limit as u64) as usize
    }

    /// True in one of so many cases.
    pub fn one_in(&mut self, cases: usize) -> bool {
        self.below(cases) == 0
    }

    pub fn bytes(&mut self, length: usize) -> Vec<u8> {
        (0..length).map(|_| (self.next() >> 24) as u8).collect()
    }

    /// Residues modulo q; seldom one of them is q or more.
    pub fn residues(&mut self, q: u64, length: usize) -> Vec<u32> {
        let mut out: Vec<u32> = (0..length).map(|_| (self.next() % q) as u32).collect();
        if length > 0 && self.one_in(6) {
            let place = self.below(length);
            out[place] = (q + self.next() % 3) as u32;
        }
        out
    }

    /// Whole numbers of at most this size, 0 among them.
    pub fn signed(&mut self, size: i32, length: usize) -> Vec<i32> {
        (0..length).map(|_| self.below(2 * size as usize + 1) as i32 - size).collect()
    }

    /// A set from 0 to 14; an encryption or exchange set more often than not, and seldom a number far above all sets.
    pub fn set(&mut self) -> usize {
        match self.below(24) {
            0 => self.below(15) << 32 | 1 << 48,
            1 => 256 + self.below(15),
            2..=8 => self.below(15),
            _ => 1 + self.below(12),
        }
    }

    /// A length, seldom one more, one less, or 0.
    pub fn length(&mut self, right: usize) -> usize {
        match self.below(60) {
            0 | 1 => right + 1,
            2 | 3 => right.saturating_sub(1),
            4 => 0,
            _ => right,
        }
    }

    /// How many results are wanted: seldom about 4,096, the most that calls accept.
    pub fn wanted(&mut self) -> usize {
        if self.one_in(12) {
            4095 + self.below(3)
        } else {
            self.below(200)
        }
    }
}
