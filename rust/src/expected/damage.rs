//! The generator of rounds of random calls.

pub const ROUNDS: usize = 20;

/// The generator of a group of calls: a number is found from where it is wanted, so it rests on no answer.
pub struct Group(pub usize);

impl Group {
    /// Number `i` for slice `slice`, of 24 bits.
    pub fn number(&self, slice: usize, i: usize) -> usize {
        let after = |x: u64| (x * 1103515245 + 12345) % (1 << 31);
        let squared = |x: u64| x * (2 * x + 1) % (1 << 31);
        let mixed = |x: u64| squared(x) >> 15 | (squared(x) & 0x7fff) << 16;
        let start = (i << 15 | slice << 10 | self.0) as u64;
        (after(mixed(after(mixed(after(start % (1 << 31)))))) >> 7) as usize
    }

    pub fn below(&self, i: usize, limit: usize) -> usize {
        self.number(0, i).checked_rem(limit).unwrap_or(0)
    }

    pub fn one_in(&self, i: usize, cases: usize) -> bool {
        self.below(i, cases) == 0
    }

    /// A set from 0 to 13.
    pub fn set(&self, i: usize) -> usize {
        self.below(i, 14)
    }

    /// Which length of a call with so many slices is changed: one more or one less (1 to 19), or an empty slice (20 and on).
    pub fn change(&self, i: usize, slices: usize) -> usize {
        match self.below(i, 60) {
            change @ 0..20 if change <= 2 * slices => change,
            change @ 20.. if change < 20 + slices => change,
            _ => 0,
        }
    }

    pub fn bytes(&self, slice: usize, length: usize) -> Vec<u8> {
        (0..length).map(|i| self.number(slice, i) as u8).collect()
    }
}
