//! A slice that is lent to a call, with guards around it, and the comparison of what a call answered and left.

use comparison::draws::Refusal;
use titanium::Refused;

const GUARD: usize = 64;

/// A slice of a larger vector.
pub struct Lent<T> {
    all: Vec<T>,
    length: usize,
    before: Vec<T>,
}

impl<T: Copy + PartialEq + std::fmt::Debug> Lent<T> {
    /// A slice that holds `filler`.
    pub fn new(length: usize, filler: T) -> Self {
        let all = vec![filler; length + 2 * GUARD];
        Lent { before: all.clone(), all, length }
    }

    pub fn slice(&mut self) -> &mut [T] {
        &mut self.all[GUARD..GUARD + self.length]
    }

    /// The slice must hold `new` where the call was accepted, else what it held before; nothing around it may have changed.
    pub fn expect<E>(&self, made: Result<&[T], E>) {
        let mut wanted = self.before.clone();
        if let Ok(new) = made {
            wanted[GUARD..GUARD + self.length].copy_from_slice(new);
        }
        assert!(self.all == wanted, "an output differs");
    }
}

/// Both answers must be the same; gives the number.
pub fn same_answer<T>(given: Result<(), Refused>, wanted: &Result<T, Refusal>) -> u8 {
    let given = given.map_err(|refused| (refused.number(), refused.place() as usize));
    let wanted = wanted.as_ref().map(|_| ()).map_err(|refused| (refused.number, refused.place));
    assert_eq!(given, wanted);
    wanted.err().map_or(0, |refused| refused.0)
}
