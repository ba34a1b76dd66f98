//! The transforms that run_arithmetic makes.

use super::arithmetic::{Arithmetic, A, B};
use super::report::number_sum;
use crate::arithmetic::{pointwise, Transform};
use crate::parameters::{set, Set};

/// Transform number i (0 to 2) of a set, of vectors of which the first n numbers count.
struct Case<'a> {
    run: &'a mut Arithmetic,
    s: Set,
    i: usize,
    n: usize,
}

impl Case<'_> {
    fn size(&self) -> usize {
        self.s.sizes[self.i]
    }

    fn fill(&mut self, place: usize, start: u64) -> Vec<u32> {
        self.run.residues(place, self.size(), start, self.s.q);
        self.run.numbers[place..place + self.size()].to_vec()
    }

    /// A command on the vector of the store, with the lengths of its tables and of the vector, which prints the checksum of numbers.
    fn made(&mut self, command: usize, numbers: &[u32]) {
        let rows = self.size() / if self.s.number == 0 { 1 } else { 256 };
        self.run.script.command(&[command, self.s.number, self.i + 1, self.n, self.size() + 264 + rows, self.size()]);
        self.run.script.print(&format!(" {}", number_sum(numbers)));
    }

    /// Sends with one transform and recovers with the other.
    fn forth(&mut self, commands: [usize; 2], start: u64, transform: &Transform, back: &Transform) {
        let x = self.fill(A, start);
        let sent = transform.forward(&x[..self.n]);
        let recovered = back.scaled(&sent);
        assert!(recovered[..self.n] == x[..self.n] && recovered[self.n..].iter().all(|&x| x == 0), "set {}", self.s.number);
        self.made(commands[0], &sent);
        self.made(commands[1], &recovered);
    }

    /// A correlation of n numbers settles as many places as n leave.
    fn correlation(&mut self, forward: &Transform) {
        let (x, stored) = (self.fill(A, 3), self.fill(B, 4));
        let correlated = forward.scaled(&pointwise(self.s.q, &forward.forward(&x[..self.n]), &stored));
        self.made(16, &correlated[..self.size() + 1 - self.n]);
    }

    fn line(&mut self) {
        let [forward, inverse] = [false, true].map(|inverse| Transform::new(&self.s, self.i, inverse));
        self.run.script.text(&format!("transform {} {} {}", self.s.number, self.i + 1, self.n));
        self.forth([12, 14], 1, &forward, &inverse);
        self.forth([13, 15], 2, &inverse, &forward);
        self.correlation(&forward);
        self.run.script.text("\n");
    }
}

pub fn run(run: &mut Arithmetic) {
    for s in (0..13).map(|number| set(number).unwrap()) {
        for (i, &size) in s.sizes.iter().enumerate() {
            Case { run, s, i, n: size }.line();
            Case { run, s, i, n: size / 2 + 1 }.line();
        }
    }
}
