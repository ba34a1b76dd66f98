//! The middle products that run_arithmetic makes.

use super::arithmetic::{Arithmetic, Put, A, B};
use crate::parameters::set;

const MOST: usize = 4097;
const NONE: usize = 5000;

/// The products of one set; past the last set, with the numbers of set 0.
struct Products<'a> {
    run: &'a mut Arithmetic,
    number: usize,
    q: u64,
    size: usize,
}

impl Products<'_> {
    fn fill(&mut self, starts: [u64; 2]) {
        self.run.residues(A, MOST, starts[0], self.q);
        self.run.residues(B, MOST, starts[1], self.q);
    }

    fn transformed(&mut self, lengths: [usize; 3], lent: usize) {
        self.run.transformed(self.number, lengths, lent);
    }

    fn both(&mut self, lengths: [usize; 3]) {
        self.run.plain(self.number, lengths);
        self.transformed(lengths, self.size);
    }

    fn all_lengths(&mut self) {
        let short = [[1, 1, 1], [1, 2, 2], [2, 2, 1], [2, 3, 2]];
        let long_a = [4095, 4096, 4097].map(|n| [n, n, 1]);
        let long_b = [4095, 4096, 4097].map(|n| [1, n, n]);
        let middle = [4095, 4096, 4097].map(|n| [2048, n, n - 2047]);
        let misfits = [[4097, 4096, 1], [1, 4096, 4097], [0, 0, 1], [0, 3, 4], [1, 0, 0], [4, 3, 0]];
        let one_off = [[3, 4, 3], [3, 6, 3], [2, 5, 3], [4, 5, 3], [3, 5, 2], [3, 5, 4]];
        for &case in short.iter().chain(&long_a).chain(&long_b).chain(&middle).chain(&misfits).chain(&one_off) {
            self.both(case);
        }
    }

    fn around_size(&mut self) {
        let (size, n) = (self.size, self.size / 2);
        self.both([n, size, size - n + 1]);
        self.both([n, size + 1, size - n + 2]);
        self.transformed([2, 3, 2], size - 1);
        self.transformed([2, 3, 2], size + 1);
        self.transformed([1, size + 1, size + 1], size + 1);
    }

    /// A product whose a and b hold the modulus at one place and the largest number two places further on.
    fn wrong(&mut self, lengths: [usize; 3], places: [usize; 2]) {
        self.fill([3, 4]);
        for (from, place) in [A, B].into_iter().zip(places) {
            for (place, x) in [(place, self.q as u32), (place + 2, u32::MAX)] {
                if place < MOST {
                    self.run.put(Put::Number(from + place, x));
                }
            }
        }
        self.both(lengths);
    }

    fn all_wrong(&mut self) {
        self.wrong([2, 3, 2], [0, NONE]);
        self.wrong([2, 3, 2], [1, NONE]);
        self.wrong([2, 3, 2], [NONE, 0]);
        self.wrong([2, 3, 2], [NONE, 2]);
        self.wrong([2, 3, 2], [1, 0]);
        self.wrong([2, 3, 2], [2, 3]);
        self.wrong([3, 4, 2], [0, 0]);
        self.wrong([3, 4, 2], [1, NONE]);
        self.wrong([2, 4, 2], [0, 0]);
        self.wrong([0, 1, 2], [0, 0]);
        self.wrong([4096, 4096, 1], [4095, NONE]);
        self.wrong([4096, 4096, 1], [NONE, 4095]);
    }
}

pub fn run(run: &mut Arithmetic) {
    for number in 0..14 {
        let s = set(number).or(set(0)).unwrap();
        let mut products = Products { run, number, q: s.q, size: s.sizes[2] };
        products.fill([1, 2]);
        products.all_lengths();
        products.around_size();
        products.all_wrong();
    }
}
