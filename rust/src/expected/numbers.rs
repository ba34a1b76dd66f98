//! The calls on numbers that run_arithmetic makes.

use super::arithmetic::{Arithmetic, Put, A, B, C1, C2, E, MESSAGE, R, S};
use super::report::changed;
use crate::draws::multiplier_bound;
use crate::parameters::{set, Set};

const BENCH_ERRORS: [i32; 3] = [1, 0, -1];
const BENCH_MULTIPLIERS: [i32; 2] = [1, -2];
const ERRORS: [i32; 16] = [4, 0, -4, 1, -1, 2, -3, 0, 3, -2, 1, 0, -1, 4, -4, 2];
const MULTIPLIERS: [i32; 16] = [16, -16, 1, -1, 5, -9, 12, -3, 2, -2, 7, -11, 15, -6, 4, -8];

/// One set; past the last set, the numbers of set 0.
pub struct Row {
    pub number: usize,
    pub s: Set,
}

/// One length changed after the other, one wrong number after the other, then both at once, then nothing.
fn cases(lengths: usize, wrongs: usize) -> impl Iterator<Item = (usize, usize)> {
    (1..=lengths).map(|change| (change, 0)).chain((1..=wrongs).map(|wrong| (0, wrong))).chain([(1, 1), (0, 0)])
}

impl Row {
    pub fn new(number: usize) -> Self {
        Row { number, s: set(number).or(set(0)).unwrap() }
    }

    fn is_bench(&self) -> bool {
        self.s.number == 0
    }

    pub fn a_numbers(&self) -> usize {
        self.s.t * self.s.n
    }

    pub fn secret_numbers(&self) -> usize {
        self.s.n + self.s.d + self.s.k - 1
    }

    pub fn key_numbers(&self) -> usize {
        self.s.t * (self.s.d + self.s.k)
    }

    pub fn sealed_numbers(&self) -> usize {
        self.s.n + self.s.k
    }

    pub fn key(&self, run: &mut Arithmetic, change: usize) {
        let lengths = [self.a_numbers(), self.secret_numbers(), self.key_numbers(), self.key_numbers()];
        run.key(self.number, changed(lengths, change));
    }

    pub fn sealing(&self, run: &mut Arithmetic, change: usize) {
        let lengths = [self.a_numbers(), self.key_numbers(), self.s.multipliers(), self.s.d, self.sealed_numbers(), self.s.d];
        run.sealing(self.number, changed(lengths, change));
    }

    pub fn reading(&self, run: &mut Arithmetic, change: usize) {
        run.reading(self.number, changed([self.sealed_numbers(), self.s.d, self.secret_numbers(), self.s.d], change));
    }

    /// Residues, or the bench figures.
    fn fill(&self, run: &mut Arithmetic, place: usize, figures: &[u32], length: usize, start: u64, q: u64) {
        run.residues(place, length + 1, start, q);
        for (i, &x) in figures.iter().enumerate().filter(|_| self.is_bench()) {
            run.put(Put::Number(place + i, x));
        }
    }

    /// Fills the stores; of the multipliers, one is at the first bound and one at the second.
    fn fill_all(&self, run: &mut Arithmetic) {
        self.fill(run, A, &[3, 5], self.a_numbers(), 1, self.s.q);
        self.fill(run, S, &[1, 2, 3, 4], self.secret_numbers(), 2, self.s.q);
        self.fill(run, MESSAGE, &[1, 0], self.s.d, 3, 2);
        let (errors, multipliers) = if self.is_bench() { (&BENCH_ERRORS[..], &BENCH_MULTIPLIERS[..]) } else { (&ERRORS[..], &MULTIPLIERS[..]) };
        run.repeat(E, self.key_numbers() + 1, errors);
        run.repeat(R, self.s.multipliers() + 1, multipliers);
        for put in self.around_bounds([0, 0], [-1, 1]) {
            run.put(put);
        }
    }

    /// A multiplier at the last position of the first bound and one at the first position of the second, so much above the bound and of these signs.
    fn around_bounds(&self, above: [i32; 2], signs: [i32; 2]) -> [Put; 2] {
        let last = self.s.first_bound - 1;
        let put = |i| Put::Signed(R + last + i, signs[i] * (multiplier_bound(&self.s, last + i) as i32 + above[i]));
        [put(0), put(1)]
    }

    fn wrong_in_key(&self, wrong: usize) -> Vec<Put> {
        let (q, last_error, eta) = (self.s.q as u32, E + self.key_numbers() - 1, self.s.eta as i32);
        match wrong {
            1 => vec![Put::Number(A, q)],
            2 => vec![Put::Number(A + self.a_numbers() - 1, q)],
            3 => vec![Put::Number(S + self.secret_numbers() - 1, q)],
            4 => vec![Put::Signed(last_error, eta + 1)],
            5 => vec![Put::Signed(last_error, -eta - 1)],
            _ => vec![],
        }
    }

    /// The last of these is right: multipliers at both bounds with the other signs.
    fn wrong_in_sealing(&self, wrong: usize) -> Vec<Put> {
        let q = self.s.q as u32;
        match wrong {
            1 => vec![Put::Number(A + self.a_numbers() - 1, q)],
            2 => vec![Put::Number(B + self.key_numbers() - 1, q)],
            3 => self.around_bounds([1, 0], [1, 1]).to_vec(),
            4 => self.around_bounds([1, 0], [-1, 1]).to_vec(),
            5 => self.around_bounds([0, 1], [-1, 1]).to_vec(),
            6 => self.around_bounds([0, 1], [-1, -1]).to_vec(),
            7 => vec![Put::Signed(R, 0)],
            8 => vec![Put::Signed(R + self.s.multipliers() - 1, 0)],
            9 => vec![Put::Number(MESSAGE + self.s.d - 1, 2)],
            10 => self.around_bounds([0, 0], [1, -1]).to_vec(),
            _ => vec![],
        }
    }

    fn wrong_in_reading(&self, wrong: usize) -> Vec<Put> {
        let q = self.s.q as u32;
        match wrong {
            1 => vec![Put::Number(C1 + self.sealed_numbers() - 1, q)],
            2 => vec![Put::Number(C2 + self.s.d - 1, q)],
            3 => vec![Put::Number(S + self.secret_numbers() - 1, q)],
            _ => vec![],
        }
    }

    /// Reads numbers at both ties of the rounding, 2w = h and 2w = 3h, and beside them; c1 is 0, so that w is c2.
    fn ties(&self, run: &mut Arithmetic) {
        assert!(self.s.half() % 2 == 0);
        let (low, high) = (self.s.half() as u32 / 2, self.s.half() as u32 / 2 * 3);
        run.residues(C1, 3072, 0, 1);
        run.residues(C2, 257, 0, 1);
        for (i, x) in [low, high, low - 1, low + 1, high - 1, high + 1].into_iter().enumerate() {
            run.put(Put::Number(C2 + i, x));
        }
        run.script.text("tie ");
        self.reading(run, 0);
    }

    /// Keys, the last of which is right; sealings with it, of which the last is right too; readings of that, and the ties.
    fn run(&self, run: &mut Arithmetic) {
        self.fill_all(run);
        for (change, wrong) in cases(8, 5) {
            run.with(&self.wrong_in_key(wrong), |run| self.key(run, change));
        }
        for (change, wrong) in cases(12, 10) {
            run.with(&self.wrong_in_sealing(wrong), |run| self.sealing(run, change));
        }
        for (change, wrong) in cases(8, 3) {
            run.with(&self.wrong_in_reading(wrong), |run| self.reading(run, change));
        }
        self.ties(run);
    }
}

pub fn run(run: &mut Arithmetic) {
    for number in 0..14 {
        Row::new(number).run(run);
    }
}
