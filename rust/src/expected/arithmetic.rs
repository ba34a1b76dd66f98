//! What run_arithmetic does with its script: the commands, with the stores that they change and the lines that they print.

use super::damage::Group;
use super::report::{answer, number_sum, residues};
use super::script::Script;
use super::{damage_arithmetic, middle, numbers, partial, transforms};
use crate::arithmetic::{middle_product_call, Lengths};
use crate::numbers::{key, reading, sealing};
use crate::parameters::set;
use crate::partial::{partial_inverse, partial_transform, Split};
use std::mem::replace;

/// Where the calls find polynomials a, a secret, a key, a message and the two parts of what was sealed.
pub const A: usize = 0;
pub const S: usize = 16400;
pub const B: usize = 19800;
pub const MESSAGE: usize = 30100;
pub const C1: usize = 30400;
pub const C2: usize = 33500;

/// Where they find errors and multipliers among the signed numbers.
pub const E: usize = 0;
pub const R: usize = 10300;

/// A number for a place of one of the two stores.
#[derive(Clone, Copy)]
pub enum Put {
    Number(usize, u32),
    Signed(usize, i32),
}

pub struct Arithmetic {
    pub script: Script,
    pub numbers: Vec<u32>,
    signed: Vec<i32>,
}

/// A slice of 7s, with what a call made in front of it.
fn over_sevens(mut made: Vec<u32>, length: usize) -> Vec<u32> {
    made.resize(length, 7);
    made
}

impl Arithmetic {
    pub fn new() -> Self {
        Arithmetic { script: Script::default(), numbers: vec![0; 33800], signed: vec![0; 18500] }
    }

    /// A call: its name, its operands, and what it answers and leaves.
    fn call(&mut self, command: usize, name: &str, operands: &[usize], left: &str) {
        self.script.command(&[&[command], operands].concat());
        self.script.line(name, operands, left);
    }

    pub fn residues(&mut self, place: usize, length: usize, start: u64, q: u64) {
        self.script.command(&[1, place, length, start as usize, q as usize]);
        self.numbers[place..place + length].copy_from_slice(&residues(length, start, q));
    }

    pub fn random_residues(&mut self, place: usize, length: usize, group: &Group, slice: usize, q: u64) {
        self.script.command(&[2, place, length, group.0, slice, q as usize]);
        for i in 0..length {
            self.numbers[place + i] = (group.number(slice, i) as u64 % q) as u32;
        }
    }

    /// Puts a number at a place, and gives what stood there.
    pub fn put(&mut self, put: Put) -> Put {
        match put {
            Put::Number(place, x) => {
                self.script.command(&[3, place, x as usize]);
                Put::Number(place, replace(&mut self.numbers[place], x))
            }
            Put::Signed(place, x) => {
                self.script.command(&[4, place, x.unsigned_abs() as usize, (x < 0) as usize]);
                Put::Signed(place, replace(&mut self.signed[place], x))
            }
        }
    }

    /// Calls with other numbers, which are put back afterwards.
    pub fn with(&mut self, puts: &[Put], call: impl FnOnce(&mut Self)) {
        let before: Vec<Put> = puts.iter().map(|&put| self.put(put)).collect();
        call(self);
        for put in before.into_iter().rev() {
            self.put(put);
        }
    }

    /// Repeats signed numbers.
    pub fn repeat(&mut self, place: usize, length: usize, pattern: &[i32]) {
        for (i, &x) in pattern.iter().enumerate() {
            self.put(Put::Signed(place + i, x));
        }
        self.script.command(&[5, place, length, pattern.len()]);
        for i in 0..length {
            self.signed[place + i] = pattern[i % pattern.len()];
        }
    }

    /// Signed numbers of at most a size, with another in place of 0.
    pub fn random_signed(&mut self, place: usize, length: usize, group: &Group, slice: usize, size: u32, zero: i32) {
        self.script.command(&[6, place, length, group.0, slice, size as usize, zero as usize]);
        for i in 0..length {
            let x = (group.number(slice, i) % (2 * size as usize + 1)) as i32 - size as i32;
            self.signed[place + i] = if x == 0 { zero } else { x };
        }
    }

    fn product(&self, number: usize, [n, m, results]: [usize; 3], work: Option<usize>) -> (String, bool) {
        let [a, b] = [(A, n), (B, m)].map(|(place, length)| &self.numbers[place..place + length]);
        let given = middle_product_call(set(number), a, b, Lengths { results, work });
        let answer = answer(&given.product);
        (format!("{answer} {}", number_sum(&over_sevens(given.product.unwrap_or_default(), 4097))), given.cleared)
    }

    pub fn plain(&mut self, number: usize, lengths: [usize; 3]) {
        let (left, _) = self.product(number, lengths, None);
        self.call(7, "plain", &[[number].as_slice(), &lengths].concat(), &left);
    }

    pub fn transformed(&mut self, number: usize, lengths: [usize; 3], lent: usize) {
        let (left, cleared) = self.product(number, lengths, Some(lent));
        let work = over_sevens(vec![if cleared { 0 } else { 7 }; lent], 4097);
        self.call(8, "transformed", &[&[number], lengths.as_slice(), &[lent]].concat(), &format!("{left} {}", number_sum(&work)));
    }

    pub fn key(&mut self, number: usize, [n, m, o, results]: [usize; 4]) {
        let given = key(set(number), &self.numbers[A..A + n], &self.numbers[S..S + m], &self.signed[E..E + o], results);
        let answer = answer(&given);
        let b = over_sevens(given.unwrap_or_default(), 10233);
        self.numbers[B..B + b.len()].copy_from_slice(&b);
        self.call(9, "key", &[number, n, m, o, results], &format!("{answer} {}", number_sum(&b)));
    }

    pub fn sealing(&mut self, number: usize, [n, m, o, bits, first, second]: [usize; 6]) {
        let [a, b, message] = [(A, n), (B, m), (MESSAGE, bits)].map(|(place, length)| &self.numbers[place..place + length]);
        let given = sealing(set(number), a, b, &self.signed[R..R + o], message, [first, second]);
        let answer = answer(&given);
        let (c1, c2) = given.unwrap_or_default();
        let (c1, c2) = (over_sevens(c1, 3072), over_sevens(c2, 257));
        self.numbers[C1..C1 + c1.len()].copy_from_slice(&c1);
        self.numbers[C2..C2 + c2.len()].copy_from_slice(&c2);
        let left = format!("{answer} {} {}", number_sum(&c1), number_sum(&c2));
        self.call(10, "sealing", &[number, n, m, o, bits, first, second], &left);
    }

    pub fn reading(&mut self, number: usize, [n, m, o, results]: [usize; 4]) {
        let [c1, c2, s] = [(C1, n), (C2, m), (S, o)].map(|(place, length)| &self.numbers[place..place + length]);
        let given = reading(set(number), c1, c2, s, results);
        let answer = answer(&given);
        let bits = over_sevens(given.unwrap_or_default(), 257);
        self.call(11, "reading", &[number, n, m, o, results], &format!("{answer} {}", number_sum(&bits)));
    }

    /// A partial transform of the numbers of a, or its inverse.
    pub fn partial(&mut self, is_inverse: bool, number: usize, split: Split, [n, places]: [usize; 2]) {
        let (command, name) = if is_inverse { (18, "partial_inverse") } else { (17, "partial_transform") };
        let make = if is_inverse { partial_inverse } else { partial_transform };
        let given = make(set(number), split, &self.numbers[A..A + n], places);
        let answer = answer(&given);
        let out = over_sevens(given.unwrap_or_default(), 4097);
        self.call(command, name, &[&[number], split.as_slice(), &[n, places]].concat(), &format!("{answer} {}", number_sum(&out)));
    }
}

pub fn script() -> Script {
    let mut run = Arithmetic::new();
    numbers::run(&mut run);
    middle::run(&mut run);
    transforms::run(&mut run);
    partial::run(&mut run);
    damage_arithmetic::run(&mut run);
    run.script
}
