//! The middle product, plain and transformed, and key, sealing and reading on numbers.

use crate::lent::{same_answer, Lent};
use crate::random::Random;
use comparison::numbers as other;
use comparison::parameters::{set, Set};

/// A set of the calls on numbers; its records for lengths and moduli are those of a set that exists.
fn some_set(random: &mut Random) -> (usize, Option<Set>, Set) {
    let number = random.set();
    (number, set(number), set(number.min(12)).unwrap())
}

/// Seldom puts a number at or over a bound, or 0, at any place.
fn out_of_bounds(random: &mut Random, numbers: &mut [i32], size: i32) {
    if !numbers.is_empty() && random.one_in(4) {
        let place = random.below(numbers.len());
        numbers[place] = [size, size + 1, -size, -size - 1, 0, i32::MAX, i32::MIN][random.below(7)];
    }
}

fn key(random: &mut Random) -> u8 {
    let (number, found, p) = some_set(random);
    let count = p.t * (p.d + p.k);
    let [a, s, e, b] = [p.t * p.n, p.n + p.d + p.k - 1, count, count].map(|right| random.length(right));
    let (a, s, mut e) = (random.residues(p.q, a), random.residues(p.q, s), random.signed(p.eta as i32, e));
    out_of_bounds(random, &mut e, p.eta as i32);
    let mut out = Lent::new(b, 7);
    let given = titanium::key_of_numbers(number, &a, &s, &e, out.slice());
    let made = other::key(found, &a, &s, &e, b);
    out.expect(made.as_deref());
    same_answer(given, &made)
}

fn reading(random: &mut Random) -> u8 {
    let (number, found, p) = some_set(random);
    let [c1, c2, s, bits] = [p.n + p.k, p.d, p.n + p.d + p.k - 1, p.d].map(|right| random.length(right));
    let (c1, c2, s) = (random.residues(p.q, c1), random.residues(p.q, c2), random.residues(p.q, s));
    let mut out = Lent::new(bits, 7);
    let given = titanium::reading_of_numbers(number, &c1, &c2, &s, out.slice());
    let made = other::reading(found, &c1, &c2, &s, bits);
    out.expect(made.as_deref());
    same_answer(given, &made)
}

fn sealing(random: &mut Random) -> u8 {
    let (number, found, p) = some_set(random);
    let rights = [p.t * p.n, p.t * (p.d + p.k), p.t * (p.k + 1), p.d, p.n + p.k, p.d];
    let [a, b, r, m, c1, c2] = rights.map(|right| random.length(right));
    let (a, b) = (random.residues(p.q, a), random.residues(p.q, b));
    let mut r: Vec<i32> = random.signed(2, r).iter().map(|&z| if z == 0 { 1 } else { z }).collect();
    let bits = if random.one_in(2) { p.b1 } else { p.b2 };
    out_of_bounds(random, &mut r, 1 << bits);
    let message = random.residues(2, m);
    let (mut first, mut second) = (Lent::new(c1, 7), Lent::new(c2, 7));
    let given = titanium::sealing_of_numbers(number, &a, &b, &r, &message, first.slice(), second.slice());
    let made = other::sealing(found, &a, &b, &r, &message, [c1, c2]);
    first.expect(made.as_ref().map(|parts| parts.0.as_slice()));
    second.expect(made.as_ref().map(|parts| parts.1.as_slice()));
    same_answer(given, &made)
}

/// One of the calls on numbers; those of a whole set are slow in the comparison, so each round makes one.
pub fn round(random: &mut Random) -> Vec<u8> {
    match random.below(3) {
        0 => vec![key(random)],
        1 => vec![sealing(random)],
        _ => vec![reading(random)],
    }
}
