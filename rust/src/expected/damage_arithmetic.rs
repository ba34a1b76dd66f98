//! The random and damaged calls of run_arithmetic.

use super::arithmetic::{Arithmetic, Put, A, B, C1, C2, E, MESSAGE, R, S};
use super::damage::{Group, ROUNDS};
use super::numbers::Row;
use super::partial;
use super::report::changed;
use crate::parameters::set;

/// Seldom puts q, or up to two more, at one of so many places.
fn put_large(run: &mut Arithmetic, group: &Group, from: usize, length: usize, i: usize, q: u64) {
    let more = group.below(i, 24);
    if more < 3 {
        run.put(Put::Number(from + group.below(i + 100, length), q as u32 + more as u32));
    }
}

/// Residues, so many; seldom one of the first `lent` is q, or up to two more.
fn residues(run: &mut Arithmetic, group: &Group, from: usize, [length, lent]: [usize; 2], slice: usize, q: u64) {
    run.random_residues(from, length, group, slice, q);
    put_large(run, group, from, lent, slice + 20, q);
}

/// Seldom puts a number at or over a bound, or 0, at one of so many places.
fn put_around(run: &mut Arithmetic, group: &Group, from: usize, length: usize, i: usize, size: u32) {
    let size = size as i32;
    if let Some(&value) = [size, -size, size + 1, -size - 1, 0].get(group.below(i, 40)) {
        run.put(Put::Signed(from + group.below(i + 100, length), value));
    }
}

fn middle_products(run: &mut Arithmetic, group: &Group) {
    let number = group.set(0);
    let s = set(number).or(set(0)).unwrap();
    let size = s.sizes[2];
    let n = match group.below(1, 24) {
        kind if kind < 3 => 4095 + kind,
        _ => group.below(2, size),
    };
    let results = if group.one_in(3, 4) { 1 } else { group.below(4, size / 2) };
    let [m, work] = changed([(n + results).saturating_sub(1), size], group.change(5, 2));
    residues(run, group, A, [4097, 400], 1, s.q);
    residues(run, group, B, [6000, 400], 2, s.q);
    run.plain(number, [n, m, results]);
    run.transformed(number, [n, m, results], work);
}

fn key(run: &mut Arithmetic, group: &Group, row: &Row) {
    residues(run, group, A, [16385, row.a_numbers()], 1, row.s.q);
    residues(run, group, S, [3327, row.secret_numbers()], 2, row.s.q);
    run.random_signed(E, 10233, group, 3, row.s.eta, 0);
    put_around(run, group, E, row.key_numbers(), 30, row.s.eta);
    row.key(run, group.change(6, 4));
}

fn sealing(run: &mut Arithmetic, group: &Group, row: &Row) {
    put_large(run, group, B, row.key_numbers(), 35, row.s.q);
    run.random_signed(R, 8193, group, 4, 1 << row.s.b2, 1);
    run.random_signed(R, row.s.first_bound, group, 5, 1 << row.s.b1, 1);
    put_around(run, group, R, row.s.multipliers(), 31, 1 << row.s.b1);
    put_around(run, group, R, row.s.multipliers(), 32, 1 << row.s.b2);
    residues(run, group, MESSAGE, [257, row.s.d], 6, 2);
    row.sealing(run, group.change(7, 6));
}

fn reading(run: &mut Arithmetic, group: &Group, row: &Row) {
    put_large(run, group, C1, row.sealed_numbers(), 33, row.s.q);
    put_large(run, group, C2, row.s.d, 34, row.s.q);
    row.reading(run, group.change(8, 4));
}

/// Both partial transforms of a size of a set: now and then m is 0 or one more than D1, and D2 one more than fits.
fn partial_transforms(run: &mut Arithmetic, group: &Group) {
    let number = group.set(0);
    let s = set(number).or(set(1)).unwrap();
    let size = s.sizes[group.below(1, 3)];
    let splits: Vec<usize> = (1..=size).filter(|d1| size % d1 == 0).collect();
    let d1 = splits[group.below(2, splits.len())];
    let m = group.below(3, d1 + 2);
    let d2 = size / d1 + group.one_in(4, 8) as usize;
    residues(run, group, A, [3500, 400], 1, s.q);
    partial::both(run, number, [d1, d2, m], changed([size, size], group.change(5, 2)));
}

pub fn run(run: &mut Arithmetic) {
    for i in 0..ROUNDS {
        run.script.text(&format!("round {i}\n"));
        middle_products(run, &Group(8 * i + 2));
        partial_transforms(run, &Group(8 * i + 7));
        let group = Group(8 * i + 3);
        let row = Row::new(group.set(0));
        key(run, &group, &row);
        sealing(run, &group, &row);
        reading(run, &group, &row);
    }
}
