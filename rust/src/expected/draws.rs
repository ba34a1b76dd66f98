//! The draws over lent bytes that run_bytes makes.

use super::bytes::Bytes;
use crate::parameters::set;

const LENT: usize = 15300;

/// Set, and then bytes lent, results wanted, the first candidate that is set aside and how many are.
fn residues(run: &mut Bytes, number: usize, case: [usize; 4]) {
    run.pattern(0, LENT, 1);
    run.set_aside(0, case[2], case[3]);
    run.residues(number, case);
}

fn errors(run: &mut Bytes, number: usize, lent: usize, wanted: usize) {
    run.pattern(0, LENT, 2);
    run.errors([number, lent, wanted]);
}

fn multipliers(run: &mut Bytes, number: usize, (lent, first, wanted): (usize, usize, usize)) {
    run.pattern(0, LENT, 3);
    run.multipliers([number, lent, first, wanted]);
}

fn every_set(run: &mut Bytes) {
    for number in 0..14 {
        residues(run, number, [300, 50, 20, 3]);
        errors(run, number, 300, 50);
        multipliers(run, number, (LENT, 100, 50));
    }
}

fn runs(run: &mut Bytes, number: usize) {
    for case in [[411, 10, 3, 127], [414, 10, 3, 128], [384, 1, 0, 127], [384, 1, 0, 128], [383, 1, 0, 128], [381, 1, 0, 127]] {
        residues(run, number, case);
    }
}

fn all_residues(run: &mut Bytes) {
    for case in [[12288, 4096, 0, 0], [12287, 4096, 0, 0], [12291, 4097, 0, 0], [0, 0, 0, 0], [32, 11, 0, 0]] {
        residues(run, 1, case);
    }
    for number in [1, 5, 12] {
        runs(run, number);
    }
}

fn positions(run: &mut Bytes, number: usize) {
    let s = set(number).unwrap();
    let (count, signs) = (s.multipliers(), s.multipliers() * s.multiplier_bytes());
    let all = signs + count / 8;
    let whole = [(all, count - 1, 1), (all, count - 1, 2), (all, count, 0), (all, count / 2, 40)];
    let cut_short = [(signs + 1, 0, 10), (signs, 0, 10), (signs / 2, 3, 4), (5, count, 0)];
    let past_last = [(all, count, 1), (all, count + 1, 0), (all, count + 1, 1), (all, usize::MAX, 0), (all, usize::MAX, 1)];
    for &case in whole.iter().chain(&cut_short).chain(&past_last) {
        multipliers(run, number, case);
    }
}

fn all_signed(run: &mut Bytes) {
    for (lent, wanted) in [(4096, 4096), (4095, 4096), (4097, 4097), (0, 0)] {
        errors(run, 1, lent, wanted);
    }
    for number in 1..13 {
        positions(run, number);
    }
    for case in [(9216, 4096, 4096), (9215, 4096, 4096), (9216, 0, 4097), (9216, usize::MAX, 2)] {
        multipliers(run, 12, case);
    }
}

/// Counts of results one below the limit.
fn one_under(run: &mut Bytes) {
    residues(run, 1, [12285, 4095, 0, 0]);
    errors(run, 1, 4095, 4095);
    multipliers(run, 12, (9216, 4096, 4095));
}

pub fn run(run: &mut Bytes) {
    every_set(run);
    all_residues(run);
    all_signed(run);
    one_under(run);
}
