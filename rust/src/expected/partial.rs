//! The partial transforms that run_arithmetic makes.

use super::arithmetic::{Arithmetic, Put, A};
use crate::parameters::set;
use crate::partial::Split;

/// Both calls, with slices of these lengths.
pub fn both(run: &mut Arithmetic, number: usize, split: Split, lengths: [usize; 2]) {
    run.partial(false, number, split, lengths);
    run.partial(true, number, split, lengths);
}

/// D1 rows of D2 numbers, of which one, all and about half are read or written.
fn rows(run: &mut Arithmetic, number: usize, d1: usize, d2: usize) {
    let mut counts = vec![1, d1.div_ceil(2), d1];
    counts.dedup();
    for m in counts {
        both(run, number, [d1, d2, m], [d1 * d2; 2]);
    }
}

/// Every way to split every size of a set.
fn every_split(run: &mut Arithmetic, number: usize) {
    for size in set(number).unwrap().sizes {
        for d1 in (1..=size).filter(|d1| size % d1 == 0) {
            rows(run, number, d1, size / d1);
        }
    }
}

/// Sets that are none, no rows and too many, products that are no size, among them those that a word of 64 bits takes for one, and lengths one off.
fn refused(run: &mut Arithmetic) {
    let whole = [512; 2];
    for number in [0, 13, usize::MAX] {
        both(run, number, [2, 256, 1], whole);
        both(run, number, [2, 256, 0], [0; 2]);
    }
    let top = 1 << 63;
    let rows = [[2, 256, 0], [2, 256, 3], [0, 512, 0], [0, 512, 1], [3, 7, 0], [3, 7, 4]];
    let sizes = [[2, 255, 1], [3, 256, 1], [512, 0, 1], [1 << 32, 1 << 32, 1], [top, 2, 1], [top + 256, 2, 2], [usize::MAX, usize::MAX, 1], [2, top + 256, 1]];
    for split in rows.into_iter().chain(sizes) {
        both(run, 1, split, whole);
        both(run, 1, split, [511; 2]);
    }
    for lengths in [[511, 512], [513, 512], [512, 511], [512, 513], [511, 513], [0, 0]] {
        both(run, 1, [2, 256, 1], lengths);
        both(run, 1, [4, 128, 4], lengths);
    }
}

/// Numbers of q or more at the first place, at one that is read, at one that is skipped and at the last; with them, other faults, which come first.
fn large_numbers(run: &mut Arithmetic) {
    let q = set(1).unwrap().q as u32;
    for (place, x) in [(0, q), (100, u32::MAX), (300, q), (511, q + 1)] {
        run.with(&[Put::Number(A + place, x)], |run| {
            both(run, 1, [2, 256, 1], [512; 2]);
            both(run, 1, [8, 64, 2], [512; 2]);
            both(run, 1, [2, 256, 1], [512, 511]);
            both(run, 1, [2, 255, 1], [512; 2]);
            both(run, 1, [2, 256, 3], [512; 2]);
        });
    }
}

/// The splits and the input of the known answers in vectors/partial.txt.
fn known(run: &mut Arithmetic) {
    let s = set(2).unwrap();
    for i in 0..768 {
        run.put(Put::Number(A + i as usize, ((31 * i * i + 7 * i + 5) % s.q) as u32));
    }
    for split in [[3, 256, 3], [3, 256, 1], [6, 128, 4], [256, 3, 100], [768, 1, 5], [1, 768, 1], [12, 64, 7]] {
        both(run, 2, split, [768; 2]);
    }
}

pub fn run(run: &mut Arithmetic) {
    for number in 1..13 {
        let s = set(number).unwrap();
        run.residues(A, 3329, 5, s.q);
        match number {
            1 | 12 => every_split(run, number),
            _ => s.sizes.into_iter().for_each(|size| both(run, number, [size / 256, 256, 1], [size; 2])),
        }
    }
    known(run);
    run.residues(A, 3329, 6, set(1).unwrap().q);
    refused(run);
    large_numbers(run);
}
