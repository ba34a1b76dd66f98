//! The random and damaged calls of run_bytes.

use super::bytes::{Bytes, LIMIT};
use super::damage::{Group, ROUNDS};
use crate::parameters::set;

fn hashes(run: &mut Bytes, group: &Group) {
    let length = |i| match group.below(i, 20) {
        kind if kind < 2 => LIMIT + kind,
        _ => group.below(i + 100, 600),
    };
    run.out_constant(7);
    run.shake([0, 1].map(length));
    run.kmac(true, [2, 3, 4, 5].map(length));
    run.kmac(false, [6, 7, 8, 9].map(length));
}

fn draws(run: &mut Bytes, group: &Group) {
    let wanted = |i| match group.below(i, 24) {
        kind if kind < 3 => 4095 + kind,
        _ => group.below(i + 100, 200),
    };
    let lent = |i, enough, more| match group.one_in(i, 4) {
        true => group.below(i + 100, 2 * enough + 1),
        false => enough + group.below(i + 100, more),
    };
    let (first, aside, count) = (group.below(0, 20), group.below(1, 8), wanted(2));
    let aside = if aside < 4 { 126 + aside } else { 0 };
    run.set_aside(0, first, aside);
    run.residues(group.set(4), [lent(3, 3 * count, 1200), count, first, aside]);
    let (count, number) = (wanted(5), group.set(8));
    let s = set(number.clamp(1, 12)).unwrap();
    let enough = s.multipliers() * s.multiplier_bytes() + s.multipliers() / 8;
    let multipliers = [number, lent(9, enough, 500), group.below(10, s.multipliers()), wanted(11)];
    run.errors_and_multipliers([group.set(7), lent(6, count, 2), count], multipliers);
}

pub fn run(run: &mut Bytes) {
    for i in 0..ROUNDS {
        run.script.text(&format!("round {i}\n"));
        run.random(&Group(8 * i), 1);
        hashes(run, &Group(8 * i));
        draws(run, &Group(8 * i + 1));
    }
}
