//! The calls of SHAKE256 and KMAC that run_bytes makes.

use super::bytes::{Bytes, LIMIT};

fn shake(run: &mut Bytes, input: usize, output: usize) {
    run.out_pattern(2);
    run.shake([input, output]);
}

fn fixed(run: &mut Bytes, lengths: [usize; 4]) {
    run.out_pattern(4);
    run.kmac(true, lengths);
}

fn extendable(run: &mut Bytes, lengths: [usize; 4]) {
    run.out_pattern(5);
    run.kmac(false, lengths);
}

/// The examples of FIPS 202 for SHAKE256 and the samples of SP 800-185: key at 0, input at 100, customization at 300.
fn samples(run: &mut Bytes) {
    for (length, byte) in [(0, 0), (200, 0xa3)] {
        run.constant(0, length, byte);
        run.script.text("sample");
        run.shake_sample(length, 512);
        run.script.text("\n");
    }
    run.put(0, &(0x40..0x60).collect::<Vec<u8>>());
    run.put(100, &(0..200).collect::<Vec<u8>>());
    run.put(300, b"My Tagged Application");
    for (input, customization) in [(4, 0), (4, 21), (200, 0), (200, 21)] {
        run.script.text("sample");
        run.kmac_sample(true, [0, 100, 300], [32, input, customization, 64]);
        run.kmac_sample(false, [0, 100, 300], [32, input, customization, 64]);
        run.script.text("\n");
    }
}

fn around(run: &mut Bytes, edge: usize) {
    for n in edge..edge + 9 {
        shake(run, n, 32);
        shake(run, 5, n);
        fixed(run, [n, 4, 0, 32]);
        fixed(run, [32, n, 3, 32]);
        extendable(run, [32, 4, n, 32]);
        extendable(run, [32, 4, 0, n]);
    }
}

/// One slice of each function with a length, the others of one byte.
fn one_slice(run: &mut Bytes, slice: usize, n: usize) {
    let mut lengths = [1; 4];
    lengths[slice] = n;
    fixed(run, lengths);
    extendable(run, lengths);
    if slice < 2 {
        shake(run, lengths[0], lengths[1]);
    }
}

/// Each slice around the limit, then all of them at it.
fn limits(run: &mut Bytes) {
    for n in LIMIT - 1..=LIMIT + 1 {
        for slice in 0..4 {
            one_slice(run, slice, n);
        }
    }
    shake(run, LIMIT, LIMIT);
    fixed(run, [LIMIT; 4]);
}

pub fn run(run: &mut Bytes) {
    samples(run);
    run.pattern(0, LIMIT + 1, 1);
    for edge in [0, 132, 268] {
        around(run, edge);
    }
    limits(run);
}
