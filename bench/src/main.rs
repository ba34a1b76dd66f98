//! The proved functions beside the Rust comparison: microseconds of both and their ratio, each the least of several runs in turn.

mod proved;
mod scheme;
mod stack;

use comparison::arithmetic::Transform;
use comparison::parameters::set;
use comparison::sponge;
use std::hint::black_box;
use std::time::Instant;

/// Microseconds of one call, over `rounds` calls.
fn micros(rounds: u32, mut call: impl FnMut()) -> f64 {
    let start = Instant::now();
    for _ in 0..rounds {
        call();
    }
    start.elapsed().as_secs_f64() * 1e6 / rounds as f64
}

/// Prints the least time of both over eleven runs in turn, and their ratio.
fn compare(name: &str, rounds: u32, mut proved: impl FnMut(), mut rust: impl FnMut()) {
    let (mut one, mut other) = (f64::MAX, f64::MAX);
    for _ in 0..11 {
        one = one.min(micros(rounds, &mut proved));
        other = other.min(micros(rounds, &mut rust));
    }
    println!("{name:40} {one:10.1} {other:10.1} {:6.2}", one / other);
}

fn bytes() {
    let (long, key) = (vec![7u8; 65536], [9u8; 32]);
    let (mut out, mut other) = (vec![0u8; 65536], vec![0u8; 65536]);
    let shake = |input: &[u8], out: &mut [u8]| titanium::shake256(black_box(input), out).unwrap();
    let kmac = |input: &[u8], out: &mut [u8]| titanium::kmacxof256(&key, black_box(input), b"", out).unwrap();
    compare("SHAKE256 absorbing 64 KiB", 20, || shake(&long, &mut out[..32]), || sponge::shake256(black_box(&long), &mut other[..32]));
    compare("SHAKE256 squeezing 64 KiB", 20, || shake(&key, &mut out), || sponge::shake256(black_box(&key), &mut other));
    compare("KMACXOF256 absorbing 64 KiB", 20, || kmac(&long, &mut out[..32]), || sponge::kmacxof256(&key, black_box(&long), b"", &mut other[..32]));
    compare("KMACXOF256 squeezing 64 KiB", 20, || kmac(&key, &mut out), || sponge::kmacxof256(&key, black_box(&key), b"", &mut other));
    assert_eq!(out, other);
}

/// Some residues modulo q.
fn residues(q: u64, count: usize) -> Vec<u32> {
    let mut x: u64 = 1;
    (0..count)
        .map(|_| {
            x = (x * 1103515245 + 12345) % (1 << 31);
            (x % q) as u32
        })
        .collect()
}

fn transforms(number: usize) {
    let s = set(number).unwrap();
    for i in 1..4 {
        let size = s.sizes[i - 1];
        let (tables, inverse) = (proved::tables(number, i), proved::inverse_tables(number, i));
        let (forward, backward) = (Transform::new(&s, i - 1, false), Transform::new(&s, i - 1, true));
        let start = residues(s.q, size);
        let mut x = start.clone();
        let mut y = start.clone();
        let name = format!("set {number} transform of {size}");
        compare(&name, 50, || proved::send(number, i, &tables, black_box(&mut x)), || y = forward.forward(black_box(&y)));
        assert_eq!(x, y);
        let name = format!("set {number} inverse of {size}");
        compare(&name, 50, || proved::recover(number, i, &inverse, black_box(&mut x)), || y = backward.scaled(black_box(&y)));
        assert_eq!(x, y);
    }
}

fn products(number: usize) {
    let s = set(number).unwrap();
    let size = s.sizes[2];
    let results = size / 2;
    let (a, b) = (residues(s.q, size - results + 1), residues(s.q, size));
    let (mut out, mut other, mut work) = (vec![0; results], vec![0; results], vec![0; size]);
    let name = format!("set {number} middle product: transformed, plain");
    let mut transformed = || titanium::transformed_middle_product(number, &a, black_box(&b), &mut out, &mut work).unwrap();
    let mut plain = || titanium::middle_product(number, &a, black_box(&b), &mut other).unwrap();
    compare(&name, 2, &mut transformed, &mut plain);
    assert_eq!(out, other);
}

fn main() {
    scheme::table();
    println!("{:40} {:>10} {:>10} {:>6}", "", "proved", "Rust", "ratio");
    bytes();
    (1..13).for_each(transforms);
    println!("{:40} {:>10} {:>10} {:>6}", "", "one", "other", "ratio");
    (1..13).for_each(products);
}
