//! The open calls of the encryption scheme and of the key exchange, for every set: the proved library beside the Rust comparison.

use crate::stack::stack_bytes;
use comparison::parameters::{set, Set};
use comparison::scheme;
use std::hint::black_box;
use std::time::Instant;
use titanium::{ciphertext_bytes, public_key_bytes, secret_key_bytes, work_numbers};

/// Microseconds of one call.
fn micros(call: &mut dyn FnMut()) -> f64 {
    let start = Instant::now();
    for _ in 0..3 {
        call();
    }
    start.elapsed().as_secs_f64() * 1e6 / 3.0
}

/// Prints the least time of both over nine runs in turn, their ratio, and what the proved call takes of stack and work slice.
fn compare(name: &str, number: usize, proved: &mut dyn FnMut(), rust: &mut dyn FnMut()) {
    let (mut one, mut other) = (f64::MAX, f64::MAX);
    for _ in 0..9 {
        one = one.min(micros(proved));
        other = other.min(micros(rust));
    }
    let (stack, work) = (stack_bytes(proved), 4 * work_numbers(number));
    println!("set {number:2} {name:12} {one:9.0} {other:9.0} {:6.2} {stack:8} {work:8}", one / other);
}

/// What a set's calls are lent.
struct Slices {
    public: Vec<u8>,
    secret: Vec<u8>,
    sealed: Vec<u8>,
    given: Vec<u8>,
    work: Vec<u32>,
}

fn slices(number: usize) -> (Set, Slices) {
    let lent = Slices {
        public: vec![0; public_key_bytes(number)],
        secret: vec![0; secret_key_bytes(number)],
        sealed: vec![0; ciphertext_bytes(number)],
        given: vec![0; 32],
        work: vec![0; work_numbers(number)],
    };
    (set(number).unwrap(), lent)
}

const SEEDS: [[u8; 32]; 3] = [[1; 32], [2; 32], [3; 32]];

fn encryption(number: usize) {
    let (s, mut l) = slices(number);
    let [seed, sealing, message] = SEEDS;
    let (public, secret) = scheme::key(&s, &seed).unwrap();
    let sealed = scheme::encrypt(&s, &public, &message, &sealing).unwrap();
    let mut key = || titanium::encryption_keypair(number, black_box(&seed), &mut l.public, &mut l.secret, &mut l.work).unwrap();
    compare("key", number, &mut key, &mut || drop(black_box(scheme::key(&s, black_box(&seed)))));
    let mut encrypt = || titanium::encrypt(number, black_box(&public), &message, &sealing, &mut l.sealed, &mut l.work).unwrap();
    compare("encrypt", number, &mut encrypt, &mut || drop(black_box(scheme::encrypt(&s, black_box(&public), &message, &sealing))));
    let mut decrypt = || titanium::decrypt(number, &secret, black_box(&sealed), &mut l.given, &mut l.work).unwrap();
    compare("decrypt", number, &mut decrypt, &mut || drop(black_box(scheme::decrypt(&s, &secret, black_box(&sealed)))));
    assert_eq!((l.public, l.secret, l.sealed, l.given), (public, secret, sealed, message.to_vec()));
}

fn exchange(number: usize) {
    let (s, mut l) = slices(number);
    let [seed, message, _] = SEEDS;
    let (public, secret) = scheme::exchange_key(&s, &seed).unwrap();
    let (sealed, shared) = scheme::encapsulate(&s, &public, &message).unwrap();
    let mut key = || titanium::keypair(number, black_box(&seed), &mut l.public, &mut l.secret, &mut l.work).unwrap();
    compare("key", number, &mut key, &mut || drop(black_box(scheme::exchange_key(&s, black_box(&seed)))));
    let mut encapsulate = || titanium::encapsulate(number, black_box(&public), &message, &mut l.sealed, &mut l.given, &mut l.work).unwrap();
    compare("encapsulate", number, &mut encapsulate, &mut || drop(black_box(scheme::encapsulate(&s, black_box(&public), &message))));
    assert_eq!(l.given, shared);
    let mut decapsulate = || titanium::decapsulate(number, &secret, black_box(&sealed), &mut l.given, &mut l.work).unwrap();
    compare("decapsulate", number, &mut decapsulate, &mut || drop(black_box(scheme::decapsulate(&s, &secret, black_box(&sealed)))));
    assert_eq!((l.public, l.secret, l.sealed, l.given), (public, secret, sealed, shared));
}

pub fn table() {
    println!("{:19} {:>9} {:>9} {:>6} {:>8} {:>8}", "", "proved", "Rust", "ratio", "stack", "work");
    (1..7).for_each(encryption);
    (7..13).for_each(exchange);
}
