//! Calls of the proved library with random sets, lengths one off, random and damaged keys, ciphertexts, seeds and numbers. Each answer, number and
//! place, and each output is compared with the Rust comparison's; outputs must be kept when a call is refused, and nothing around a lent slice may change.
//!
//! The words of the command are how many rounds to make and the generator's start.

mod bytes;
mod lent;
mod numbers;
mod partial;
mod random;
mod scheme;

use random::Random;

fn main() {
    let words: Vec<u64> = std::env::args().skip(1).map(|word| word.parse().expect("a number")).collect();
    let rounds = words.first().copied().unwrap_or(200);
    let mut random = Random::new(words.get(1).copied().unwrap_or(1));
    let mut refused = [0u64; 13];
    for _ in 0..rounds {
        for round in [scheme::round, numbers::round, partial::round, bytes::round] {
            for number in round(&mut random) {
                refused[number as usize] += 1;
            }
        }
    }
    println!("{} calls agree; accepted and refused by number: {refused:?}", refused.iter().sum::<u64>());
}
