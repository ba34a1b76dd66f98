//! The ties of the rounding, 2w = h and 2w = 3h, in run_scheme: ciphertexts made with the secret, so that one place is read from a tie.

use super::cases::{Call, Shown, SETS};
use super::report::pattern;
use super::store::{Command, Store, OPENED, SEALED, SECRET};
use crate::packing::pack;
use crate::parameters::{set, Set};
use crate::scheme::{ciphertext_numbers, decrypt, read_numbers, secret_numbers};

/// Where the pattern of the secret's seed begins.
const SEED: usize = 5;

/// x to the power e modulo q.
fn power(q: u64, x: u64, e: u64) -> u64 {
    (0..64).rev().fold(1, |y, bit| y * y % q * if e >> bit & 1 == 1 { x } else { 1 } % q)
}

/// The number x for which c1' = (x, 0, 0, ..) and c2 = 0 leave w = -x * s_j at the first place j where the secret is not 0, and that place.
fn made(s: &Set, w: u64) -> (u32, usize) {
    let secret = secret_numbers(s, &pattern(32, SEED)).unwrap();
    let place = secret.iter().position(|&x| x > 0).unwrap();
    let inverse = power(s.q, secret[place] as u64, s.q - 2);
    (((s.q - w) * inverse % s.q) as u32, place)
}

/// The sets, each with both ties.
fn cases() -> impl Iterator<Item = (Set, u64)> {
    (1..13).map(|number| set(number).unwrap()).flat_map(|s| [1, 3].map(|times| (s, times * s.half() / 2)))
}

/// Makes the ciphertext and reads it. The transform of (x, 0, 0, ..) is x at every place: eight packed numbers fill as many bytes as a number has bits, and
/// the others repeat them. Decapsulation does not show what it reads, so in the key exchange the step that reads is called.
fn tie(store: &mut Store, s: &Set, w: u64) {
    let (x, place) = made(s, w);
    let [_, _, bytes, work, _] = SETS[s.number];
    let end = if s.is_exchange() { bytes - 32 } else { bytes };
    store.fill_pattern(SECRET, 32, SEED);
    store.repeat(SEALED, end - s.d, &pack(&[x; 8], s.width()));
    store.repeat(SEALED + end - s.d, s.d, &[0]);
    let (c1, c2) = ciphertext_numbers(s, store.part(SEALED, end));
    assert_eq!(read_numbers(s, store.part(SECRET, 32), &c1, &c2).unwrap()[place] as u64, w);
    store.text(&format!("tie {}", s.number));
    if s.is_exchange() {
        let message = decrypt(s, store.part(SECRET, 32), store.part(SEALED, end)).unwrap();
        store.command(Command::Read, &[s.number, end, work]);
        store.print(" done");
        store.leave(OPENED, &message);
    } else {
        store.open(Call { is_exchange: false, number: s.number, change: 0, shown: Shown::Answer });
    }
    store.hex(OPENED, 32);
}

pub fn run(store: &mut Store) {
    cases().for_each(|(s, w)| tie(store, &s, w));
}
