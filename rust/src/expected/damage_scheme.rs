//! The rounds of random calls in run_scheme: calls of both schemes, each on what the call before made, which is often damaged, then all steps in one call,
//! and the noise sheet. A length is wrong now and then.

use super::cases::{Call, Shown, SETS};
use super::damage::{Group, ROUNDS};
use super::report::changed;
use super::store::{Store, PUBLIC, SEALED, SECRET, SEED};

/// Puts the lowest 24 bits of a number at a place of a part of the store, as many of the three bytes as there are.
fn put_number(store: &mut Store, [from, length]: [usize; 2], place: usize, value: usize) {
    store.put(from + place, &value.to_le_bytes()[..3.min(length - place)]);
}

/// Damages a part of the store, whose first number stands at the place `first`, by kind: all of it, a number, three bytes, one bit, or nothing.
fn damage(store: &mut Store, group: &Group, [from, length]: [usize; 2], first: usize, q: usize) {
    let (place, bit) = (group.below(110, length), group.below(210, 8));
    match group.below(10, 20) {
        0 => store.fill_random(from, length, group, 10),
        1 => put_number(store, [from, length], first, q - 1),
        2 | 3 => put_number(store, [from, length], first, q),
        4 | 5 => put_number(store, [from, length], place, 0xffffff),
        6..=9 => store.flip(from + place, 1 << bit),
        _ => (),
    }
}

/// Key, sealing and opening in one scheme, then all steps in one call.
fn scheme_calls(store: &mut Store, group: &Group, is_exchange: bool) {
    let any = group.set(0);
    let number = if group.one_in(1, 4) { any } else { any % 6 + if is_exchange { 7 } else { 1 } };
    let [public, secret, sealed, _, q] = SETS[number];
    let call = |change| Call { is_exchange, number, change, shown: Shown::Line };
    let damaged = group.below(7, 4);
    store.fill_random(SEED, 97, group, 1);
    store.key(call(group.change(2, 4)));
    if damaged == 0 {
        damage(store, group, [PUBLIC, public], 32, q);
    }
    store.seal(call(group.change(3, 5)));
    match damaged {
        0 => (),
        1 => damage(store, group, [SECRET, secret], 64, q),
        _ => damage(store, group, [SEALED, sealed], 0, q),
    }
    store.open(call(group.change(6, 4)));
    store.whole(is_exchange, number, group.change(5, 8));
}

/// Byte `place` of an input of set 0, within its range: a and s, then e, then r, then the message.
fn bench_byte(place: usize, x: u8) -> u8 {
    match place {
        0..=6 => x % 17,
        7..=9 => [0, 1, 255][x as usize % 3],
        10..=11 => [1, 255, 2, 254, 1][x as usize % 5],
        _ => x % 2,
    }
}

/// The sheet of an input, then with the length of a slice changed. In one case of four any byte, which may be that of the set, is another.
fn sheet_calls(store: &mut Store, group: &Group) {
    let number = group.below(0, 8);
    let right = if number == 0 { 14 } else { 97 };
    if number == 0 {
        let input: Vec<u8> = group.bytes(1, right + 1).iter().enumerate().map(|(place, &x)| bench_byte(place, x)).collect();
        store.put(0, &input);
    } else {
        store.fill_random(0, right + 1, group, 1);
    }
    store.put(0, &[number as u8]);
    if group.one_in(1, 4) {
        store.put(group.below(2, right), &[group.below(3, 256) as u8]);
    }
    let [text, work, length] = changed([1024, 22521, right], group.change(4, 3));
    store.sheet(length);
    store.lent(length, [text, work]);
}

pub fn run(store: &mut Store) {
    for i in 0..ROUNDS {
        store.text(&format!("round {i}\n"));
        scheme_calls(store, &Group(8 * i + 4), false);
        scheme_calls(store, &Group(8 * i + 5), true);
        sheet_calls(store, &Group(8 * i + 6));
    }
}
