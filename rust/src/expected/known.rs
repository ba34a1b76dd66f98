//! What run_scheme reads and prints first: the known answers of an independent model (rust/vectors/titanium.txt), as that file has them.

use super::cases::{Call, Shown, SETS};
use super::store::{Command, Store, MESSAGE, OPENED, PUBLIC, SEALED, SEALING, SECRET};
use crate::parameters;
use crate::scheme::sealed_numbers;
use crate::sheet::sheet;
use std::collections::HashMap;

/// What is printed of a set: the message that is read, the keys and the ciphertext, or the shared keys.
const NAMES: [&str; 10] = [
    "secret_key",
    "public_key_shake256",
    "public_key_first_48",
    "secret_key_shake256",
    "ciphertext_shake256",
    "ciphertext_last_16",
    "message",
    "shared_key",
    "reject_key_with_bit_0_of_byte_0_flipped",
    "c2_before_packing_first_8",
];

pub type Values = HashMap<&'static str, &'static str>;

/// The values of each set by their names.
pub fn sets() -> Vec<Values> {
    let lines = |set: &'static str| set.lines().filter(|line| !line.starts_with('#')).filter_map(|line| line.split_once(' ')).collect();
    include_str!("../../vectors/titanium.txt").split("\n\n").map(lines).filter(|set: &Values| set.contains_key("set")).collect()
}

pub fn bytes(hex: &str) -> Vec<u8> {
    (0..hex.len() / 2).map(|i| u8::from_str_radix(&hex[2 * i..2 * i + 2], 16).unwrap()).collect()
}

/// The number of a set, key seed, sealing seed (zeros in the key exchange, which makes its own) and message.
fn input(set: &Values) -> Vec<u8> {
    let zeros = "00".repeat(32);
    let seed = |name: &str| bytes(set.get(name).unwrap_or(&zeros.as_str()));
    [vec![set["set"].parse().unwrap()], seed("key_seed"), seed("sealing_seed"), seed("message")].concat()
}

/// Ends the line of a name with what the store has of it.
fn value(store: &mut Store, call: Call, name: &str) {
    let [public, secret, sealed, work, _] = SETS[call.number];
    match name {
        "secret_key" => store.hex(SECRET, secret),
        "public_key_shake256" => store.digest(PUBLIC, public),
        "public_key_first_48" => store.hex(PUBLIC, 48),
        "secret_key_shake256" => store.digest(SECRET, secret),
        "ciphertext_shake256" => store.digest(SEALED, sealed),
        "ciphertext_last_16" => store.hex(SEALED + sealed - 16, 16),
        "reject_key_with_bit_0_of_byte_0_flipped" => {
            store.flip(SEALED, 1);
            store.open(call);
            store.hex(OPENED, 32)
        }
        "c2_before_packing_first_8" => {
            let s = parameters::set(call.number).unwrap();
            let (_, c2) = sealed_numbers(&s, store.part(PUBLIC, public), store.part(MESSAGE, 32), store.part(SEALING, 32)).unwrap();
            store.command(Command::Unpacked, &[call.number, public, work]);
            store.print(&c2[..8].iter().map(|x| format!(" {x}")).collect::<String>());
            store.print("\n")
        }
        _ => store.hex(OPENED, 32),
    }
}

/// The calls of a set, and each line that the file has of them; a key exchange gives no message and no sheet.
fn case(store: &mut Store, set: &Values) {
    let is_exchange = set.contains_key("shared_key");
    let call = Call { is_exchange, number: set["set"].parse().unwrap(), change: 0, shown: Shown::Nothing };
    store.put(0, &input(set));
    store.key(call);
    store.seal(call);
    store.open(call);
    store.text(&format!("set {}\n", set["set"]));
    for name in NAMES.into_iter().filter(|name| set.contains_key(name) && !(is_exchange && *name == "message")) {
        store.text(name);
        value(store, call, name);
        assert!(store.has_printed(&format!("{name} {}\n", set[name])));
    }
    if let Some(largest) = set.get("noise_largest_size") {
        let text = sheet(&input(set));
        let first = text.lines().nth(1).and_then(|row| row.split(' ').nth(1)).unwrap();
        assert_eq!(first.trim_start_matches('-'), *largest);
        store.sheet(97);
    }
}

pub fn run(store: &mut Store) {
    sets().iter().for_each(|set| case(store, set));
}
