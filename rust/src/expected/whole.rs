//! Key, sealing and reading in one call in run_scheme: each slice one short and one long, and each two of them wrong at once.

use super::cases::{change, changes, over_pattern, Call, Shown, SEAL_AND_READ, SETS, SHARE_A_KEY};
use super::report::{byte_sum, hex};
use super::store::{Command, Store, MESSAGE, SEALING, SEED};
use crate::draws::Refusal;
use crate::parameters::Set;
use crate::scheme::{decapsulate, decrypt, encapsulate, encrypt, exchange_key, key};

/// Public key, secret key, ciphertext, the sender's shared key where there is one, and what is read or shared.
type Made = [Vec<u8>; 5];

fn encryption(s: &Set, [seed, sealing, message]: [&[u8]; 3]) -> Result<Made, Refusal> {
    let (public, secret) = key(s, seed)?;
    let sealed = encrypt(s, &public, message, sealing)?;
    let read = decrypt(s, &secret, &sealed)?;
    Ok([public, secret, sealed, Vec::new(), read])
}

fn exchange(s: &Set, [seed, _, message]: [&[u8]; 3]) -> Result<Made, Refusal> {
    let (public, secret) = exchange_key(s, seed)?;
    let (sealed, sent) = encapsulate(s, &public, message)?;
    let received = decapsulate(s, &secret, &sealed)?;
    Ok([public, secret, sealed, sent, received])
}

/// The command of a call, and the length of each of its slices.
fn command(call: &Call) -> (Command, [usize; 8]) {
    let [public, secret, sealed, work, _] = SETS[call.number];
    if call.is_exchange {
        (Command::ShareAKey, call.changed([32, 32, public, secret, sealed, 32, 32, work]))
    } else {
        (Command::SealAndRead, call.changed([32, 32, 32, public, secret, sealed, 32, work]))
    }
}

impl Store {
    /// A call with the inputs that the store has.
    pub fn whole(&mut self, is_exchange: bool, number: usize, change: usize) {
        let call = Call { is_exchange, number, change, shown: Shown::Line };
        let (command, lengths) = command(&call);
        self.command(command, &[&[number, change], &lengths[..]].concat());
        let slices = if is_exchange { SHARE_A_KEY } else { SEAL_AND_READ };
        let make = if is_exchange { exchange } else { encryption };
        let made = call.checked(slices).and_then(|s| make(&s, [SEED, SEALING, MESSAGE].map(|from| self.part(from, 32))));
        let left = |i: usize, length, start| over_pattern(length, start, made.as_ref().ok().map(|made| &made[i][..]));
        let sums = [left(0, 26913, 1), left(1, 26945, 2), left(2, 8353, 3)].map(|bytes| byte_sum(&bytes).to_string()).join(" ");
        let outputs = format!("{sums} {} {}", hex(&left(3, 33, 4)), hex(&left(4, 33, 5)));
        self.print(&call.line("whole", slices, &made, &outputs));
    }
}

pub fn run(store: &mut Store) {
    store.fill_inputs(5);
    for is_exchange in [false, true] {
        for number in 0..14 {
            (0..changes(8)).rev().for_each(|i| store.whole(is_exchange, number, change(8, i)));
        }
    }
}
