//! The calls of the encryption scheme and of the key exchange in run_scheme.

use super::report::{answer, byte_sum, changed, hex, number_sum, pattern};
use super::store::{Command, Store, MESSAGE, OPENED, PUBLIC, SEALED, SEALING, SECRET, SEED};
use crate::draws::{refusal, Refusal};
use crate::parameters::{set, Set};
use crate::scheme::{decapsulate, decrypt, encapsulate, encrypt, exchange_key, key};

/// Bytes of a public key, of a secret key and of a ciphertext, numbers of the work slice, modulus; by sets, the first and the last of which are none.
pub const SETS: [[usize; 5]; 14] = [
    [11552, 32, 2560, 12022, 17],
    [11552, 32, 2560, 12022, 240641],
    [13088, 32, 2976, 14328, 84481],
    [14720, 32, 3520, 16375, 86017],
    [16448, 32, 4512, 16631, 301057],
    [17952, 32, 6016, 17913, 737281],
    [23552, 32, 8320, 22521, 1198081],
    [12192, 12224, 2720, 12022, 471041],
    [14720, 14752, 3008, 15831, 115201],
    [16352, 16384, 3552, 17910, 118273],
    [18272, 18304, 4544, 18166, 430081],
    [20512, 20544, 6048, 19960, 783361],
    [26912, 26944, 8352, 25080, 1198081],
    [26912, 26944, 8352, 25080, 1198081],
];

/// What the wrong length of each slice of a call is refused with: 9 is for a ciphertext, 10 for a work slice, 2 for any other.
pub const KEY: &[u8] = &[2, 2, 2, 10];
pub const ENCRYPT: &[u8] = &[2, 2, 2, 9, 10];
pub const ENCAPSULATE: &[u8] = &[2, 2, 9, 2, 10];
pub const OPEN: &[u8] = &[2, 9, 2, 10];
pub const SEAL_AND_READ: &[u8] = &[2, 2, 2, 2, 2, 9, 2, 10];
pub const SHARE_A_KEY: &[u8] = &[2, 2, 2, 2, 9, 2, 2, 10];

/// Change number i of a call with so many slices: none, then each slice one longer and one shorter, then each two, the later one shorter.
pub fn change(slices: usize, i: usize) -> usize {
    let two = |late: usize| (0..late).map(move |early| 100 * (2 * late + 2) + 2 * early + 1);
    (0..2 * slices + 1).chain((1..slices).flat_map(two)).nth(i).unwrap()
}

/// How many changes such a call has.
pub fn changes(slices: usize) -> usize {
    2 * slices + 1 + slices * (slices - 1) / 2
}

/// The slice that a change is about; 20 and more make a slice empty.
fn changed_slice(change: usize) -> Option<usize> {
    match change {
        0 => None,
        20.. => Some(change - 20),
        _ => Some((change - 1) / 2),
    }
}

/// What is printed of a call.
#[derive(Clone, Copy)]
pub enum Shown {
    Nothing,
    Line,
    Answer,
}

/// A call of one of the two schemes: its set, which lengths are changed, and what is printed of it.
#[derive(Clone, Copy)]
pub struct Call {
    pub is_exchange: bool,
    pub number: usize,
    pub change: usize,
    pub shown: Shown,
}

impl Call {
    /// The checks: the set, which must be one of the scheme's own, then whether a length was changed; of two changes the one that is looked at first has the
    /// lower number.
    pub fn checked(&self, slices: &[u8]) -> Result<Set, Refusal> {
        let wrong = [self.change % 100, self.change / 100].into_iter().filter_map(changed_slice).map(|slice| slices[slice]).min();
        match (set(self.number), wrong) {
            (None, _) => refusal(1, 0),
            (Some(s), _) if s.number == 0 => refusal(1, 0),
            (Some(s), _) if s.is_exchange() != self.is_exchange => refusal(8, 0),
            (Some(_), Some(wrong)) => refusal(wrong, 0),
            (Some(s), None) => Ok(s),
        }
    }

    /// The lengths of the slices with up to two of them changed.
    pub fn changed<const N: usize>(&self, lengths: [usize; N]) -> [usize; N] {
        changed(changed(lengths, self.change % 100), self.change / 100)
    }

    /// A line: the call, its answer, what is printed of its outputs, and the checksum of the work slice, which is cleared where the checks passed.
    pub fn line<T>(&self, name: &str, slices: &[u8], given: &Result<T, Refusal>, outputs: &str) -> String {
        let mut work = vec![7; 25081];
        if self.checked(slices).is_ok() {
            work[..SETS[self.number][3]].fill(0);
        }
        format!("{name} {} {} {} {outputs} {}\n", self.number, self.change, answer(given), number_sum(&work))
    }
}

/// A pattern with what a call made in front of it.
pub fn over_pattern(length: usize, start: usize, made: Option<&[u8]>) -> Vec<u8> {
    let mut slice = pattern(length, start);
    if let Some(made) = made {
        slice[..made.len()].copy_from_slice(made);
    }
    slice
}

impl Store {
    /// The command of a call, with the length of each slice.
    fn call(&mut self, command: Command, call: Call, lengths: &[usize]) {
        self.command(command, &[&[call.shown as usize, call.number, call.change], lengths].concat());
    }

    fn print_call<T>(&mut self, call: Call, name: &str, slices: &[u8], given: &Result<T, Refusal>, outputs: &str) {
        match call.shown {
            Shown::Nothing => (),
            Shown::Line => self.print(&call.line(name, slices, given, outputs)),
            Shown::Answer => self.print(&format!(" {}", answer(given))),
        }
    }

    pub fn key(&mut self, call: Call) {
        let [public, secret, _, work, _] = SETS[call.number];
        let command = if call.is_exchange { Command::ExchangeKey } else { Command::EncryptionKey };
        let make = if call.is_exchange { exchange_key } else { key };
        self.call(command, call, &call.changed([32, public, secret, work]));
        let made = call.checked(KEY).and_then(|s| make(&s, self.part(SEED, 32)));
        let public = over_pattern(26913, 1, made.as_ref().ok().map(|(public, _)| &public[..]));
        let secret = over_pattern(26945, 2, made.as_ref().ok().map(|(_, secret)| &secret[..]));
        self.leave(PUBLIC, &public);
        self.leave(SECRET, &secret);
        let shown = if call.is_exchange { byte_sum(&secret).to_string() } else { hex(&secret[..33]) };
        self.print_call(call, "key", KEY, &made, &format!("{} {shown}", byte_sum(&public)));
    }

    fn encrypt(&mut self, call: Call) {
        let [public, _, sealed, work, _] = SETS[call.number];
        self.call(Command::Encrypt, call, &call.changed([public, 32, 32, sealed, work]));
        let made = call.checked(ENCRYPT).and_then(|s| encrypt(&s, self.part(PUBLIC, public), self.part(MESSAGE, 32), self.part(SEALING, 32)));
        let sealed = over_pattern(8353, 3, made.as_ref().ok().map(|sealed| &sealed[..]));
        self.leave(SEALED, &sealed);
        self.print_call(call, "encrypt", ENCRYPT, &made, &byte_sum(&sealed[..8321]).to_string());
    }

    fn encapsulate(&mut self, call: Call) {
        let [public, _, sealed, work, _] = SETS[call.number];
        self.call(Command::Encapsulate, call, &call.changed([public, 32, sealed, 32, work]));
        let made = call.checked(ENCAPSULATE).and_then(|s| encapsulate(&s, self.part(PUBLIC, public), self.part(MESSAGE, 32)));
        let sealed = over_pattern(8353, 3, made.as_ref().ok().map(|(sealed, _)| &sealed[..]));
        let shared = over_pattern(33, 4, made.as_ref().ok().map(|(_, shared)| &shared[..]));
        self.leave(SEALED, &sealed);
        self.print_call(call, "encapsulate", ENCAPSULATE, &made, &format!("{} {}", byte_sum(&sealed), hex(&shared)));
    }

    pub fn seal(&mut self, call: Call) {
        if call.is_exchange {
            self.encapsulate(call)
        } else {
            self.encrypt(call)
        }
    }

    pub fn open(&mut self, call: Call) {
        let [_, secret, sealed, work, _] = SETS[call.number];
        let (command, name, start) = if call.is_exchange { (Command::Decapsulate, "decapsulate", 5) } else { (Command::Decrypt, "decrypt", 4) };
        self.call(command, call, &call.changed([secret, sealed, 32, work]));
        let open = if call.is_exchange { decapsulate } else { decrypt };
        let made = call.checked(OPEN).and_then(|s| open(&s, self.part(SECRET, secret), self.part(SEALED, sealed)));
        let opened = over_pattern(33, start, made.as_ref().ok().map(|read| &read[..]));
        self.leave(OPENED, &opened);
        self.print_call(call, name, OPEN, &made, &hex(&opened));
    }
}

/// Opens with a bit of one byte changed; in the key exchange the byte is changed back, in the encryption scheme the changes add up.
fn open_flipped(store: &mut Store, call: Call, place: usize) {
    store.flip(SEALED + place, 1);
    store.open(call);
    if call.is_exchange {
        store.flip(SEALED + place, 1);
    }
}

/// One set with one choice of inputs, in one of the two schemes. What reads a key or a ciphertext takes what the calls before it made.
fn case(store: &mut Store, is_exchange: bool, number: usize, start: usize) {
    let [_, _, end, _, q] = SETS[number];
    let second_part = end - if is_exchange { 232 } else { 200 };
    let modulus = [0, 8, 16].map(|bit| (q >> bit) as u8);
    let call = |change| Call { is_exchange, number, change, shown: Shown::Line };
    store.fill_inputs(start);
    (0..changes(4)).rev().for_each(|i| store.key(call(change(4, i))));
    (0..changes(5)).rev().for_each(|i| store.seal(call(change(5, i))));
    (0..changes(4)).rev().for_each(|i| store.open(call(change(4, i))));
    [end - 1, second_part, 0, end - 32].into_iter().for_each(|place| open_flipped(store, call(0), place));
    // A number that is no residue, first with a work slice one short.
    store.put(SEALED, &modulus);
    [8, 0].into_iter().for_each(|change| store.open(call(change)));
    store.put(SECRET + 64, &modulus);
    [8, 0].into_iter().for_each(|change| store.open(call(change)));
    store.put(PUBLIC + 32, &modulus);
    [10, 0].into_iter().for_each(|change| store.seal(call(change)));
}

pub fn run(store: &mut Store) {
    for is_exchange in [false, true] {
        for number in 0..14 {
            [5, 77].into_iter().for_each(|start| case(store, is_exchange, number, start));
        }
    }
}
