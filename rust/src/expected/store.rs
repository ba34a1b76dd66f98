//! The store of run_scheme: the script fills it, and the calls read it and write into it. Here it is held as the comparison leaves it, so that one walk over
//! the cases writes each command beside what it prints.

use super::damage::Group;
use super::report::{hex, pattern};
use super::script::Script;
use crate::sponge::shake256;

/// Where the key seed, the sealing seed, the message, the public key, the secret key, the ciphertext and what an opening gave begin. The number of a set
/// may stand before the key seed, so that the inputs of a sheet begin at 0.
pub const SEED: usize = 1;
pub const SEALING: usize = 33;
pub const MESSAGE: usize = 65;
pub const PUBLIC: usize = 98;
pub const SECRET: usize = 27011;
pub const SEALED: usize = 53956;
pub const OPENED: usize = 62309;

/// Room for bytes to be printed or repeated, and the end.
const SPARE: usize = 62342;
const END: usize = 62406;

/// The commands, by the numbers that run_scheme knows them by.
#[derive(Clone, Copy)]
pub enum Command {
    Put,
    Pattern,
    Random,
    Repeat,
    Flip,
    Text,
    Hex,
    Digest,
    EncryptionKey,
    ExchangeKey,
    Encrypt,
    Encapsulate,
    Decrypt,
    Decapsulate,
    SealAndRead,
    ShareAKey,
    Read,
    Unpacked,
    Sheet,
    Bound,
    MadeSheet,
}

pub struct Store {
    script: Script,
    bytes: Vec<u8>,
}

impl Store {
    pub fn new() -> Self {
        Store { script: Script::default(), bytes: vec![0; END] }
    }

    /// The script, and what the program prints as it runs it.
    pub fn script(self) -> Script {
        self.script
    }

    pub fn command(&mut self, command: Command, operands: &[usize]) {
        self.script.command(&[&[command as usize], operands].concat());
    }

    pub fn print(&mut self, text: &str) {
        self.script.print(text);
    }

    /// Whether what was printed last is this.
    pub fn has_printed(&self, text: &str) -> bool {
        self.script.text.ends_with(text)
    }

    pub fn part(&self, from: usize, length: usize) -> &[u8] {
        &self.bytes[from..from + length]
    }

    /// What a call leaves in the store.
    pub fn leave(&mut self, from: usize, bytes: &[u8]) {
        self.bytes[from..from + bytes.len()].copy_from_slice(bytes);
    }

    /// Puts bytes, 13 with each command.
    pub fn put(&mut self, from: usize, bytes: &[u8]) {
        for (i, bytes) in bytes.chunks(13).enumerate() {
            let numbers: Vec<usize> = bytes.iter().map(|&byte| byte as usize).collect();
            self.command(Command::Put, &[&[from + 13 * i, bytes.len()], &numbers[..]].concat());
        }
        self.leave(from, bytes);
    }

    pub fn fill_pattern(&mut self, from: usize, length: usize, start: usize) {
        self.command(Command::Pattern, &[from, length, start]);
        self.leave(from, &pattern(length, start));
    }

    /// Fills key seed, sealing seed and message.
    pub fn fill_inputs(&mut self, start: usize) {
        self.fill_pattern(SEED, 32, start);
        self.fill_pattern(SEALING, 32, start + 1);
        self.fill_pattern(MESSAGE, 32, start + 2);
    }

    pub fn fill_random(&mut self, from: usize, length: usize, group: &Group, slice: usize) {
        self.command(Command::Random, &[from, length, group.0, slice]);
        self.leave(from, &group.bytes(slice, length));
    }

    /// Fills a part with bytes, again and again.
    pub fn repeat(&mut self, from: usize, length: usize, bytes: &[u8]) {
        self.put(SPARE, bytes);
        self.command(Command::Repeat, &[from, length, SPARE, bytes.len()]);
        self.leave(from, &bytes.iter().cycle().take(length).copied().collect::<Vec<u8>>());
    }

    /// Changes the bits of a byte that `bits` has.
    pub fn flip(&mut self, place: usize, bits: u8) {
        self.command(Command::Flip, &[place, bits as usize]);
        self.bytes[place] ^= bits;
    }

    pub fn text(&mut self, text: &str) {
        self.put(SPARE, text.as_bytes());
        self.command(Command::Text, &[SPARE, text.len()]);
        self.print(text);
    }

    /// Ends a line with bytes.
    pub fn hex(&mut self, from: usize, length: usize) {
        self.command(Command::Hex, &[from, length]);
        self.print(&format!(" {}\n", hex(self.part(from, length))));
    }

    /// Ends a line with 32 bytes of SHAKE256 of bytes.
    pub fn digest(&mut self, from: usize, length: usize) {
        let mut out = [0; 32];
        shake256(self.part(from, length), &mut out);
        self.command(Command::Digest, &[from, length]);
        self.print(&format!(" {}\n", hex(&out)));
    }
}
