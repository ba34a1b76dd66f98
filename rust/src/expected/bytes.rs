//! What run_bytes does with its script: the commands, with the stores that they change and the lines that they print.

use super::damage::Group;
use super::report::{answer, byte_sum, hex, number_sum, pattern, signed_sum};
use super::script::Script;
use super::{damage_bytes, draws, known_draws, samplers, sponge};
use crate::draws::{errors, multipliers, refusal, residues, Refusal};
use crate::parameters::set;
use crate::sponge::{kmac256, kmacxof256, shake256};

/// The most bytes that a slice of a hash may have.
pub const LIMIT: usize = 65536;

pub struct Bytes {
    pub script: Script,
    pub bytes: Vec<u8>,
    out: Vec<u8>,
}

/// The answer of a sponge call whose slices have these lengths.
fn checked(lengths: &[usize]) -> Result<(), Refusal> {
    if lengths.iter().any(|&length| length > LIMIT) {
        return refusal(6, 0);
    }
    Ok(())
}

/// Writes the numbers drawn at the front of an output, where the draw is accepted.
fn put<T: Copy>(out: &mut [T], drawn: &Result<Vec<T>, Refusal>) {
    if let Ok(drawn) = drawn {
        out[..drawn.len()].copy_from_slice(drawn);
    }
}

impl Bytes {
    pub fn new() -> Self {
        Bytes { script: Script::default(), bytes: vec![0; LIMIT + 1], out: vec![0; LIMIT + 1] }
    }

    pub fn pattern(&mut self, place: usize, length: usize, start: usize) {
        self.script.command(&[1, place, length, start]);
        self.bytes[place..place + length].copy_from_slice(&pattern(length, start));
    }

    pub fn constant(&mut self, place: usize, length: usize, byte: u8) {
        self.script.command(&[2, place, length, byte as usize]);
        self.bytes[place..place + length].fill(byte);
    }

    pub fn put(&mut self, place: usize, bytes: &[u8]) {
        for (i, &byte) in bytes.iter().enumerate() {
            self.constant(place + i, 1, byte);
        }
    }

    /// Makes `count` candidates from number `first` on such that a draw sets them aside.
    pub fn set_aside(&mut self, place: usize, first: usize, count: usize) {
        if count > 0 {
            self.constant(place + 3 * first, 3 * count, 255);
        }
    }

    pub fn random(&mut self, group: &Group, slice: usize) {
        self.script.command(&[3, 0, LIMIT + 1, group.0, slice]);
        self.bytes = group.bytes(slice, LIMIT + 1);
    }

    pub fn out_pattern(&mut self, start: usize) {
        self.script.command(&[4, 0, LIMIT + 1, start]);
        self.out = pattern(LIMIT + 1, start);
    }

    pub fn out_constant(&mut self, byte: u8) {
        self.script.command(&[5, 0, LIMIT + 1, byte as usize]);
        self.out.fill(byte);
    }

    /// SHAKE256 of the first bytes, over the first of the output.
    pub fn shake(&mut self, [input, output]: [usize; 2]) {
        let checked = checked(&[input, output]);
        if checked.is_ok() {
            shake256(&self.bytes[..input], &mut self.out[..output]);
        }
        self.script.command(&[6, input, output]);
        self.script.line("shake256", &[input, output], &format!("{} {}", answer(&checked), byte_sum(&self.out)));
    }

    /// A published sample of SHAKE256.
    pub fn shake_sample(&mut self, input: usize, output: usize) {
        shake256(&self.bytes[..input], &mut self.out[..output]);
        self.script.command(&[6, input, output, 0, 0, 0, 0, 0, output]);
        self.script.print(&format!(" {}", hex(&self.out[..output])));
    }

    /// KMAC256 or KMACXOF256 of slices that begin at these places.
    fn write_kmac(&mut self, is_fixed: bool, places: [usize; 3], [key, input, customization, output]: [usize; 4]) {
        let function = if is_fixed { kmac256 } else { kmacxof256 };
        let part = |i: usize, length: usize| &self.bytes[places[i]..places[i] + length];
        let [key, input, customization] = [part(0, key), part(1, input), part(2, customization)];
        function(key, input, customization, &mut self.out[..output]);
    }

    pub fn kmac(&mut self, is_fixed: bool, lengths: [usize; 4]) {
        let checked = checked(&lengths);
        if checked.is_ok() {
            self.write_kmac(is_fixed, [0; 3], lengths);
        }
        let (command, name) = if is_fixed { (7, "kmac256") } else { (8, "kmacxof256") };
        self.script.command(&[[command].as_slice(), &lengths].concat());
        self.script.line(name, &lengths, &format!("{} {}", answer(&checked), byte_sum(&self.out)));
    }

    /// A published sample of KMAC256 or KMACXOF256.
    pub fn kmac_sample(&mut self, is_fixed: bool, places: [usize; 3], lengths: [usize; 4]) {
        self.write_kmac(is_fixed, places, lengths);
        let command = if is_fixed { 7 } else { 8 };
        self.script.command(&[[command].as_slice(), &lengths, &places, &[lengths[3]]].concat());
        self.script.print(&format!(" {}", hex(&self.out[..lengths[3]])));
    }

    /// Residues from lent bytes, of which `count` candidates from number `first` on are set aside.
    pub fn residues(&mut self, number: usize, [lent, wanted, first, count]: [usize; 4]) {
        let (mut out, drawn) = ([7; 4097], residues(set(number), &self.bytes[..lent], wanted));
        put(&mut out, &drawn);
        self.script.command(&[9, number, lent, wanted, first, count]);
        self.script.line("residues", &[number, lent, wanted, first, count], &format!("{} {}", answer(&drawn), number_sum(&out)));
    }

    fn print_errors(&mut self, out: &mut [i32], [number, lent, wanted]: [usize; 3]) {
        let drawn = errors(set(number), &self.bytes[..lent], wanted);
        put(out, &drawn);
        self.script.line("errors", &[number, lent, wanted], &format!("{} {}", answer(&drawn), signed_sum(out)));
    }

    fn print_multipliers(&mut self, out: &mut [i32], [number, lent, first, wanted]: [usize; 4]) {
        let drawn = multipliers(set(number), &self.bytes[..lent], first, wanted);
        put(out, &drawn);
        self.script.line("multipliers", &[number, lent, first, wanted], &format!("{} {}", answer(&drawn), signed_sum(out)));
    }

    pub fn errors(&mut self, case: [usize; 3]) {
        self.script.command(&[[10].as_slice(), &case].concat());
        self.print_errors(&mut [7; 4097], case);
    }

    pub fn multipliers(&mut self, case: [usize; 4]) {
        self.script.command(&[[11, 0, 0, 0].as_slice(), &case].concat());
        self.print_multipliers(&mut [7; 4097], case);
    }

    /// Errors, and multipliers over them.
    pub fn errors_and_multipliers(&mut self, errors: [usize; 3], multipliers: [usize; 4]) {
        let mut out = [7; 4097];
        self.script.command(&[[12].as_slice(), &errors, &multipliers].concat());
        self.print_errors(&mut out, errors);
        self.print_multipliers(&mut out, multipliers);
    }
}

pub fn script() -> Script {
    let mut run = Bytes::new();
    known_draws::run(&mut run);
    sponge::run(&mut run);
    draws::run(&mut run);
    samplers::run(&mut run);
    damage_bytes::run(&mut run);
    run.script
}
