//! The noise sheet in run_scheme, and its input in noisesheet.

use super::known::bytes;
use super::report::{byte_sum, changed, number_sum, pattern};
use super::store::{Command, Store};
use crate::arithmetic::{bit, middle_product};
use crate::parameters::set;
use crate::sheet::{made_sheet, sheet};

/// 01's Bench input.
pub const BENCH: [u8; 14] = [0, 3, 5, 1, 2, 3, 4, 1, 0, 255, 1, 254, 1, 0];

/// The inputs of the known sheets of an independent model, but 01's, which stands among those of set 0.
fn known_inputs() -> Vec<Vec<u8>> {
    let lines = include_str!("../../vectors/sheets.txt").lines();
    lines.filter(|line| !line.is_empty() && line.bytes().all(|byte| byte.is_ascii_hexdigit())).map(bytes).filter(|input| *input != BENCH).collect()
}

/// 01's Bench input with one byte changed.
fn with_byte(place: usize, byte: u8) -> Vec<u8> {
    let mut input = BENCH.to_vec();
    input[place] = byte;
    input
}

/// Inputs of set 0 whose two places have noise of one size: −4 and 4, 4 and −4, both negative, both positive.
fn equal_sizes() -> [Vec<u8>; 4] {
    let input = |errors: [u8; 3], multipliers: [u8; 2]| [&BENCH[..7], &errors, &multipliers, &BENCH[12..]].concat();
    [
        input([1, 255, 1], [2, 254]),
        input([255, 1, 255], [2, 254]),
        input([255, 255, 255], [2, 2]),
        input([1, 1, 1], [2, 2]),
    ]
}

/// Inputs of set 0: 01's, every byte out of range, its neighbours within range, and lengths one off.
fn bench_inputs() -> Vec<Vec<u8>> {
    let mut inputs = vec![BENCH.to_vec(), BENCH[..13].to_vec(), [&BENCH[..], &[0]].concat()];
    inputs.extend((1..7).flat_map(|place| [with_byte(place, 16), with_byte(place, 17)]));
    inputs.extend((7..10).flat_map(|place| [1, 255, 2, 254, 128].map(|byte| with_byte(place, byte))));
    inputs.extend((10..12).flat_map(|place| [2, 254, 0, 3, 253, 128].map(|byte| with_byte(place, byte))));
    inputs.extend((12..14).flat_map(|place| [1, 2].map(|byte| with_byte(place, byte))));
    inputs
}

/// Inputs of a set above 0, whole, one byte short and one byte long.
fn seeded_inputs(number: u8) -> Vec<Vec<u8>> {
    let mut input = pattern(98, 3 * number as usize);
    input[0] = number;
    vec![input[..97].to_vec(), input[..96].to_vec(), input]
}

/// An input of set 3 whose tenth row has noise −5720 at place 236, and whose eleventh, which is not shown, 5720 at place 27.
fn tenth_and_eleventh() -> Vec<u8> {
    [vec![3], pattern(32, 2), pattern(32, 49), pattern(32, 0)].concat()
}

fn inputs() -> Vec<Vec<u8>> {
    let mut inputs = vec![vec![], vec![0], vec![7], vec![255]];
    inputs.extend(bench_inputs());
    inputs.extend(equal_sizes());
    inputs.extend(known_inputs());
    inputs.push(tenth_and_eleventh());
    inputs.extend((1..8).flat_map(seeded_inputs));
    inputs
}

/// A sealing of two bits 0 with a made key, whose places have this noise modulo 17.
fn made(store: &mut Store, noise: u32) {
    let (s, a, secret, b, r) = (set(0).unwrap(), [3, 5], [1, 2, 3, 4], [11, (2 + noise) % 17, 10], [1, 1]);
    let c1 = middle_product(s.q, &r, &[0, a[0], a[1], 0], 3);
    let c2 = middle_product(s.q, &r, &b, 2);
    let opened = middle_product(s.q, &c1, &secret, 2);
    let bits: Vec<u32> = c2.iter().zip(&opened).map(|(&c, &x)| bit(&s, (c + 17 - x) % 17)).collect();
    store.text(&format!("made {noise}"));
    store.command(Command::Bound, &[b[1] as usize]);
    store.print(&format!(" done done {} {} {} {}\n", number_sum(&c1), number_sum(&c2), bits[0], bits[1]));
}

/// Noise of sixteen places. The tenth row and the eleventh have one size and different signs, in both orders of their places; then all places have one size.
fn made_noise() -> [[i64; 16]; 4] {
    [
        [1, 5, 14, -13, 12, -11, 10, -9, 8, -7, 6, -5, 4, -3, 2, 0],
        [1, -5, 14, -13, 12, -11, 10, -9, 8, -7, 6, 5, 4, -3, 2, 0],
        std::array::from_fn(|place| if place % 2 == 0 { 3 } else { -3 }),
        [0; 16],
    ]
}

impl Store {
    /// The sheet of made noise: the bytes of the store stand for it, in two's complement.
    fn made_sheet(&mut self, noise: [i64; 16]) {
        self.put(0, &noise.map(|z| z as u8));
        self.command(Command::MadeSheet, &[]);
        self.print(&made_sheet(&noise));
    }

    /// The sheet of the first bytes of the store.
    pub fn sheet(&mut self, length: usize) {
        self.command(Command::Sheet, &[0, length, 1024, 22521]);
        self.print(&sheet(self.part(0, length)));
    }

    /// The same with a text slice and a work slice of these lengths: what is answered and left in both.
    pub fn lent(&mut self, length: usize, [text_bytes, numbers]: [usize; 2]) {
        let (mut text, mut work, mut written) = (vec![7; 1025], vec![7; 22522], 0);
        if text_bytes >= 1024 && numbers == 22521 {
            let sheet = sheet(self.part(0, length));
            written = sheet.len();
            text[..written].copy_from_slice(sheet.as_bytes());
            work[..numbers].fill(0);
        }
        self.command(Command::Sheet, &[1, length, text_bytes, numbers]);
        self.print(&format!("lent {text_bytes} {numbers} {written} {} {}\n", byte_sum(&text), number_sum(&work)));
    }
}

pub fn run(store: &mut Store) {
    for input in inputs() {
        store.put(0, &input);
        store.sheet(input.len());
    }
    store.put(0, &BENCH);
    (0..5).for_each(|change| store.lent(BENCH.len(), changed([1024, 22521], change)));
    [3, 14, 4, 13, 12, 6, 11, 11, 12].into_iter().for_each(|noise| made(store, noise));
    made_noise().into_iter().for_each(|noise| store.made_sheet(noise));
}
