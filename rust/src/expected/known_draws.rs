//! The draws of the known answers of an independent model (rust/vectors/titanium.txt), which run_bytes makes and prints as that file has them.

use super::bytes::Bytes;
use super::known::{bytes, sets, Values};
use crate::draws::{residues_from, Source};
use crate::parameters::{set, Set};

/// Where the seeds of a secret, of public polynomials and of a sealing stand.
const SECRET: usize = 0;
const PUBLIC: usize = 32;
const SEALING: usize = 64;

/// One set whose draws are known.
struct Case<'a> {
    run: &'a mut Bytes,
    s: Set,
    values: Values,
}

impl Case<'_> {
    /// Some of the numbers that a draw gives, by their name: which draw, its numbers, the place of its seed, which numbers are printed, and above which
    /// number one stands for a negative one.
    fn line(&mut self, name: &str, draw: [usize; 4], seed: usize, [from, count]: [usize; 2], half: u64) {
        let [command, a, b, c] = draw;
        self.run.script.text(name);
        self.run.script.command(&[command, self.s.number, a, b, c, seed, from, count, half as usize]);
        self.run.script.print(&format!(" {}", self.values[name]));
        self.run.script.text("\n");
    }

    /// The counter after a draw of residues.
    fn reached(&self, seed: usize, block: usize, wanted: usize) -> usize {
        let mut source = Source::new(&self.run.bytes[seed..seed + 32]);
        residues_from(&self.s, &mut source, wanted, block).unwrap();
        source.counter() as usize
    }

    fn lines(&mut self) {
        let (s, all, half) = (self.s, u32::MAX as u64, self.s.q / 2);
        self.run.script.text(&format!("set {}\n", s.number));
        self.line("s_hat_first_8", [13, s.secret_block, 0, s.sizes[2]], SECRET, [0, 8], all);
        let counter = self.reached(SECRET, s.secret_block, s.sizes[2]);
        self.line("e_polynomial_0_first_8", [14, counter, 0, 0], SECRET, [0, 8], half);
        self.line("e_polynomial_1_first_8", [14, counter, 0, 0], SECRET, [s.d + s.k, 8], half);
        self.line("a_polynomial_0_first_4", [13, s.public_block, 0, s.n], PUBLIC, [0, 4], all);
        let counter = self.reached(PUBLIC, s.public_block, s.n);
        self.line("a_polynomial_1_first_4", [13, s.public_block, counter, s.n], PUBLIC, [0, 4], all);
        self.line("r_polynomial_0_first_8", [15, 0, 0, 0], SEALING, [0, 8], half);
        self.line("r_last_8", [15, 0, 0, 0], SEALING, [s.multipliers() - 8, 8], half);
    }
}

pub fn run(run: &mut Bytes) {
    for values in sets().into_iter().filter(|values| values.contains_key("s_hat_first_8")) {
        let s = set(values["set"].parse().unwrap()).unwrap();
        for (place, seed) in [(SECRET, values["secret_key"]), (PUBLIC, &values["public_key_first_48"][..64]), (SEALING, values["sealing_seed"])] {
            run.put(place, &bytes(seed));
        }
        Case { run, s, values }.lines();
    }
}
