//! The draws from a seed that run_bytes makes.

use super::bytes::Bytes;
use super::report::number_sum;
use crate::arithmetic::residue;
use crate::draws::{key_errors, residues_from, sealing_multipliers, uniform, Source};
use crate::parameters::{set, Set};

const MOST: usize = 10240;

/// The checksum of numbers in front of an output of 7s.
fn written(mut numbers: Vec<u32>, length: usize) -> u64 {
    numbers.resize(length, 7);
    number_sum(&numbers)
}

/// Residues from the seed at the front of the store: block size, first counter and results wanted.
fn residues(run: &mut Bytes, s: &Set, [size, first, wanted]: [usize; 3]) {
    let mut source = Source::at(&run.bytes[..32], first as u32);
    let answer = match residues_from(s, &mut source, wanted, size) {
        Ok(drawn) => format!("counter {} {}", source.counter(), written(drawn, MOST)),
        Err(refused) => format!("refused {}", refused.number),
    };
    run.script.command(&[13, s.number, size, first, wanted]);
    run.script.print(&format!("residues {} {size} {first} {wanted} {answer}\n", s.number));
}

fn signed_sum(s: &Set, numbers: &[i32]) -> u64 {
    written(numbers.iter().map(|&z| residue(s.q, z)).collect(), MOST)
}

fn errors(run: &mut Bytes, s: &Set, counter: usize) {
    let sum = signed_sum(s, &key_errors(s, &mut Source::at(&run.bytes[..32], counter as u32)));
    run.script.command(&[14, s.number, counter]);
    run.script.print(&format!("errors {} {counter} {sum}\n", s.number));
}

fn one_seed(run: &mut Bytes, s: &Set, start: usize) {
    run.pattern(0, 32, start);
    for case in [[s.secret_block, 0, s.sizes[2]], [s.public_block, 0, s.n], [s.public_block, 300, s.n], [384, 5, 1000]] {
        residues(run, s, case);
    }
    errors(run, s, 1);
    errors(run, s, 70000);
    let sum = signed_sum(s, &sealing_multipliers(s, &run.bytes[..32]));
    run.script.command(&[15, s.number]);
    run.script.print(&format!("multipliers {} {sum}\n", s.number));
}

/// A draw of 40 residues over a block that ends in 100 candidates set aside and one that begins with some more.
fn two_blocks(run: &mut Bytes, s: &Set, aside: usize) {
    run.pattern(0, 384, 1);
    run.set_aside(0, 28, 100);
    run.pattern(384, 384, 2);
    run.set_aside(384, 0, aside);
    let [first, second] = [0, 384].map(|place| run.bytes[place..place + 384].to_vec());
    let before = uniform(s, 28, first.clone(), || None).unwrap();
    let answer = match uniform(s, 40, first, || Some(second.clone())) {
        Ok(drawn) => format!("reached 40 0 {}", written(drawn, 40)),
        Err(refusal) => format!("refused {}", refusal.number),
    };
    run.script.command(&[16, s.number, aside]);
    run.script.print(&format!("blocks {} {aside} reached 28 100 {} {answer}\n", s.number, written(before, 40)));
}

pub fn run(run: &mut Bytes) {
    for s in (1..13).map(|number| set(number).unwrap()) {
        one_seed(run, &s, 1);
        one_seed(run, &s, 2);
        for aside in [26, 27, 28] {
            two_blocks(run, &s, aside);
        }
    }
}
