//! The byte source and the three samplers of 003 (algorithms 4 to 10).

use crate::parameters::Set;
use crate::sponge::kmacxof256;

/// A refusal: its number and its place.
#[derive(Clone, Copy, Debug, PartialEq)]
pub struct Refusal {
    pub number: u8,
    pub place: usize,
}

pub fn refusal<T>(number: u8, place: usize) -> Result<T, Refusal> {
    Err(Refusal { number, place })
}

/// The pseudorandom generator: a seed and a counter that rises at each call.
pub struct Source {
    seed: Vec<u8>,
    counter: u32,
}

impl Source {
    pub fn new(seed: &[u8]) -> Self {
        Source::at(seed, 0)
    }

    /// A source that goes on from a counter.
    pub fn at(seed: &[u8], counter: u32) -> Self {
        Source { seed: seed.to_vec(), counter }
    }

    pub fn counter(&self) -> u32 {
        self.counter
    }

    pub fn out(&mut self, length: usize) -> Vec<u8> {
        let mut bytes = vec![0; length];
        kmacxof256(&self.seed, &self.counter.to_le_bytes(), b"", &mut bytes);
        self.counter += 1;
        bytes
    }
}

/// How many candidates in a row may be set aside for one result, less one.
const LONGEST_RUN: u32 = 128;

/// Uniform residues from candidates of three bytes; `more` is asked for further bytes when a block is used up.
pub fn uniform(s: &Set, wanted: usize, mut block: Vec<u8>, mut more: impl FnMut() -> Option<Vec<u8>>) -> Result<Vec<u32>, Refusal> {
    let mut results = Vec::new();
    let (mut at, mut run) = (0, 0);
    while results.len() < wanted {
        if at + 3 > block.len() {
            block = match more() {
                Some(next) => next,
                None => return refusal(4, results.len()),
            };
            at = 0;
            continue;
        }
        let candidate = block[at] as u64 | (block[at + 1] as u64) << 8 | (block[at + 2] as u64) << 16;
        at += 3;
        if candidate < s.threshold {
            results.push((candidate % s.q) as u32);
            run = 0;
        } else {
            run += 1;
            if run == LONGEST_RUN {
                return refusal(5, results.len());
            }
        }
    }
    Ok(results)
}

/// Uniform residues from a source, block after block.
pub fn residues_from(s: &Set, source: &mut Source, wanted: usize, block: usize) -> Result<Vec<u32>, Refusal> {
    let first = source.out(block);
    uniform(s, wanted, first, || Some(source.out(block)))
}

/// The sets that have draws.
fn byte_set(set: Option<Set>) -> Result<Set, Refusal> {
    match set {
        Some(s) if s.number > 0 => Ok(s),
        _ => refusal(1, 0),
    }
}

/// Uniform residues over lent bytes.
pub fn residues(set: Option<Set>, bytes: &[u8], wanted: usize) -> Result<Vec<u32>, Refusal> {
    let s = byte_set(set)?;
    if wanted > 4096 {
        return refusal(2, 0);
    }
    uniform(&s, wanted, bytes.to_vec(), || None)
}

/// The error of one byte.
pub fn error_of(byte: u8) -> i32 {
    (byte & 15).count_ones() as i32 - (byte >> 4).count_ones() as i32
}

/// Errors over lent bytes.
pub fn errors(set: Option<Set>, bytes: &[u8], wanted: usize) -> Result<Vec<i32>, Refusal> {
    byte_set(set)?;
    if wanted > 4096 {
        return refusal(2, 0);
    }
    if bytes.len() < wanted {
        return refusal(4, bytes.len());
    }
    Ok(bytes[..wanted].iter().map(|&byte| error_of(byte)).collect())
}

/// The largest size of a multiplier at a position.
pub fn multiplier_bound(s: &Set, position: usize) -> u32 {
    1 << if position < s.first_bound { s.b1 } else { s.b2 }
}

/// The multiplier at a position, from the bytes of one whole sealing, or none where they end.
fn multiplier_at(s: &Set, bytes: &[u8], position: usize) -> Option<i32> {
    let width = s.multiplier_bytes();
    let digits = bytes.get(position * width..(position + 1) * width)?;
    let sign = bytes.get(s.multipliers() * width + position / 8)? >> (position % 8) & 1;
    let value = digits.iter().rev().fold(0u32, |value, &byte| value << 8 | byte as u32);
    let size = (value % multiplier_bound(s, position) + 1) as i32;
    Some(if sign == 1 { -size } else { size })
}

/// Multipliers over lent bytes, from a first position on.
pub fn multipliers(set: Option<Set>, bytes: &[u8], first: usize, wanted: usize) -> Result<Vec<i32>, Refusal> {
    let s = byte_set(set)?;
    let past_last = wanted > 0 && (first >= s.multipliers() || wanted > s.multipliers() - first);
    if wanted > 4096 || past_last {
        return refusal(2, 0);
    }
    (0..wanted).map(|i| multiplier_at(&s, bytes, first + i).ok_or(Refusal { number: 4, place: i })).collect()
}

/// All multipliers of one sealing, from the sealing seed.
pub fn sealing_multipliers(s: &Set, seed: &[u8]) -> Vec<i32> {
    let count = s.multipliers();
    let bytes = Source::new(seed).out(count * s.multiplier_bytes() + count / 8);
    (0..count).map(|position| multiplier_at(s, &bytes, position).unwrap()).collect()
}

/// All errors of one key, polynomial after polynomial, d + k each.
pub fn key_errors(s: &Set, source: &mut Source) -> Vec<i32> {
    let bytes = source.out(s.t * (s.d + s.k + 1));
    bytes.chunks(s.d + s.k + 1).flat_map(|block| block[..s.d + s.k].iter().map(|&byte| error_of(byte))).collect()
}
