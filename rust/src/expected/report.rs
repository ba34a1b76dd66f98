//! The pieces of a line, as the programs print them.

use crate::draws::Refusal;

/// The answer of an open call.
pub fn answer<T>(given: &Result<T, Refusal>) -> String {
    match given {
        Ok(_) => "done".to_string(),
        Err(refused) => format!("refused {} {}", refused.number, refused.place),
    }
}

pub fn hex(bytes: &[u8]) -> String {
    bytes.iter().map(|byte| format!("{byte:02x}")).collect()
}

/// A checksum: a polynomial modulo the prime 2^32 - 5.
pub fn sum(numbers: impl IntoIterator<Item = u64>) -> u64 {
    numbers.into_iter().fold(0, |sum, x| (sum * 65599 + x + 1) % 4294967291)
}

pub fn byte_sum(bytes: &[u8]) -> u64 {
    sum(bytes.iter().map(|&byte| byte as u64))
}

pub fn number_sum(numbers: &[u32]) -> u64 {
    sum(numbers.iter().map(|&x| x as u64))
}

/// Each number is raised by 2^24, so that it has no sign.
pub fn signed_sum(numbers: &[i32]) -> u64 {
    sum(numbers.iter().map(|&x| (x + 16777216) as u64))
}

/// The pattern that slices are filled with.
pub fn pattern(length: usize, start: usize) -> Vec<u8> {
    (0..length).map(|i| ((start + 13 * i) % 199) as u8).collect()
}

/// Residues from the generator of inputs.
pub fn residues(length: usize, start: u64, q: u64) -> Vec<u32> {
    let mut x = start;
    let mut next = || {
        x = (x * 1103515245 + 12345) % (1 << 31);
        (x % q) as u32
    };
    (0..length).map(|_| next()).collect()
}

/// The lengths of the slices of a call, one of which may be another: 1 and 2 are one more and one less of the first, 3 and 4 of the second, and so on; 20
/// is an empty first slice, 21 an empty second one, and so on.
pub fn changed<const N: usize>(mut lengths: [usize; N], change: usize) -> [usize; N] {
    match change {
        0 => (),
        20.. => lengths[change - 20] = 0,
        _ if change % 2 == 1 => lengths[change / 2] += 1,
        _ => lengths[change / 2 - 1] = lengths[change / 2 - 1].saturating_sub(1),
    }
    lengths
}
