//! The partial transform (02, No. 2; 003 section 3.2.2): D1 rows of D2 numbers, of which m are read, going forward, or written, going back.

use crate::arithmetic::{first_wrong, Transform};
use crate::draws::{refusal, Refusal};
use crate::parameters::Set;

/// D1, D2 and m.
pub type Split = [usize; 3];

/// The checks: the set and the number of its transform.
fn checked(set: Option<Set>, [d1, d2, m]: Split, input: &[u32], places: usize) -> Result<(Set, usize), Refusal> {
    let Some(s) = set.filter(|s| s.number > 0) else {
        return refusal(1, 0);
    };
    if m == 0 || m > d1 {
        return refusal(11, 0);
    }
    let Some(i) = s.sizes.iter().position(|&size| d1 as u128 * d2 as u128 == size as u128) else {
        return refusal(12, 0);
    };
    if input.len() != s.sizes[i] || places != s.sizes[i] {
        return refusal(2, 0);
    }
    first_wrong(input.iter().map(|&x| (x as u64) < s.q))?;
    Ok((s, i))
}

/// Place D2 · r + c of the order of D1 and D2 is value r + D1 · c.
fn value_at(place: usize, [d1, d2, _]: Split) -> usize {
    place / d2 + d1 * (place % d2)
}

/// The same in rows of 256, as the transforms of the scheme store it.
fn stored_at(value: usize, size: usize) -> usize {
    256 * (value % (size / 256)) + value / (size / 256)
}

/// The whole transform of the first m rows, with zeros after them.
pub fn partial_transform(set: Option<Set>, split: Split, input: &[u32], places: usize) -> Result<Vec<u32>, Refusal> {
    let (s, i) = checked(set, split, input, places)?;
    let stored = Transform::new(&s, i, false).forward(&input[..split[2] * split[1]]);
    Ok((0..places).map(|place| stored[stored_at(value_at(place, split), places)]).collect())
}

/// The first m rows of the whole inverse.
pub fn partial_inverse(set: Option<Set>, split: Split, input: &[u32], places: usize) -> Result<Vec<u32>, Refusal> {
    let (s, i) = checked(set, split, input, places)?;
    let mut stored = vec![0; places];
    for (place, &x) in input.iter().enumerate() {
        stored[stored_at(value_at(place, split), places)] = x;
    }
    let mut whole = Transform::new(&s, i, true).scaled(&stored);
    whole.truncate(split[2] * split[1]);
    Ok(whole)
}

#[cfg(test)]
mod tests {
    use super::*;
    use crate::parameters::{powers, set};

    /// Place D2 · r + c is the sum of x_j times the root to the power j · (r + D1 · c).
    fn written_out(s: &Set, i: usize, split: Split, x: &[u32]) -> Vec<u32> {
        let table = powers(s.q, s.roots[i], s.sizes[i]);
        let read = &x[..split[2] * split[1]];
        let sum = |value: usize| read.iter().enumerate().fold(0, |sum, (j, &x)| (sum + x as u64 * table[j * value % table.len()]) % s.q);
        (0..s.sizes[i]).map(|place| sum(value_at(place, split)) as u32).collect()
    }

    /// Every way to split the first size of set 1, with the first rows alone and with all.
    #[test]
    fn partial_transforms_are_written_out_sums() {
        let s = set(1).unwrap();
        let size = s.sizes[0];
        let x: Vec<u32> = (0..size as u64).map(|j| ((j * j * 7919 + 31 * j + 5) % s.q) as u32).collect();
        for d1 in (1..=size).filter(|d1| size % d1 == 0) {
            for m in [1, d1.div_ceil(2), d1] {
                let split = [d1, size / d1, m];
                assert_eq!(partial_transform(set(1), split, &x, size).unwrap(), written_out(&s, 0, split, &x));
            }
        }
    }

    /// What is sent whole comes back, as many rows of it as are asked for.
    #[test]
    fn partial_inverses_undo_them() {
        let s = set(9).unwrap();
        for size in s.sizes {
            let x: Vec<u32> = (0..size as u64).map(|j| (j * j % s.q) as u32).collect();
            for d1 in (1..=size).filter(|d1| size % d1 == 0) {
                let sent = partial_transform(set(9), [d1, size / d1, d1], &x, size).unwrap();
                let m = d1.div_ceil(2);
                assert_eq!(partial_inverse(set(9), [d1, size / d1, m], &sent, size).unwrap(), x[..m * size / d1]);
            }
        }
    }
}
