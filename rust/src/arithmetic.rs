//! Transforms by columns and rows, middle products, and the two roundings.

use crate::draws::{refusal, Refusal};
use crate::parameters::Set;

/// A transform of one size of a set, with the powers of its root.
pub struct Transform {
    q: u64,
    size: usize,
    row: usize,
    powers: Vec<u32>,
    row_powers: Vec<u32>,
}

impl Transform {
    /// The transform of size number i (0 to 2) of a set, with the root or with its inverse.
    pub fn new(s: &Set, i: usize, inverse: bool) -> Self {
        let (size, q) = (s.sizes[i], s.q);
        let row = if s.number == 0 { 1 } else { 256 };
        let table = crate::parameters::powers(q, s.roots[i], size);
        let powers: Vec<u32> = (0..size).map(|j| table[if inverse { (size - j) % size } else { j }] as u32).collect();
        let row_powers = (0..row).map(|j| powers[j * (size / row)]).collect();
        Transform { q, size, row, powers, row_powers }
    }

    /// One row in natural order, by radix-2 passes that need no bit reversal.
    fn row(&self, x: &mut [u32], y: &mut [u32]) {
        let q = self.q as u32;
        let (n, mut stride) = (x.len(), 1);
        while stride < n {
            let half = n / 2;
            for p in 0..half / stride {
                let w = self.row_powers[p * stride] as u64;
                for c in 0..stride {
                    let (a, b) = (x[p * stride + c], x[half + p * stride + c]);
                    let sum = a + b;
                    y[2 * p * stride + c] = if sum >= q { sum - q } else { sum };
                    y[2 * p * stride + stride + c] = ((a + q - b) as u64 * w % self.q) as u32;
                }
            }
            x.copy_from_slice(y);
            stride *= 2;
        }
    }

    /// Column c: the short transform over the column, each sum reduced once.
    fn column(&self, x: &[u32], c: usize, out: &mut [u32; 13]) {
        let rows = self.size / self.row;
        for (r, value) in out.iter_mut().enumerate().take(rows) {
            let sum: u64 = (0..rows).map(|j| x[j * self.row + c] as u64 * self.powers[self.row * (j * r % rows)] as u64).sum();
            *value = (sum % self.q) as u32;
        }
    }

    /// The transform of a padded vector, in the order of Perm.
    pub fn forward(&self, input: &[u32]) -> Vec<u32> {
        let mut x = input.to_vec();
        x.resize(self.size, 0);
        let mut column = [0; 13];
        for c in 0..self.row {
            self.column(&x, c, &mut column);
            for r in 0..self.size / self.row {
                x[r * self.row + c] = (column[r] as u64 * self.powers[r * c] as u64 % self.q) as u32;
            }
        }
        let mut buffer = [0; 256];
        for row in x.chunks_mut(self.row) {
            self.row(row, &mut buffer[..row.len()]);
        }
        x
    }

    /// The transform, divided by its size, of a vector in the order of Perm.
    pub fn scaled(&self, stored: &[u32]) -> Vec<u32> {
        let mut x = stored.to_vec();
        let mut buffer = [0; 256];
        for (r, row) in x.chunks_mut(self.row).enumerate() {
            self.row(row, &mut buffer[..row.len()]);
            for (c, value) in row.iter_mut().enumerate() {
                *value = (*value as u64 * self.powers[r * c] as u64 % self.q) as u32;
            }
        }
        let scale = self.q - (self.q - 1) / self.size as u64;
        let mut column = [0; 13];
        for c in 0..self.row {
            self.column(&x, c, &mut column);
            for r in 0..self.size / self.row {
                x[r * self.row + c] = (column[r] as u64 * scale % self.q) as u32;
            }
        }
        x
    }
}

/// The place-by-place product of two vectors.
pub fn pointwise(q: u64, x: &[u32], y: &[u32]) -> Vec<u32> {
    x.iter().zip(y).map(|(&a, &b)| (a as u64 * b as u64 % q) as u32).collect()
}

/// Place by place, x plus y.
pub fn add_into(q: u64, x: &mut [u32], y: &[u32]) {
    for (a, &b) in x.iter_mut().zip(y) {
        *a = ((*a as u64 + b as u64) % q) as u32;
    }
}

/// The residue of a signed number.
pub fn residue(q: u64, z: i32) -> u32 {
    (z as i64).rem_euclid(q as i64) as u32
}

/// The middle product by its written-out sum.
pub fn middle_product(q: u64, a: &[u32], b: &[u32], results: usize) -> Vec<u32> {
    (0..results)
        .map(|i| {
            let sum = a.iter().enumerate().fold(0u64, |sum, (j, &x)| (sum + x as u64 * b[a.len() - 1 + i - j] as u64) % q);
            sum as u32
        })
        .collect()
}

/// The lengths of the output of a middle product and, for the transformed one, of the work slice.
pub struct Lengths {
    pub results: usize,
    pub work: Option<usize>,
}

/// What an open call of the middle product does: its answer, and whether the work slice was cleared.
pub struct Given {
    pub product: Result<Vec<u32>, Refusal>,
    pub cleared: bool,
}

/// The checks of the set and the lengths.
fn middle_product_fits(set: Option<Set>, a: usize, b: usize, lengths: &Lengths) -> Result<Set, Refusal> {
    let Some(s) = set else {
        return refusal(1, 0);
    };
    let largest = a.max(b).max(lengths.results);
    if a == 0 || lengths.results == 0 || largest > 4096 || b + 1 != a + lengths.results {
        return refusal(6, 0);
    }
    match lengths.work {
        Some(work) if work != s.sizes[2] => refusal(6, 0),
        Some(_) if b > s.sizes[2] => refusal(7, 0),
        _ => Ok(s),
    }
}

/// The first number that is out of range.
pub fn first_wrong(mut numbers: impl Iterator<Item = bool>) -> Result<(), Refusal> {
    match numbers.position(|right| !right) {
        Some(place) => refusal(3, place),
        None => Ok(()),
    }
}

/// The open call of the middle product, plain or (with a work slice) transformed.
pub fn middle_product_call(set: Option<Set>, a: &[u32], b: &[u32], lengths: Lengths) -> Given {
    match middle_product_fits(set, a.len(), b.len(), &lengths) {
        Err(refused) => Given { product: Err(refused), cleared: false },
        Ok(s) => {
            let checked = first_wrong(a.iter().chain(b).map(|&x| (x as u64) < s.q));
            Given { product: checked.map(|()| middle_product(s.q, a, b, lengths.results)), cleared: true }
        }
    }
}

/// 003's Round on the centred residue, for sets 1 to 12; 01's formula for set 0.
pub fn bit(s: &Set, w: u32) -> u32 {
    let (w, h) = (w as u64, s.half());
    let one = if s.number == 0 { (2 * w + h) / (2 * h) % 2 == 1 } else { h <= 2 * w && 2 * w <= 3 * h };
    one as u32
}

#[cfg(test)]
mod tests {
    use super::*;
    use crate::parameters::set;

    /// The transform by its written-out sum: place row * r + c is the sum of x_j times the root to the power j * (r + rows * c).
    fn written_out(q: u64, w: u64, size: usize, row: usize, x: &[u32]) -> Vec<u32> {
        let (powers, rows) = (crate::parameters::powers(q, w, size), size / row);
        let place = |i: usize| i / row + rows * (i % row);
        let sum = |i: usize| x.iter().enumerate().fold(0, |sum, (j, &x)| (sum + x as u64 * powers[j * place(i) % size]) % q);
        (0..size).map(|i| sum(i) as u32).collect()
    }

    /// Every size of a set, whole vectors and vectors that are padded, with the root and with its inverse.
    fn same_as_written_out(number: usize) {
        let s = set(number).unwrap();
        let row = if number == 0 { 1 } else { 256 };
        for (i, (&size, &root)) in s.sizes.iter().zip(&s.roots).enumerate() {
            let inverse = crate::parameters::powers(s.q, root, size)[size - 1];
            for count in [size, size / 2 + 1] {
                let x: Vec<u32> = (0..count as u64).map(|j| ((j * j * 7919 + 31 * j + 5) % s.q) as u32).collect();
                assert_eq!(Transform::new(&s, i, false).forward(&x), written_out(s.q, root, size, row, &x));
                assert_eq!(Transform::new(&s, i, true).forward(&x), written_out(s.q, inverse, size, row, &x));
            }
        }
    }

    #[test]
    fn transforms_are_written_out_sums() {
        for number in [0, 1, 12] {
            same_as_written_out(number);
        }
    }

    /// What one root sends, the transform with the other, divided by the size, recovers.
    #[test]
    fn transforms_are_undone() {
        for s in (0..13).map(|number| set(number).unwrap()) {
            for (i, &size) in s.sizes.iter().enumerate() {
                let x: Vec<u32> = (0..size as u64).map(|j| (j * j % s.q) as u32).collect();
                let (forward, inverse) = (Transform::new(&s, i, false), Transform::new(&s, i, true));
                assert_eq!(inverse.scaled(&forward.forward(&x)), x);
            }
        }
    }
}
