//! Key, sealing and reading on numbers, as open calls.

use crate::arithmetic::{add_into, bit, first_wrong, middle_product, residue};
use crate::draws::{multiplier_bound, refusal, Refusal};
use crate::parameters::Set;

/// The set, where it is one and every slice has its length.
fn checked(set: Option<Set>, fits: impl Fn(&Set) -> bool) -> Result<Set, Refusal> {
    match set {
        None => refusal(1, 0),
        Some(s) if !fits(&s) => refusal(2, 0),
        Some(s) => Ok(s),
    }
}

fn residues(q: u64, numbers: &[i32]) -> Vec<u32> {
    numbers.iter().map(|&z| residue(q, z)).collect()
}

/// The product of two polynomials.
fn product(q: u64, x: &[u32], y: &[u32]) -> Vec<u32> {
    let mut out = vec![0u64; x.len() + y.len() - 1];
    for (i, &a) in x.iter().enumerate() {
        for (j, &b) in y.iter().enumerate() {
            out[i + j] = (out[i + j] + a as u64 * b as u64) % q;
        }
    }
    out.iter().map(|&z| z as u32).collect()
}

pub fn key(set: Option<Set>, a: &[u32], s: &[u32], e: &[i32], results: usize) -> Result<Vec<u32>, Refusal> {
    let p = checked(set, |p| {
        let count = p.t * (p.d + p.k);
        a.len() == p.t * p.n && s.len() == p.n + p.d + p.k - 1 && e.len() == count && results == count
    })?;
    let numbers = a.iter().chain(s).map(|&x| (x as u64) < p.q);
    first_wrong(numbers.chain(e.iter().map(|&z| z.unsigned_abs() <= p.eta)))?;
    let mut b: Vec<u32> = a.chunks(p.n).flat_map(|a| middle_product(p.q, a, s, p.d + p.k)).collect();
    add_into(p.q, &mut b, &residues(p.q, e));
    Ok(b)
}

/// c1 and c2.
type Sealed = (Vec<u32>, Vec<u32>);

pub fn sealing(set: Option<Set>, a: &[u32], b: &[u32], r: &[i32], message: &[u32], results: [usize; 2]) -> Result<Sealed, Refusal> {
    let p = checked(set, |p| {
        let inputs = [a.len(), b.len(), r.len(), message.len()] == [p.t * p.n, p.t * (p.d + p.k), p.t * (p.k + 1), p.d];
        inputs && results == [p.n + p.k, p.d]
    })?;
    let numbers = a.iter().chain(b).map(|&x| (x as u64) < p.q);
    let multipliers = r.iter().enumerate().map(|(i, &z)| z != 0 && z.unsigned_abs() <= multiplier_bound(&p, i));
    first_wrong(numbers.chain(multipliers).chain(message.iter().map(|&x| x < 2)))?;
    let mut c1 = vec![0; p.n + p.k];
    let mut c2: Vec<u32> = message.iter().map(|&bit| bit * p.half() as u32).collect();
    for (i, r) in residues(p.q, r).chunks(p.k + 1).enumerate() {
        add_into(p.q, &mut c1, &product(p.q, r, &a[i * p.n..(i + 1) * p.n]));
        add_into(p.q, &mut c2, &middle_product(p.q, r, &b[i * (p.d + p.k)..(i + 1) * (p.d + p.k)], p.d));
    }
    Ok((c1, c2))
}

pub fn reading(set: Option<Set>, c1: &[u32], c2: &[u32], s: &[u32], results: usize) -> Result<Vec<u32>, Refusal> {
    let p = checked(set, |p| [c1.len(), c2.len(), s.len(), results] == [p.n + p.k, p.d, p.n + p.d + p.k - 1, p.d])?;
    first_wrong(c1.iter().chain(c2).chain(s).map(|&x| (x as u64) < p.q))?;
    let middle = middle_product(p.q, c1, s, p.d);
    let opened = c2.iter().zip(&middle).map(|(&c, &x)| ((c as u64 + p.q - x as u64) % p.q) as u32);
    Ok(opened.map(|w| bit(&p, w)).collect())
}

#[cfg(test)]
mod tests {
    use super::*;
    use crate::parameters::set;

    #[test]
    fn bench_figures() {
        let s = [1, 2, 3, 4];
        let b = key(set(0), &[3, 5], &s, &[1, 0, -1], 3).unwrap();
        assert_eq!(b, [12, 2, 9]);
        let (c1, c2) = sealing(set(0), &[3, 5], &b, &[1, -2], &[1, 0], [3, 2]).unwrap();
        assert_eq!((c1.as_slice(), c2.as_slice()), (&[3, 16, 7][..], &[3, 5][..]));
        assert_eq!(reading(set(0), &c1, &c2, &s, 2).unwrap(), [1, 0]);
    }
}
