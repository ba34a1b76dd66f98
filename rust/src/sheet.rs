//! The noise sheet: the noise of each place of a sealing, worked out from the draws, beside the bit sent and the bit read.

use crate::arithmetic::{bit, middle_product, residue};
use crate::draws::{key_errors, multiplier_bound, refusal, sealing_multipliers, Refusal, Source};
use crate::packing::message_bits;
use crate::parameters::{set, Set};
use crate::scheme::{decrypt, encrypt, key, sealed_numbers, secret};
use std::fmt::Write as _;

/// One place of a sheet.
struct Row {
    place: usize,
    noise: i64,
    sent: u32,
    read: u32,
}

/// The sum over polynomials of the correlations of multipliers and errors, as whole numbers.
fn products(s: &Set, multipliers: &[i32], errors: &[i32], place: usize) -> i64 {
    let polynomials = multipliers.chunks(s.k + 1).zip(errors.chunks(s.d + s.k));
    polynomials.map(|(r, e)| r.iter().zip(&e[place..]).map(|(&x, &y)| x as i64 * y as i64).sum::<i64>()).sum()
}

/// The noise of every place of a sealing, from the seeds.
pub fn noise(s: &Set, key_seed: &[u8], sealing_seed: &[u8], message: &[u8]) -> Result<Vec<i64>, Refusal> {
    let (public_key, secret_key) = key(s, key_seed)?;
    let mut source: Source = secret(s, &secret_key)?.1;
    let errors = key_errors(s, &mut source);
    let multipliers = sealing_multipliers(s, sealing_seed);
    let (_, c2) = sealed_numbers(s, &public_key, message, sealing_seed)?;
    let dropped = c2.iter().map(|&x| x as i64 % (1 << s.dropped_bits));
    Ok(dropped.enumerate().map(|(place, dropped)| products(s, &multipliers, &errors, place) - dropped).collect())
}

/// The rows of an encryption set.
fn byte_rows(s: &Set, input: &[u8]) -> Result<Vec<Row>, Refusal> {
    if input.len() != 97 {
        return refusal(2, 0);
    }
    let (key_seed, rest) = input[1..].split_at(32);
    let (sealing_seed, message) = rest.split_at(32);
    let (public_key, secret_key) = key(s, key_seed)?;
    let ciphertext = encrypt(s, &public_key, message, sealing_seed)?;
    let read = message_bits(&decrypt(s, &secret_key, &ciphertext)?);
    let sent = message_bits(message);
    let noise = noise(s, key_seed, sealing_seed, message)?;
    Ok((0..s.d).map(|place| Row { place, noise: noise[place], sent: sent[place], read: read[place] }).collect())
}

/// The rows of Bench, whose numbers stand in the input itself.
fn bench_rows(s: &Set, input: &[u8]) -> Result<Vec<Row>, Refusal> {
    if input.len() != 14 {
        return refusal(2, 0);
    }
    for (place, &byte) in input.iter().enumerate().skip(1) {
        let signed = byte as i8 as i32;
        let fits = match place {
            1..=6 => (byte as u64) < s.q,
            7..=9 => signed.abs() <= s.eta as i32,
            10..=11 => signed != 0 && signed.unsigned_abs() <= multiplier_bound(s, place - 10),
            _ => byte < 2,
        };
        if !fits {
            return refusal(3, place);
        }
    }
    let numbers = |from: usize, to: usize| -> Vec<u32> { input[from..to].iter().map(|&byte| byte as u32).collect() };
    let signed = |from: usize, to: usize| -> Vec<i32> { input[from..to].iter().map(|&byte| byte as i8 as i32).collect() };
    let (a, secret, e, r, sent) = (numbers(1, 3), numbers(3, 7), signed(7, 10), signed(10, 12), numbers(12, 14));
    let q = s.q;
    let b: Vec<u32> = middle_product(q, &a, &secret, 3).iter().zip(&e).map(|(&x, &y)| (x + residue(q, y)) % q as u32).collect();
    let multipliers: Vec<u32> = r.iter().map(|&z| residue(q, z)).collect();
    let c1 = middle_product(q, &multipliers, &[0, a[0], a[1], 0], 3);
    let c2: Vec<u32> =
        middle_product(q, &multipliers, &b, 2).iter().zip(&sent).map(|(&x, &bit)| (x + 8 * bit) % q as u32).collect();
    let opened = middle_product(q, &c1, &secret, 2);
    let reversed: Vec<i32> = r.iter().rev().copied().collect();
    Ok((0..2)
        .map(|place| {
            let w = (c2[place] + q as u32 - opened[place]) % q as u32;
            Row { place, noise: products(s, &reversed, &e, place), sent: sent[place], read: bit(s, w) }
        })
        .collect())
}

/// The sheet of an input, or the line of its refusal.
pub fn sheet(input: &[u8]) -> String {
    match rows(input) {
        Ok((s, rows)) => text(rows, ceiling(&s), s.half()),
        Err(refused) => format!("refused {} {}\n", refused.number, refused.place),
    }
}

fn rows(input: &[u8]) -> Result<(Set, Vec<Row>), Refusal> {
    let Some(&first) = input.first() else {
        return refusal(2, 0);
    };
    match set(first as usize) {
        Some(s) if s.number == 0 => Ok((s, bench_rows(&s, input)?)),
        Some(s) if s.number <= 6 => Ok((s, byte_rows(&s, input)?)),
        _ => refusal(1, 0),
    }
}

/// A size that no noise of the set exceeds: η times the sum of B/2 over every position, plus all the low bits that packing drops of one number.
fn ceiling(s: &Set) -> u64 {
    let sizes: u64 = (0..s.multipliers()).map(|position| multiplier_bound(s, position) as u64).sum();
    s.eta as u64 * sizes + (1 << s.dropped_bits) - 1
}

/// The sheet of a sealing with this noise; all bits, the ceiling and the half modulus are 0.
pub fn made_sheet(noise: &[i64]) -> String {
    text(noise.iter().enumerate().map(|(place, &noise)| Row { place, noise, sent: 0, read: 0 }).collect(), 0, 0)
}

/// The rows with the largest size first, of equal sizes the negative ones, of equal noise the lower place.
fn text(mut rows: Vec<Row>, ceiling: u64, half: u64) -> String {
    rows.sort_by_key(|row| (-row.noise.abs(), row.noise, row.place));
    let mut sheet = String::from("place noise sent read\n");
    for row in rows.iter().take(10) {
        writeln!(sheet, "{} {} {} {}", row.place, row.noise, row.sent, row.read).unwrap();
    }
    writeln!(sheet, "ceiling {ceiling} half {half}").unwrap();
    sheet
}

#[cfg(test)]
mod tests {
    use super::{ceiling, made_sheet, noise, sheet};
    use crate::expected::known::bytes;
    use crate::parameters::set;
    use crate::scheme::{key, sealed_numbers};

    #[test]
    fn the_bench_sheet() {
        let input = [0, 3, 5, 1, 2, 3, 4, 1, 0, 255, 1, 254, 1, 0];
        assert_eq!(sheet(&input), "place noise sent read\n0 -2 1 1\n1 -1 0 0\nceiling 4 half 8\n");
    }

    #[test]
    fn refusals() {
        assert_eq!(sheet(&[]), "refused 2 0\n");
        assert_eq!(sheet(&[7]), "refused 1 0\n");
        assert_eq!(sheet(&[0; 13]), "refused 2 0\n");
        assert_eq!(sheet(&[0, 3, 17, 1, 2, 3, 4, 1, 0, 255, 1, 254, 1, 0]), "refused 3 2\n");
        assert_eq!(sheet(&[0, 3, 5, 1, 2, 3, 4, 1, 0, 255, 0, 254, 1, 0]), "refused 3 10\n");
    }

    /// Of rows of one size the negative ones come first, then the lower place: 02, No. 6.
    #[test]
    fn negative_noise_first() {
        let rows = "place noise sent read\n1 -3 0 0\n3 -3 0 0\n0 3 0 0\n2 3 0 0\nceiling 0 half 0\n";
        assert_eq!(made_sheet(&[3, -3, 3, -3]), rows);
        let bench = |errors: [u8; 3]| sheet(&[&[0, 3, 5, 1, 2, 3, 4], &errors[..], &[2, 254, 0, 0]].concat());
        assert!(bench([1, 255, 1]).starts_with("place noise sent read\n0 -4 0 0\n1 4 0 "));
        assert!(bench([255, 1, 255]).starts_with("place noise sent read\n1 -4 0 0\n0 4 0 "));
    }

    /// Of the tenth and the eleventh row, of one size, the negative one is shown.
    #[test]
    fn the_negative_one_of_two_is_shown() {
        let shown = made_sheet(&[1, 11, 10, 9, 8, 7, 6, 5, 4, 3, -1]);
        assert!(shown.ends_with("\n10 -1 0 0\nceiling 0 half 0\n") && !shown.contains("\n0 1 "));
    }

    #[test]
    fn ceilings() {
        let known = [4, 1860607, 792063, 851455, 2766847, 7548927, 10747903];
        (0..7).for_each(|number| assert_eq!(ceiling(&set(number).unwrap()), known[number]));
    }

    /// The noise of two sealings of each set stays within the ceiling.
    #[test]
    fn noise_within_the_ceiling() {
        for s in (1..13).map(|number| set(number).unwrap()) {
            for seed in [[1; 32], [2; 32]] {
                let sizes = noise(&s, &seed, &[3; 32], &[0x5a; 32]).unwrap().into_iter().map(i64::unsigned_abs);
                assert!(sizes.max().unwrap() <= ceiling(&s));
            }
        }
    }

    /// Packing drops as much as the ceiling allows: a place of one of these sealings of set 2 has all its low bits 1.
    #[test]
    fn all_low_bits_dropped() {
        let s = set(2).unwrap();
        let public_key = key(&s, &[1; 32]).unwrap().0;
        let numbers = |seed| sealed_numbers(&s, &public_key, &[0x5a; 32], &[seed; 32]).unwrap().1;
        assert!((0..8).flat_map(numbers).any(|number| number % (1 << s.dropped_bits) == (1 << s.dropped_bits) - 1));
    }

    /// The sheets of an independent model: an input in hexadecimal, then the sheet, a blank line between two.
    #[test]
    fn known_sheets() {
        let text = include_str!("../vectors/sheets.txt");
        for known in text.trim_end().split("\n\n") {
            let lines: Vec<&str> = known.lines().filter(|line| !line.starts_with('#')).collect();
            assert_eq!(sheet(&bytes(lines[0])), lines[1..].join("\n") + "\n");
        }
    }
}
