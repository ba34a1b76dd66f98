//! The sponge functions, the draws over lent bytes, the middle product and the noise sheet.

use crate::lent::{same_answer, Lent};
use crate::random::Random;
use comparison::arithmetic::{middle_product_call, Lengths};
use comparison::draws::{self, refusal, Refusal};
use comparison::parameters::set;
use comparison::{sheet, sponge};

/// A length of a sponge's slice; seldom at the limit of 65,536 or above.
fn sponge_length(random: &mut Random) -> usize {
    match random.below(20) {
        0 => 65536,
        1 => 65537,
        _ => random.below(600),
    }
}

fn sponges(random: &mut Random) -> Vec<u8> {
    let [key, input, customization] = [0; 3].map(|_| {
        let length = sponge_length(random);
        random.bytes(length)
    });
    let length = sponge_length(random);
    let long = |slices: &[usize]| if slices.iter().any(|&n| n > 65536) { refusal(6, 0) } else { Ok(()) };
    let mut wanted = vec![0; length];
    let mut answers = Vec::new();
    let mut out = Lent::new(length, 7);
    let fits: Result<(), Refusal> = long(&[input.len(), length]);
    let given = titanium::shake256(&input, out.slice());
    sponge::shake256(&input, &mut wanted);
    out.expect(fits.as_ref().map(|_| wanted.as_slice()));
    answers.push(same_answer(given, &fits));
    let fits = long(&[key.len(), input.len(), customization.len(), length]);
    let mut out = Lent::new(length, 7);
    let given = titanium::kmac256(&key, &input, &customization, out.slice());
    sponge::kmac256(&key, &input, &customization, &mut wanted);
    out.expect(fits.as_ref().map(|_| wanted.as_slice()));
    answers.push(same_answer(given, &fits));
    let mut out = Lent::new(length, 7);
    let given = titanium::kmacxof256(&key, &input, &customization, out.slice());
    sponge::kmacxof256(&key, &input, &customization, &mut wanted);
    out.expect(fits.as_ref().map(|_| wanted.as_slice()));
    answers.push(same_answer(given, &fits));
    answers
}

fn residues(random: &mut Random) -> u8 {
    let (number, wanted) = (random.set(), random.wanted());
    let length = random.below(800) + if random.one_in(2) { 3 * wanted } else { 0 };
    let mut bytes = random.bytes(length);
    if random.one_in(3) && length > 500 {
        bytes[30..30 + 3 * (120 + random.below(12))].fill(255);
    }
    let mut out = Lent::new(wanted, 7);
    let given = titanium::draw_residues(number, &bytes, out.slice());
    let made = draws::residues(set(number), &bytes, wanted);
    out.expect(made.as_deref());
    same_answer(given, &made)
}

fn errors(random: &mut Random) -> u8 {
    let (number, wanted) = (random.set(), random.wanted());
    let length = if random.one_in(2) { random.length(wanted) } else { random.below(300) };
    let bytes = random.bytes(length);
    let mut out = Lent::new(wanted, 7);
    let given = titanium::draw_errors(number, &bytes, out.slice());
    let made = draws::errors(set(number), &bytes, wanted);
    out.expect(made.as_deref());
    same_answer(given, &made)
}

fn multipliers(random: &mut Random) -> u8 {
    let (number, length) = (random.set(), random.below(22000));
    let wanted = if random.one_in(8) { 0 } else { random.wanted() };
    let first = if random.one_in(8) { usize::MAX - random.below(2) } else { random.below(9000) };
    let bytes = random.bytes(length);
    let mut out = Lent::new(wanted, 7);
    let given = titanium::draw_multipliers(number, &bytes, first, out.slice());
    let made = draws::multipliers(set(number), &bytes, first, wanted);
    out.expect(made.as_deref());
    same_answer(given, &made)
}

fn middle_product(random: &mut Random) -> Vec<u8> {
    let number = random.set();
    let p = set(number.min(12)).unwrap();
    let a = if random.one_in(12) { 4095 + random.below(3) } else { random.below(p.sizes[2]) };
    let results = if random.one_in(4) { 1 } else { random.below(p.sizes[2] / 2) };
    let b = random.length((a + results).saturating_sub(1));
    let w = random.length(p.sizes[2]);
    let (a, b) = (random.residues(p.q, a), random.residues(p.q, b));
    let mut out = Lent::new(results, 7);
    let given = titanium::middle_product(number, &a, &b, out.slice());
    let made = middle_product_call(set(number), &a, &b, Lengths { results, work: None }).product;
    out.expect(made.as_deref());
    let plain = same_answer(given, &made);
    let (mut out, mut work) = (Lent::new(results, 7), Lent::new(w, 7));
    let given = titanium::transformed_middle_product(number, &a, &b, out.slice(), work.slice());
    let made = middle_product_call(set(number), &a, &b, Lengths { results, work: Some(w) });
    out.expect(made.product.as_deref());
    let zeros = vec![0; w];
    work.expect(if made.cleared { Ok(zeros.as_slice()) } else { Err(()) });
    vec![plain, same_answer(given, &made.product)]
}

/// An input of a sheet; seldom of a wrong length.
fn sheets(random: &mut Random) -> u8 {
    let number = random.below(8);
    let length = random.length(if number == 0 { 14 } else { 97 });
    let mut input = random.bytes(length);
    if number == 0 {
        input.iter_mut().for_each(|byte| *byte = [0, 1, 1, 2, 16, 255, 254][*byte as usize % 7]);
    }
    if length > 0 {
        input[0] = number as u8;
    }
    let given = titanium::noise_sheet(&input);
    assert_eq!(String::from_utf8(given).unwrap(), sheet::sheet(&input));
    0
}

pub fn round(random: &mut Random) -> Vec<u8> {
    let mut answers = vec![residues(random), errors(random), multipliers(random), sheets(random)];
    answers.extend(sponges(random));
    answers.extend(middle_product(random));
    answers
}
