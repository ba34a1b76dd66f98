//! The partial transform and its inverse.

use crate::lent::{same_answer, Lent};
use crate::random::Random;
use comparison::parameters::set;
use comparison::partial as other;

/// D1, D2 and m of a size: now and then m is 0 or one more than D1, D2 one more than fits, or both far above every size, with a product that wraps.
fn split(random: &mut Random, size: usize) -> [usize; 3] {
    let divisors: Vec<usize> = (1..=size).filter(|d1| size % d1 == 0).collect();
    let d1 = divisors[random.below(divisors.len())];
    let m = random.below(d1 + 2);
    match random.below(12) {
        0 => [d1, size / d1 + 1, m],
        1 => [(1 << 63) + size / 2, 2, 1],
        _ => [d1, size / d1, m],
    }
}

/// One of the two calls.
pub fn round(random: &mut Random) -> Vec<u8> {
    let number = random.set();
    let s = set(number).filter(|s| s.number > 0).or(set(1)).unwrap();
    let size = s.sizes[random.below(3)];
    let [d1, d2, m] = split(random, size);
    let (n, places) = (random.length(size), random.length(size));
    let input = random.residues(s.q, n);
    let mut out = Lent::new(places, 7);
    let is_inverse = random.one_in(2);
    let call = if is_inverse { titanium::partial_inverse } else { titanium::partial_transform };
    let make = if is_inverse { other::partial_inverse } else { other::partial_transform };
    let given = call(number, d1, d2, m, &input, out.slice());
    let mut made = make(set(number), [d1, d2, m], &input, places);
    if let Ok(rows) = &mut made {
        rows.resize(places, 7);
    }
    out.expect(made.as_deref());
    vec![same_answer(given, &made)]
}
