//! The encryption scheme and the key exchange (003, algorithms 1 to 3, 29 to 33, worked as in 40 to 42).

use crate::arithmetic::{add_into, bit, pointwise, residue, Transform};
use crate::draws::{key_errors, refusal, residues_from, sealing_multipliers, Refusal, Source};
use crate::packing::{message_bits, message_bytes, pack, unpack};
use crate::parameters::Set;
use crate::sponge::shake256;

/// The public polynomials of a seed.
pub fn public_polynomials(s: &Set, seed: &[u8]) -> Result<Vec<Vec<u32>>, Refusal> {
    let mut source = Source::new(seed);
    (0..s.t).map(|_| residues_from(s, &mut source, s.n, s.public_block)).collect()
}

/// The secret vector as it is stored, and the source that drew it.
pub fn secret(s: &Set, seed: &[u8]) -> Result<(Vec<u32>, Source), Refusal> {
    let mut source = Source::new(seed);
    let stored = residues_from(s, &mut source, s.sizes[2], s.secret_block)?;
    Ok((stored, source))
}

/// The secret itself: a stored vector of the third size was sent with the inverse of the root.
pub fn secret_numbers(s: &Set, seed: &[u8]) -> Result<Vec<u32>, Refusal> {
    let (stored, _) = secret(s, seed)?;
    let mut numbers = Transform::new(s, 2, false).scaled(&stored);
    numbers.truncate(s.n + s.d + s.k - 1);
    Ok(numbers)
}

/// The first numbers of the correlation of x with a stored vector, over the transform of size number i.
fn correlate(s: &Set, forward: &Transform, x: &[u32], stored: &[u32], results: usize) -> Vec<u32> {
    let mut product = forward.scaled(&pointwise(s.q, &forward.forward(x), stored));
    product.truncate(results);
    product
}

/// A draw's refusal carries place 0 in the scheme.
fn unplaced<T>(drawn: Result<T, Refusal>) -> Result<T, Refusal> {
    drawn.or_else(|refused| refusal(refused.number, 0))
}

/// Public key and secret key of the encryption scheme.
pub fn key(s: &Set, seed: &[u8]) -> Result<(Vec<u8>, Vec<u8>), Refusal> {
    let mut source = Source::new(seed);
    let (secret_seed, public_seed) = (source.out(32), source.out(32));
    let (stored, mut source) = unplaced(secret(s, &secret_seed))?;
    let polynomials = unplaced(public_polynomials(s, &public_seed))?;
    let errors = key_errors(s, &mut source);
    let (third, first_inverse) = (Transform::new(s, 2, false), Transform::new(s, 0, true));
    let mut numbers = Vec::new();
    for (a, e) in polynomials.iter().zip(errors.chunks(s.d + s.k)) {
        let mut b = correlate(s, &third, a, &stored, s.d + s.k);
        let e: Vec<u32> = e.iter().map(|&z| residue(s.q, z)).collect();
        add_into(s.q, &mut b, &e);
        numbers.extend(first_inverse.forward(&b));
    }
    Ok(([public_seed, pack(&numbers, s.width())].concat(), secret_seed))
}

/// The stored b of a public key, polynomial after polynomial.
fn public_numbers(s: &Set, public_key: &[u8]) -> Vec<u32> {
    unpack(&public_key[32..], s.width(), s.sizes[0] * s.t)
}

/// c2 before packing, with the stored c1.
pub fn sealed_numbers(s: &Set, public_key: &[u8], message: &[u8], seed: &[u8]) -> Result<(Vec<u32>, Vec<u32>), Refusal> {
    let stored = public_numbers(s, public_key);
    if stored.iter().any(|&x| x as u64 >= s.q) {
        return refusal(3, 0);
    }
    let polynomials = unplaced(public_polynomials(s, &public_key[..32]))?;
    let multipliers: Vec<u32> = sealing_multipliers(s, seed).iter().map(|&z| residue(s.q, z)).collect();
    let (first, second) = (Transform::new(s, 0, false), Transform::new(s, 1, false));
    let mut c1 = vec![0; s.sizes[1]];
    let mut c2: Vec<u32> = message_bits(message).iter().map(|&bit| bit * s.half() as u32).collect();
    for (i, a) in polynomials.iter().enumerate() {
        let r = &multipliers[i * (s.k + 1)..(i + 1) * (s.k + 1)];
        add_into(s.q, &mut c1, &pointwise(s.q, &second.forward(r), &second.forward(a)));
        let b = &stored[i * s.sizes[0]..(i + 1) * s.sizes[0]];
        add_into(s.q, &mut c2, &correlate(s, &first, r, b, s.d));
    }
    Ok((c1, c2))
}

pub fn encrypt(s: &Set, public_key: &[u8], message: &[u8], seed: &[u8]) -> Result<Vec<u8>, Refusal> {
    let (c1, c2) = sealed_numbers(s, public_key, message, seed)?;
    let kept: Vec<u32> = c2.iter().map(|&x| x >> s.dropped_bits).collect();
    Ok([pack(&c1, s.width()), pack(&kept, s.width() - s.dropped_bits as usize)].concat())
}

/// The numbers that are rounded, from unpacked c1 and c2.
pub fn read_numbers(s: &Set, secret_seed: &[u8], c1: &[u32], c2: &[u32]) -> Result<Vec<u32>, Refusal> {
    let (stored, _) = unplaced(secret(s, secret_seed))?;
    let mut opened = Transform::new(s, 1, true).scaled(c1);
    opened.truncate(s.n + s.k);
    let product = correlate(s, &Transform::new(s, 2, false), &opened, &stored, s.d);
    Ok(c2.iter().zip(&product).map(|(&c, &x)| ((c as u64 + s.q - x as u64) % s.q) as u32).collect())
}

/// The numbers of a ciphertext: c1 as it is stored, c2 as recovered.
pub fn ciphertext_numbers(s: &Set, ciphertext: &[u8]) -> (Vec<u32>, Vec<u32>) {
    let end = (s.sizes[1] * s.width()).div_ceil(8);
    let c1 = unpack(&ciphertext[..end], s.width(), s.sizes[1]);
    let kept = unpack(&ciphertext[end..], s.width() - s.dropped_bits as usize, s.d);
    (c1, kept.iter().map(|&x| ((x as u64) << s.dropped_bits) % s.q).map(|x| x as u32).collect())
}

pub fn decrypt(s: &Set, secret_seed: &[u8], ciphertext: &[u8]) -> Result<Vec<u8>, Refusal> {
    let (c1, c2) = ciphertext_numbers(s, ciphertext);
    if c1.iter().any(|&x| x as u64 >= s.q) {
        return refusal(3, 0);
    }
    let read = read_numbers(s, secret_seed, &c1, &c2)?;
    Ok(message_bytes(&read.iter().map(|&w| bit(s, w)).collect::<Vec<u32>>()))
}

/// The hash of the message, or of the reject bytes, and the ciphertext.
fn shared(m: &[u8], ciphertext: &[u8]) -> Vec<u8> {
    let (mut inner, mut outer) = ([0; 64], [0; 32]);
    shake256(ciphertext, &mut inner);
    shake256(&[m, &inner].concat(), &mut outer);
    outer.to_vec()
}

/// The sealing seed and the check bytes of a message.
fn expand(m: &[u8]) -> ([u8; 32], [u8; 32]) {
    let mut out = [0; 64];
    shake256(m, &mut out);
    (out[..32].try_into().unwrap(), out[32..].try_into().unwrap())
}

pub fn exchange_key(s: &Set, seed: &[u8]) -> Result<(Vec<u8>, Vec<u8>), Refusal> {
    let bytes = Source::new(seed).out(64);
    let (public, _) = key(s, &bytes[..32])?;
    let secret = [seed, &public].concat();
    Ok((public, secret))
}

pub fn encapsulate(s: &Set, public_key: &[u8], message: &[u8]) -> Result<(Vec<u8>, Vec<u8>), Refusal> {
    let (seed, check) = expand(message);
    let ciphertext = [encrypt(s, public_key, message, &seed)?, check.to_vec()].concat();
    let ss = shared(message, &ciphertext);
    Ok((ciphertext, ss))
}

pub fn decapsulate(s: &Set, secret_key: &[u8], ciphertext: &[u8]) -> Result<Vec<u8>, Refusal> {
    let (seed, public_key) = secret_key.split_at(32);
    if public_numbers(s, public_key).iter().any(|&x| x as u64 >= s.q) {
        return refusal(3, 0);
    }
    let bytes = Source::new(seed).out(64);
    let secret_seed = Source::new(&bytes[..32]).out(32);
    let end = ciphertext.len() - 32;
    let (c1, c2) = ciphertext_numbers(s, &ciphertext[..end]);
    let c1: Vec<u32> = c1.iter().map(|&x| (x as u64 % s.q) as u32).collect();
    let read = read_numbers(s, &secret_seed, &c1, &c2)?;
    let message = message_bytes(&read.iter().map(|&w| bit(s, w)).collect::<Vec<u32>>());
    let (sealing_seed, check) = expand(&message);
    let again = [encrypt(s, public_key, &message, &sealing_seed)?, check.to_vec()].concat();
    Ok(shared(if again == ciphertext { &message } else { &bytes[32..] }, ciphertext))
}
