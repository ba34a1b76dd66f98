//! The encryption scheme and the key exchange.

use crate::lent::{same_answer, Lent};
use crate::random::Random;
use comparison::draws::{refusal, Refusal};
use comparison::parameters::{set, Set};
use comparison::scheme as other;
use std::ops::RangeInclusive;
use titanium::{ciphertext_bytes, public_key_bytes, secret_key_bytes, work_numbers};

/// What a wrong length is refused with: that of a seed, message, key or shared key, that of a ciphertext, that of a work slice; looked at in this order.
const SLICE: u8 = 2;
const CIPHERTEXT: u8 = 9;
const WORK: u8 = 10;

/// The set, where it is one of the scheme's own and every length is right; `lengths` has for each slice its refusal, the length given and the right one.
fn checked(own: RangeInclusive<usize>, number: usize, lengths: &[(u8, usize, usize)]) -> Result<Set, Refusal> {
    let Some(s) = set(number).filter(|_| number > 0) else {
        return refusal(1, 0);
    };
    if !own.contains(&number) {
        return refusal(8, 0);
    }
    let wrong = |refusal: &u8| lengths.iter().any(|&(with, given, right)| with == *refusal && given != right);
    [SLICE, CIPHERTEXT, WORK].into_iter().find(wrong).map_or(Ok(s), |number| refusal(number, 0))
}

/// The lengths of a set that exists.
fn lengths(number: usize) -> [usize; 4] {
    let number = number.clamp(1, 12);
    [public_key_bytes(number), secret_key_bytes(number), ciphertext_bytes(number), work_numbers(number)]
}

/// The work slice must be all zero once the checks of set and lengths passed.
fn expect_work(work: &Lent<u32>, length: usize, checked: &Result<Set, Refusal>) {
    work.expect(checked.as_ref().map(|_| vec![0; length]).as_ref().map(|zeros| zeros.as_slice()));
}

/// Seldom changes a bit, puts three bytes of ones, a number above every modulus, or puts q or the number before it at a place; seldom makes the bytes
/// one more, one less, or none.
fn damage(random: &mut Random, bytes: &mut Vec<u8>, first: usize, q: u64) {
    if bytes.len() > first + 3 {
        let place = random.below(bytes.len() - 2);
        match random.below(12) {
            0 | 1 => bytes[place] ^= 1 << random.below(8),
            2 => bytes[place..place + 3].fill(255),
            3 => bytes[first..first + 3].copy_from_slice(&q.to_le_bytes()[..3]),
            4 => bytes[first..first + 3].copy_from_slice(&(q - 1).to_le_bytes()[..3]),
            _ => (),
        }
    }
    let length = random.length(bytes.len());
    bytes.resize(length, 0);
}

fn key(random: &mut Random, number: usize, own: RangeInclusive<usize>) -> (u8, Vec<u8>, Vec<u8>) {
    let right = lengths(number);
    let seed_length = random.length(32);
    let seed = random.bytes(seed_length);
    let [pk, sk, w] = [right[0], right[1], right[3]].map(|right| random.length(right));
    let (mut public, mut secret, mut work) = (Lent::new(pk, 7), Lent::new(sk, 7), Lent::new(w, 7));
    let exchange = own.contains(&12);
    let call = if exchange { titanium::keypair } else { titanium::encryption_keypair };
    let given = call(number, &seed, public.slice(), secret.slice(), work.slice());
    let passed = checked(own, number, &[(SLICE, seed.len(), 32), (SLICE, pk, right[0]), (SLICE, sk, right[1]), (WORK, w, right[3])]);
    let made = passed.as_ref().map_err(|&r| r).and_then(|s| if exchange { other::exchange_key(s, &seed) } else { other::key(s, &seed) });
    public.expect(made.as_ref().map(|keys| keys.0.as_slice()));
    secret.expect(made.as_ref().map(|keys| keys.1.as_slice()));
    expect_work(&work, w, &passed);
    let answer = same_answer(given, &made);
    let (public, secret) = made.unwrap_or_else(|_| (random.bytes(right[0]), random.bytes(right[1])));
    (answer, public, secret)
}

fn encrypt(random: &mut Random, number: usize, public: &[u8]) -> (u8, Vec<u8>) {
    let right = lengths(number);
    let (message_length, seed_length) = (random.length(32), random.length(32));
    let (message, seed) = (random.bytes(message_length), random.bytes(seed_length));
    let [ct, w] = [right[2], right[3]].map(|right| random.length(right));
    let (mut sealed, mut work) = (Lent::new(ct, 7), Lent::new(w, 7));
    let given = titanium::encrypt(number, public, &message, &seed, sealed.slice(), work.slice());
    let slices = [(SLICE, public.len(), right[0]), (SLICE, message.len(), 32), (SLICE, seed.len(), 32)];
    let passed = checked(1..=6, number, &[&slices[..], &[(CIPHERTEXT, ct, right[2]), (WORK, w, right[3])]].concat());
    let made = passed.as_ref().map_err(|&r| r).and_then(|s| other::encrypt(s, public, &message, &seed));
    sealed.expect(made.as_ref().map(|bytes| bytes.as_slice()));
    expect_work(&work, w, &passed);
    (same_answer(given, &made), made.unwrap_or_else(|_| random.bytes(right[2])))
}

fn encapsulate(random: &mut Random, number: usize, public: &[u8]) -> (u8, Vec<u8>) {
    let right = lengths(number);
    let message_length = random.length(32);
    let message = random.bytes(message_length);
    let [ct, ss, w] = [right[2], 32, right[3]].map(|right| random.length(right));
    let (mut sealed, mut shared, mut work) = (Lent::new(ct, 7), Lent::new(ss, 7), Lent::new(w, 7));
    let given = titanium::encapsulate(number, public, &message, sealed.slice(), shared.slice(), work.slice());
    let slices = [(SLICE, public.len(), right[0]), (SLICE, message.len(), 32), (SLICE, ss, 32)];
    let passed = checked(7..=12, number, &[&slices[..], &[(CIPHERTEXT, ct, right[2]), (WORK, w, right[3])]].concat());
    let made = passed.as_ref().map_err(|&r| r).and_then(|s| other::encapsulate(s, public, &message));
    sealed.expect(made.as_ref().map(|pair| pair.0.as_slice()));
    shared.expect(made.as_ref().map(|pair| pair.1.as_slice()));
    expect_work(&work, w, &passed);
    (same_answer(given, &made), made.map_or_else(|_| random.bytes(right[2]), |pair| pair.0))
}

fn open(random: &mut Random, number: usize, own: RangeInclusive<usize>, secret: &[u8], sealed: &[u8]) -> u8 {
    let right = lengths(number);
    let [out, w] = [32, right[3]].map(|right| random.length(right));
    let (mut given_bytes, mut work) = (Lent::new(out, 7), Lent::new(w, 7));
    let exchange = own.contains(&12);
    let call = if exchange { titanium::decapsulate } else { titanium::decrypt };
    let given = call(number, secret, sealed, given_bytes.slice(), work.slice());
    let passed = checked(own, number, &[(SLICE, secret.len(), right[1]), (CIPHERTEXT, sealed.len(), right[2]), (SLICE, out, 32), (WORK, w, right[3])]);
    let model = if exchange { other::decapsulate } else { other::decrypt };
    let made = passed.as_ref().map_err(|&r| r).and_then(|s| model(s, secret, sealed));
    given_bytes.expect(made.as_ref().map(|bytes| bytes.as_slice()));
    expect_work(&work, w, &passed);
    same_answer(given, &made)
}

/// Key, encrypt and decrypt in one call.
fn seal_and_read(random: &mut Random, number: usize) -> u8 {
    let right = lengths(number);
    let [seed, message, sealing] = [32; 3].map(|right| {
        let length = random.length(right);
        random.bytes(length)
    });
    let [pk, sk, ct, out, w] = [right[0], right[1], right[2], 32, right[3]].map(|right| random.length(right));
    let (mut public, mut secret, mut sealed) = (Lent::new(pk, 7), Lent::new(sk, 7), Lent::new(ct, 7));
    let (mut read, mut work) = (Lent::new(out, 7), Lent::new(w, 7));
    let given = titanium::seal_and_read(
        number,
        &seed,
        &message,
        &sealing,
        public.slice(),
        secret.slice(),
        sealed.slice(),
        read.slice(),
        work.slice(),
    );
    let inputs = [(SLICE, seed.len(), 32), (SLICE, message.len(), 32), (SLICE, sealing.len(), 32)];
    let outputs = [(SLICE, pk, right[0]), (SLICE, sk, right[1]), (CIPHERTEXT, ct, right[2]), (SLICE, out, 32), (WORK, w, right[3])];
    let passed = checked(1..=6, number, &[&inputs[..], &outputs[..]].concat());
    let made = passed.as_ref().map_err(|&r| r).and_then(|s| {
        let (public, secret) = other::key(s, &seed)?;
        let sealed = other::encrypt(s, &public, &message, &sealing)?;
        let read = other::decrypt(s, &secret, &sealed)?;
        Ok([public, secret, sealed, read])
    });
    for (i, lent) in [&public, &secret, &sealed, &read].into_iter().enumerate() {
        lent.expect(made.as_ref().map(|all| all[i].as_slice()));
    }
    expect_work(&work, w, &passed);
    same_answer(given, &made)
}

/// Key, encapsulate and decapsulate in one call.
fn share_a_key(random: &mut Random, number: usize) -> u8 {
    let right = lengths(number);
    let [seed, message] = [32; 2].map(|right| {
        let length = random.length(right);
        random.bytes(length)
    });
    let [pk, sk, ct, one, two, w] = [right[0], right[1], right[2], 32, 32, right[3]].map(|right| random.length(right));
    let (mut public, mut secret, mut sealed) = (Lent::new(pk, 7), Lent::new(sk, 7), Lent::new(ct, 7));
    let (mut sent, mut received, mut work) = (Lent::new(one, 7), Lent::new(two, 7), Lent::new(w, 7));
    let given = titanium::share_a_key(
        number,
        &seed,
        &message,
        public.slice(),
        secret.slice(),
        sealed.slice(),
        sent.slice(),
        received.slice(),
        work.slice(),
    );
    let inputs = [(SLICE, seed.len(), 32), (SLICE, message.len(), 32), (SLICE, one, 32), (SLICE, two, 32)];
    let outputs = [(SLICE, pk, right[0]), (SLICE, sk, right[1]), (CIPHERTEXT, ct, right[2]), (WORK, w, right[3])];
    let passed = checked(7..=12, number, &[&inputs[..], &outputs[..]].concat());
    let made = passed.as_ref().map_err(|&r| r).and_then(|s| {
        let (public, secret) = other::exchange_key(s, &seed)?;
        let (sealed, sent) = other::encapsulate(s, &public, &message)?;
        let received = other::decapsulate(s, &secret, &sealed)?;
        Ok([public, secret, sealed, sent, received])
    });
    for (i, lent) in [&public, &secret, &sealed, &sent, &received].into_iter().enumerate() {
        lent.expect(made.as_ref().map(|all| all[i].as_slice()));
    }
    expect_work(&work, w, &passed);
    same_answer(given, &made)
}

/// Key, sealing and reading of one scheme, each with what the call before made, seldom damaged; then all three in one call.
pub fn round(random: &mut Random) -> Vec<u8> {
    let number = random.set();
    let own = if random.one_in(8) == (number > 6) { 1..=6 } else { 7..=12 };
    let q = set(number.min(12)).unwrap().q;
    let (first, mut public, mut secret) = key(random, number, own.clone());
    damage(random, &mut public, 32, q);
    let (second, mut sealed) = if own.contains(&12) { encapsulate(random, number, &public) } else { encrypt(random, number, &public) };
    damage(random, &mut sealed, 0, q);
    damage(random, &mut secret, 64, q);
    let whole = if own.contains(&12) { share_a_key(random, number) } else { seal_and_read(random, number) };
    vec![first, second, open(random, number, own, &secret, &sealed), whole]
}
