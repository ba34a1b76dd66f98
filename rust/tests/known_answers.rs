//! The comparison against the known answers of an independent model, vectors/titanium.txt.

use comparison::arithmetic::Transform;
use comparison::draws::{key_errors, sealing_multipliers};
use comparison::parameters::{set, Set};
use comparison::partial::{partial_inverse, partial_transform};
use comparison::scheme::{
    decapsulate, decrypt, encapsulate, encrypt, exchange_key, key, public_polynomials, sealed_numbers, secret, secret_numbers,
};
use comparison::sheet::noise;
use comparison::sponge::shake256;
use std::collections::HashMap;

type Answers = HashMap<&'static str, &'static str>;

/// The answers of each set in the file.
fn answers() -> Vec<(Set, Answers)> {
    let text = include_str!("../vectors/titanium.txt");
    let mut all: Vec<(Set, Answers)> = Vec::new();
    for line in text.lines().filter(|line| !line.starts_with('#')) {
        if let Some((word, value)) = line.split_once(' ') {
            if word == "set" {
                all.push((set(value.parse().unwrap()).unwrap(), HashMap::new()));
            } else {
                all.last_mut().unwrap().1.insert(word, value);
            }
        }
    }
    all
}

fn bytes(hex: &str) -> Vec<u8> {
    (0..hex.len() / 2).map(|i| u8::from_str_radix(&hex[2 * i..2 * i + 2], 16).unwrap()).collect()
}

fn hex(bytes: &[u8]) -> String {
    bytes.iter().map(|byte| format!("{byte:02x}")).collect()
}

fn digest(bytes: &[u8]) -> String {
    let mut out = [0; 32];
    shake256(bytes, &mut out);
    hex(&out)
}

/// As many of the numbers as the known answer has.
fn first<T: ToString>(numbers: &[T], known: &str) -> String {
    let count = known.split(' ').count();
    numbers[..count].iter().map(T::to_string).collect::<Vec<_>>().join(" ")
}

#[test]
fn encryption_sets() {
    for (s, known) in answers().iter().filter(|(s, _)| !s.is_exchange()) {
        let (public, secret) = key(s, &bytes(known["key_seed"])).unwrap();
        assert_eq!(hex(&secret), known["secret_key"]);
        assert_eq!(digest(&public), known["public_key_shake256"]);
        assert_eq!(hex(&public[..48]), known["public_key_first_48"]);
        let message = bytes(known["message"]);
        let ciphertext = encrypt(s, &public, &message, &bytes(known["sealing_seed"])).unwrap();
        assert_eq!(digest(&ciphertext), known["ciphertext_shake256"]);
        assert_eq!(hex(&ciphertext[ciphertext.len() - 16..]), known["ciphertext_last_16"]);
        assert_eq!(decrypt(s, &secret, &ciphertext).unwrap(), message);
    }
}

#[test]
fn numbers_of_the_key() {
    for (s, known) in answers().iter().filter(|(s, _)| !s.is_exchange()) {
        let seed = bytes(known["secret_key"]);
        let (stored, mut source) = secret(s, &seed).unwrap();
        let errors = key_errors(s, &mut source);
        let polynomials = public_polynomials(s, &bytes(&known["public_key_first_48"][..64])).unwrap();
        let same = |name: &str, numbers: String| assert_eq!(numbers, known[name], "set {} {name}", s.number);
        same("s_hat_first_8", first(&stored, known["s_hat_first_8"]));
        same("s_first_8", first(&secret_numbers(s, &seed).unwrap(), known["s_first_8"]));
        for i in 0..2 {
            let (a, e) = (format!("a_polynomial_{i}_first_4"), format!("e_polynomial_{i}_first_8"));
            same(&a, first(&polynomials[i], known[a.as_str()]));
            same(&e, first(&errors[i * (s.d + s.k)..], known[e.as_str()]));
        }
    }
}

#[test]
fn numbers_of_the_sealing() {
    for (s, known) in answers().iter().filter(|(s, _)| !s.is_exchange()) {
        let [key_seed, seed, message] = ["key_seed", "sealing_seed", "message"].map(|name| bytes(known[name]));
        let multipliers = sealing_multipliers(s, &seed);
        let (c1, c2) = sealed_numbers(s, &key(s, &key_seed).unwrap().0, &message, &seed).unwrap();
        let noise = noise(s, &key_seed, &seed, &message).unwrap();
        let same = |name: &str, numbers: String| assert_eq!(numbers, known[name], "set {} {name}", s.number);
        same("r_polynomial_0_first_8", first(&multipliers, known["r_polynomial_0_first_8"]));
        same("r_last_8", first(&multipliers[multipliers.len() - 8..], known["r_last_8"]));
        same("c1_first_4", first(&Transform::new(s, 1, true).scaled(&c1), known["c1_first_4"]));
        same("c2_before_packing_first_8", first(&c2, known["c2_before_packing_first_8"]));
        same("noise_first_8", first(&noise, known["noise_first_8"]));
        same("noise_largest_size", noise.iter().map(|z| z.abs()).max().unwrap().to_string());
    }
}

#[test]
fn exchange_sets() {
    for (s, known) in answers().iter().filter(|(s, _)| s.is_exchange()) {
        let (public, secret) = exchange_key(s, &bytes(known["key_seed"])).unwrap();
        assert_eq!(digest(&public), known["public_key_shake256"]);
        assert_eq!(digest(&secret), known["secret_key_shake256"]);
        let (mut ciphertext, shared) = encapsulate(s, &public, &bytes(known["message"])).unwrap();
        assert_eq!(digest(&ciphertext), known["ciphertext_shake256"]);
        assert_eq!(hex(&shared), known["shared_key"]);
        assert_eq!(decapsulate(s, &secret, &ciphertext).unwrap(), shared);
        ciphertext[0] ^= 1;
        let rejected = decapsulate(s, &secret, &ciphertext).unwrap();
        assert_eq!(hex(&rejected), known["reject_key_with_bit_0_of_byte_0_flipped"]);
    }
}

#[test]
fn every_set_reads_back_what_it_sealed() {
    for number in 1..=12 {
        let s = set(number).unwrap();
        let (seed, message): (Vec<u8>, Vec<u8>) = ((0..32).collect(), (100..132).collect());
        if s.is_exchange() {
            let (public, secret) = exchange_key(&s, &seed).unwrap();
            let (ciphertext, shared) = encapsulate(&s, &public, &message).unwrap();
            assert_eq!(public.len(), s.public_key_bytes());
            assert_eq!(secret.len(), s.secret_key_bytes());
            assert_eq!(ciphertext.len(), s.ciphertext_bytes());
            assert_eq!(decapsulate(&s, &secret, &ciphertext).unwrap(), shared);
        } else {
            let (public, secret) = key(&s, &seed).unwrap();
            let ciphertext = encrypt(&s, &public, &message, &seed).unwrap();
            assert_eq!(ciphertext.len(), s.ciphertext_bytes());
            assert_eq!(decrypt(&s, &secret, &ciphertext).unwrap(), message);
        }
    }
}

/// Both partial transforms of the rows of vectors/partial.txt.
#[test]
fn partial_transforms() {
    let size = 768;
    let s = set(2).unwrap();
    let input: Vec<u32> = (0..size as u64).map(|i| ((31 * i * i + 7 * i + 5) % s.q) as u32).collect();
    for line in include_str!("../vectors/partial.txt").lines().filter(|line| !line.starts_with('#')) {
        let words: Vec<&str> = line.split(' ').collect();
        let split = [1, 2, 3].map(|i| words[i].parse().unwrap());
        let made = if words[0] == "forward" {
            partial_transform(set(2), split, &input, size).unwrap()
        } else {
            let mut made = partial_inverse(set(2), split, &input, size).unwrap();
            made.resize(size, words[5].parse().unwrap());
            made
        };
        let bytes: Vec<u8> = made.iter().flat_map(|x| x.to_le_bytes()).collect();
        assert_eq!(digest(&bytes), *words.last().unwrap());
    }
}
