//! The comparison against the published samples of FIPS 202 and SP 800-185, vectors/sponge.txt.

use comparison::sponge::{kmac256, kmacxof256, shake256};
use std::collections::HashMap;

type Values = HashMap<&'static str, &'static str>;

/// The title and the values of each sample whose title begins with a word.
fn samples(word: &str) -> Vec<(&'static str, Values)> {
    let blocks = include_str!("../vectors/sponge.txt").split("\n\n").filter(|block| block.starts_with(word));
    blocks
        .map(|block| {
            let (title, values) = block.split_once('\n').unwrap();
            (title, values.lines().filter_map(|line| line.split_once(' ')).collect())
        })
        .collect()
}

fn bytes(hex: &str) -> Vec<u8> {
    (0..hex.len() / 2).map(|i| u8::from_str_radix(&hex[2 * i..2 * i + 2], 16).unwrap()).collect()
}

/// Samples 4, 5 and 6 of one function, all 64 bytes of each.
fn same_outputs(word: &str, function: fn(&[u8], &[u8], &[u8], &mut [u8])) {
    let samples = samples(word);
    assert_eq!(samples.len(), 3);
    for (title, known) in samples {
        let mut out = [0; 64];
        function(&bytes(known["key"]), &bytes(known["input"]), &bytes(known["customization"]), &mut out);
        assert_eq!(out.to_vec(), bytes(known["output"]), "{title}");
    }
}

#[test]
fn kmac256_samples_of_sp_800_185() {
    same_outputs("KMAC256 ", kmac256);
}

#[test]
fn kmacxof256_samples_of_sp_800_185() {
    same_outputs("KMACXOF256 ", kmacxof256);
}

#[test]
fn shake256_examples_of_fips_202() {
    let samples = samples("SHAKE256 ");
    for (message, (title, known)) in [&[][..], &[0xa3; 200]].into_iter().zip(&samples) {
        let mut out = [0; 512];
        shake256(message, &mut out);
        assert_eq!(out[..32], bytes(known["first_32"]), "{title}");
        assert_eq!(out[480..], bytes(known["last_32_of_512"]), "{title}");
    }
    assert_eq!(samples.len(), 2);
}
