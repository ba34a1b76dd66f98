//! Two sides agree on a key: the lock makes its keys, the office encapsulates, the lock decapsulates; then a damaged ciphertext.

use titanium::{ciphertext_bytes, decapsulate, encapsulate, keypair, public_key_bytes, secret_key_bytes, work_numbers, Refused};

fn main() -> Result<(), Refused> {
    let set = 9;
    // Fixed bytes, so that the example prints the same each time; take them from the system's random source.
    let (seed, message) = ([1; 32], [2; 32]);
    let (mut public_key, mut secret_key) = (vec![0; public_key_bytes(set)], vec![0; secret_key_bytes(set)]);
    let (mut ciphertext, mut work) = (vec![0; ciphertext_bytes(set)], vec![0; work_numbers(set)]);
    let (mut office, mut lock) = ([0; 32], [0; 32]);

    keypair(set, &seed, &mut public_key, &mut secret_key, &mut work)?;
    encapsulate(set, &public_key, &message, &mut ciphertext, &mut office, &mut work)?;
    decapsulate(set, &secret_key, &ciphertext, &mut lock, &mut work)?;
    println!("one key: {}", if office == lock { "yes" } else { "no" });

    ciphertext[0] ^= 1;
    decapsulate(set, &secret_key, &ciphertext, &mut lock, &mut work)?;
    println!("after damage: {}", if office == lock { "the same key" } else { "the reject key" });

    // Which length was off: 2 for a key, 9 for the ciphertext, 10 for the work slice.
    let short = encapsulate(set, &public_key[1..], &message, &mut ciphertext, &mut office, &mut work);
    println!("a public key one byte short: {}", short.unwrap_err());
    let short = decapsulate(set, &secret_key, &ciphertext[1..], &mut lock, &mut work);
    println!("a ciphertext one byte short: {}", short.unwrap_err());
    let short = decapsulate(set, &secret_key, &ciphertext, &mut lock, &mut work[1..]);
    println!("a work slice one number short: {}", short.unwrap_err());
    Ok(())
}
