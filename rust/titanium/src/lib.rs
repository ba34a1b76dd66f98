//! Titanium 1.1 over the proved library: the open calls on slices. Each call refuses exactly what include/titanium.h says, leaves every
//! output as it was when it refuses, and reads and writes nothing outside its slices.

mod raw;

/// Why a call was refused; the place where the paper names one. docs/REFUSALS.md says what to look at for each number.
#[derive(Clone, Copy, Debug, PartialEq, Eq)]
#[non_exhaustive]
pub enum Refused {
    /// 1: no such set.
    NoSuchSet,
    /// 2: a slice has not the set's length; in the encryption scheme and the key exchange that of a seed, a message, a key or a shared key; in the
    /// partial transform and its inverse a slice has not d1 · d2 numbers.
    WrongLength { place: u32 },
    /// 3: a number out of range.
    OutOfRange { place: u32 },
    /// 4: the lent bytes end.
    BytesEnd { place: u32 },
    /// 5: 128 candidates in a row were set aside.
    Exhausted { place: u32 },
    /// 6: a slice too long, empty, or of a length that does not fit.
    Unfit,
    /// 7: longer than the set's largest transform.
    TooLong,
    /// 8: a set of the other scheme.
    OtherScheme,
    /// 9: the ciphertext has not the set's length.
    CiphertextLength,
    /// 10: the work slice has not the set's length.
    WorkLength,
    /// 11: the rows that a partial transform reads, or its inverse writes, are none or more than there are.
    RowCount,
    /// 12: d1 · d2 is no transform size of the set.
    TransformSize,
    /// A number that this version does not know.
    Unknown { number: u8, place: u32 },
}

impl Refused {
    /// The number of the refusal.
    pub fn number(self) -> u8 {
        match self {
            Refused::NoSuchSet => 1,
            Refused::WrongLength { .. } => 2,
            Refused::OutOfRange { .. } => 3,
            Refused::BytesEnd { .. } => 4,
            Refused::Exhausted { .. } => 5,
            Refused::Unfit => 6,
            Refused::TooLong => 7,
            Refused::OtherScheme => 8,
            Refused::CiphertextLength => 9,
            Refused::WorkLength => 10,
            Refused::RowCount => 11,
            Refused::TransformSize => 12,
            Refused::Unknown { number, .. } => number,
        }
    }

    /// Its place, 0 where none is named.
    pub fn place(self) -> u32 {
        match self {
            Refused::WrongLength { place } | Refused::OutOfRange { place } | Refused::BytesEnd { place } => place,
            Refused::Exhausted { place } | Refused::Unknown { place, .. } => place,
            _ => 0,
        }
    }
}

impl std::fmt::Display for Refused {
    fn fmt(&self, f: &mut std::fmt::Formatter) -> std::fmt::Result {
        write!(f, "refused {} {}", self.number(), self.place())
    }
}

impl std::error::Error for Refused {}

/// An answer of the library: the number of a refusal plus 256 times its place, or 0.
fn answer(code: u64) -> Result<(), Refused> {
    let place = (code >> 8) as u32;
    match code & 0xff {
        0 => Ok(()),
        1 => Err(Refused::NoSuchSet),
        2 => Err(Refused::WrongLength { place }),
        3 => Err(Refused::OutOfRange { place }),
        4 => Err(Refused::BytesEnd { place }),
        5 => Err(Refused::Exhausted { place }),
        6 => Err(Refused::Unfit),
        7 => Err(Refused::TooLong),
        8 => Err(Refused::OtherScheme),
        9 => Err(Refused::CiphertextLength),
        10 => Err(Refused::WorkLength),
        11 => Err(Refused::RowCount),
        12 => Err(Refused::TransformSize),
        number => Err(Refused::Unknown { number: number as u8, place }),
    }
}

/// Bytes of a public key; 0 for a set above 12.
pub fn public_key_bytes(set: usize) -> usize {
    unsafe { raw::titanium_public_key_bytes(set) }
}

/// Bytes of a secret key.
pub fn secret_key_bytes(set: usize) -> usize {
    unsafe { raw::titanium_secret_key_bytes(set) }
}

/// Bytes of a ciphertext.
pub fn ciphertext_bytes(set: usize) -> usize {
    unsafe { raw::titanium_ciphertext_bytes(set) }
}

/// Numbers of the work slice.
pub fn work_numbers(set: usize) -> usize {
    unsafe { raw::titanium_work_numbers(set) }
}

/// The keys of a seed, key exchange.
pub fn keypair(set: usize, seed: &[u8], public_key: &mut [u8], secret_key: &mut [u8], work: &mut [u32]) -> Result<(), Refused> {
    answer(unsafe {
        raw::titanium_keypair(
            set,
            seed.as_ptr(),
            seed.len(),
            public_key.as_mut_ptr(),
            public_key.len(),
            secret_key.as_mut_ptr(),
            secret_key.len(),
            work.as_mut_ptr(),
            work.len(),
        )
    })
}

/// A ciphertext and a shared key from a public key and 32 random bytes, the message.
pub fn encapsulate(
    set: usize,
    public_key: &[u8],
    message: &[u8],
    ciphertext: &mut [u8],
    shared_key: &mut [u8],
    work: &mut [u32],
) -> Result<(), Refused> {
    answer(unsafe {
        raw::titanium_encapsulate(
            set,
            public_key.as_ptr(),
            public_key.len(),
            message.as_ptr(),
            message.len(),
            ciphertext.as_mut_ptr(),
            ciphertext.len(),
            shared_key.as_mut_ptr(),
            shared_key.len(),
            work.as_mut_ptr(),
            work.len(),
        )
    })
}

/// The shared key of a ciphertext; the standard's reject key for one that encapsulation did not make.
pub fn decapsulate(set: usize, secret_key: &[u8], ciphertext: &[u8], shared_key: &mut [u8], work: &mut [u32]) -> Result<(), Refused> {
    answer(unsafe {
        raw::titanium_decapsulate(
            set,
            secret_key.as_ptr(),
            secret_key.len(),
            ciphertext.as_ptr(),
            ciphertext.len(),
            shared_key.as_mut_ptr(),
            shared_key.len(),
            work.as_mut_ptr(),
            work.len(),
        )
    })
}

/// The keys of a seed, encryption scheme.
pub fn encryption_keypair(set: usize, seed: &[u8], public_key: &mut [u8], secret_key: &mut [u8], work: &mut [u32]) -> Result<(), Refused> {
    answer(unsafe {
        raw::titanium_encryption_keypair(
            set,
            seed.as_ptr(),
            seed.len(),
            public_key.as_mut_ptr(),
            public_key.len(),
            secret_key.as_mut_ptr(),
            secret_key.len(),
            work.as_mut_ptr(),
            work.len(),
        )
    })
}

/// The ciphertext of a message of 32 bytes under a public key and a sealing seed.
pub fn encrypt(set: usize, public_key: &[u8], message: &[u8], seed: &[u8], ciphertext: &mut [u8], work: &mut [u32]) -> Result<(), Refused> {
    answer(unsafe {
        raw::titanium_encrypt(
            set,
            public_key.as_ptr(),
            public_key.len(),
            message.as_ptr(),
            message.len(),
            seed.as_ptr(),
            seed.len(),
            ciphertext.as_mut_ptr(),
            ciphertext.len(),
            work.as_mut_ptr(),
            work.len(),
        )
    })
}

/// The message that a ciphertext is read as.
pub fn decrypt(set: usize, secret_key: &[u8], ciphertext: &[u8], message: &mut [u8], work: &mut [u32]) -> Result<(), Refused> {
    answer(unsafe {
        raw::titanium_decrypt(
            set,
            secret_key.as_ptr(),
            secret_key.len(),
            ciphertext.as_ptr(),
            ciphertext.len(),
            message.as_mut_ptr(),
            message.len(),
            work.as_mut_ptr(),
            work.len(),
        )
    })
}

/// Key, encrypt and decrypt in one call, encryption scheme: the self-test of a delivery. Compare the message read with the message.
#[allow(clippy::too_many_arguments)]
pub fn seal_and_read(
    set: usize,
    seed: &[u8],
    message: &[u8],
    sealing_seed: &[u8],
    public_key: &mut [u8],
    secret_key: &mut [u8],
    ciphertext: &mut [u8],
    message_read: &mut [u8],
    work: &mut [u32],
) -> Result<(), Refused> {
    answer(unsafe {
        raw::titanium_seal_and_read(
            set,
            seed.as_ptr(),
            seed.len(),
            message.as_ptr(),
            message.len(),
            sealing_seed.as_ptr(),
            sealing_seed.len(),
            public_key.as_mut_ptr(),
            public_key.len(),
            secret_key.as_mut_ptr(),
            secret_key.len(),
            ciphertext.as_mut_ptr(),
            ciphertext.len(),
            message_read.as_mut_ptr(),
            message_read.len(),
            work.as_mut_ptr(),
            work.len(),
        )
    })
}

/// Key, encapsulate and decapsulate in one call, key exchange: the self-test of a delivery. Compare the keys of both sides.
#[allow(clippy::too_many_arguments)]
pub fn share_a_key(
    set: usize,
    seed: &[u8],
    message: &[u8],
    public_key: &mut [u8],
    secret_key: &mut [u8],
    ciphertext: &mut [u8],
    sent_key: &mut [u8],
    received_key: &mut [u8],
    work: &mut [u32],
) -> Result<(), Refused> {
    answer(unsafe {
        raw::titanium_share_a_key(
            set,
            seed.as_ptr(),
            seed.len(),
            message.as_ptr(),
            message.len(),
            public_key.as_mut_ptr(),
            public_key.len(),
            secret_key.as_mut_ptr(),
            secret_key.len(),
            ciphertext.as_mut_ptr(),
            ciphertext.len(),
            sent_key.as_mut_ptr(),
            sent_key.len(),
            received_key.as_mut_ptr(),
            received_key.len(),
            work.as_mut_ptr(),
            work.len(),
        )
    })
}

/// SHAKE256 of FIPS 202.
pub fn shake256(input: &[u8], out: &mut [u8]) -> Result<(), Refused> {
    answer(unsafe { raw::titanium_shake256(input.as_ptr(), input.len(), out.as_mut_ptr(), out.len()) })
}

/// KMAC256 of SP 800-185.
pub fn kmac256(key: &[u8], input: &[u8], customization: &[u8], out: &mut [u8]) -> Result<(), Refused> {
    answer(unsafe {
        raw::titanium_kmac256(
            key.as_ptr(),
            key.len(),
            input.as_ptr(),
            input.len(),
            customization.as_ptr(),
            customization.len(),
            out.as_mut_ptr(),
            out.len(),
        )
    })
}

/// KMACXOF256 of SP 800-185.
pub fn kmacxof256(key: &[u8], input: &[u8], customization: &[u8], out: &mut [u8]) -> Result<(), Refused> {
    answer(unsafe {
        raw::titanium_kmacxof256(
            key.as_ptr(),
            key.len(),
            input.as_ptr(),
            input.len(),
            customization.as_ptr(),
            customization.len(),
            out.as_mut_ptr(),
            out.len(),
        )
    })
}

/// Uniform residues from lent bytes.
pub fn draw_residues(set: usize, bytes: &[u8], out: &mut [u32]) -> Result<(), Refused> {
    answer(unsafe { raw::titanium_draw_residues(set, bytes.as_ptr(), bytes.len(), out.as_mut_ptr(), out.len()) })
}

/// Errors from lent bytes.
pub fn draw_errors(set: usize, bytes: &[u8], out: &mut [i32]) -> Result<(), Refused> {
    answer(unsafe { raw::titanium_draw_errors(set, bytes.as_ptr(), bytes.len(), out.as_mut_ptr(), out.len()) })
}

/// Multipliers from lent bytes, from the position `first` of one sealing on.
pub fn draw_multipliers(set: usize, bytes: &[u8], first: usize, out: &mut [i32]) -> Result<(), Refused> {
    answer(unsafe { raw::titanium_draw_multipliers(set, bytes.as_ptr(), bytes.len(), first, out.as_mut_ptr(), out.len()) })
}

/// The middle product by its written-out sums.
pub fn middle_product(set: usize, a: &[u32], b: &[u32], out: &mut [u32]) -> Result<(), Refused> {
    answer(unsafe { raw::titanium_middle_product(set, a.as_ptr(), a.len(), b.as_ptr(), b.len(), out.as_mut_ptr(), out.len()) })
}

/// The middle product through the transforms.
pub fn transformed_middle_product(set: usize, a: &[u32], b: &[u32], out: &mut [u32], work: &mut [u32]) -> Result<(), Refused> {
    answer(unsafe {
        raw::titanium_transformed_middle_product(
            set,
            a.as_ptr(),
            a.len(),
            b.as_ptr(),
            b.len(),
            out.as_mut_ptr(),
            out.len(),
            work.as_mut_ptr(),
            work.len(),
        )
    })
}

/// The transform of the first `m` of `d1` rows of `d2` numbers, zeros counting for the others, with the set's root of the size d1 · d2: place d2 · r + c of
/// `output` has the value r + d1 · c. Refused with 1, 11 (`m` is 0 or above `d1`), 12 (d1 · d2 is no transform size of the set), 2, 3, in this order.
pub fn partial_transform(set: usize, d1: usize, d2: usize, m: usize, input: &[u32], output: &mut [u32]) -> Result<(), Refused> {
    answer(unsafe { raw::titanium_partial_transform(set, d1, d2, m, input.as_ptr(), input.len(), output.as_mut_ptr(), output.len()) })
}

/// The first `m` rows of what `input`, in the order of `partial_transform`, was made from; the rest of `output` keeps its numbers. Refused as that is.
pub fn partial_inverse(set: usize, d1: usize, d2: usize, m: usize, input: &[u32], output: &mut [u32]) -> Result<(), Refused> {
    answer(unsafe { raw::titanium_partial_inverse(set, d1, d2, m, input.as_ptr(), input.len(), output.as_mut_ptr(), output.len()) })
}

/// Key on numbers.
pub fn key_of_numbers(set: usize, a: &[u32], s: &[u32], e: &[i32], b: &mut [u32]) -> Result<(), Refused> {
    answer(unsafe {
        raw::titanium_key_of_numbers(
            set,
            a.as_ptr(),
            a.len(),
            s.as_ptr(),
            s.len(),
            e.as_ptr(),
            e.len(),
            b.as_mut_ptr(),
            b.len(),
        )
    })
}

/// Sealing on numbers.
pub fn sealing_of_numbers(
    set: usize,
    a: &[u32],
    b: &[u32],
    r: &[i32],
    message: &[u32],
    c1: &mut [u32],
    c2: &mut [u32],
) -> Result<(), Refused> {
    answer(unsafe {
        raw::titanium_sealing_of_numbers(
            set,
            a.as_ptr(),
            a.len(),
            b.as_ptr(),
            b.len(),
            r.as_ptr(),
            r.len(),
            message.as_ptr(),
            message.len(),
            c1.as_mut_ptr(),
            c1.len(),
            c2.as_mut_ptr(),
            c2.len(),
        )
    })
}

/// Reading on numbers.
pub fn reading_of_numbers(set: usize, c1: &[u32], c2: &[u32], s: &[u32], bits: &mut [u32]) -> Result<(), Refused> {
    answer(unsafe {
        raw::titanium_reading_of_numbers(
            set,
            c1.as_ptr(),
            c1.len(),
            c2.as_ptr(),
            c2.len(),
            s.as_ptr(),
            s.len(),
            bits.as_mut_ptr(),
            bits.len(),
        )
    })
}

/// The noise sheet of an input, or the line of its refusal.
pub fn noise_sheet(input: &[u8]) -> Vec<u8> {
    let (mut text, mut work) = (vec![0; 1024], vec![0; 22521]);
    let length = unsafe { raw::titanium_noise_sheet(input.as_ptr(), input.len(), text.as_mut_ptr(), text.len(), work.as_mut_ptr(), work.len()) };
    text.truncate(length);
    text
}

#[cfg(test)]
mod tests {
    use super::{answer, Refused};

    /// Every number keeps itself and its place, one that is not known too.
    #[test]
    fn numbers_and_places() {
        assert_eq!(answer(0), Ok(()));
        assert_eq!(answer(9), Err(Refused::CiphertextLength));
        assert_eq!(answer(10), Err(Refused::WorkLength));
        assert_eq!(answer(11), Err(Refused::RowCount));
        assert_eq!(answer(12), Err(Refused::TransformSize));
        assert_eq!(answer(13 + 256 * 5), Err(Refused::Unknown { number: 13, place: 5 }));
        for number in 1..=255 {
            assert_eq!(answer(number).unwrap_err().number() as u64, number);
        }
    }
}
