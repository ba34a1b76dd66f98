//! Keccak-f[1600], SHAKE256 (FIPS 202) and KMAC256, KMACXOF256 (SP 800-185), written from the two standards.

/// The bytes of one block: the rate of a capacity of 512 bits.
pub const RATE: usize = 136;

/// The round constants by the linear feedback shift register of FIPS 202, algorithm 5.
const fn round_constants() -> [u64; 24] {
    let mut constants = [0u64; 24];
    let mut register: u8 = 1;
    let mut round = 0;
    while round < 24 {
        let mut j = 0;
        while j < 7 {
            if register & 1 == 1 {
                constants[round] |= 1 << ((1 << j) - 1);
            }
            register = if register & 0x80 != 0 { (register << 1) ^ 0x71 } else { register << 1 };
            j += 1;
        }
        round += 1;
    }
    constants
}

const ROUND_CONSTANTS: [u64; 24] = round_constants();

/// The rotation offset of lane x + 5y, by the walk of FIPS 202, algorithm 2.
const fn offsets() -> [u32; 25] {
    let mut table = [0; 25];
    let (mut x, mut y, mut t) = (1, 0, 0u32);
    while t < 24 {
        table[x + 5 * y] = ((t + 1) * (t + 2) / 2) % 64;
        (x, y) = (y, (2 * x + 3 * y) % 5);
        t += 1;
    }
    table
}

const OFFSETS: [u32; 25] = offsets();

/// The permutation, on 25 lanes, lane x + 5y.
pub fn keccak_f(a: &mut [u64; 25]) {
    for constant in ROUND_CONSTANTS {
        let mut c = [0; 5];
        for x in 0..5 {
            c[x] = a[x] ^ a[x + 5] ^ a[x + 10] ^ a[x + 15] ^ a[x + 20];
        }
        for x in 0..5 {
            let d = c[(x + 4) % 5] ^ c[(x + 1) % 5].rotate_left(1);
            for y in 0..5 {
                a[x + 5 * y] ^= d;
            }
        }
        let mut b = [0; 25];
        for y in 0..5 {
            for x in 0..5 {
                b[y + 5 * ((2 * x + 3 * y) % 5)] = a[x + 5 * y].rotate_left(OFFSETS[x + 5 * y]);
            }
        }
        for y in 0..5 {
            for x in 0..5 {
                a[x + 5 * y] = b[x + 5 * y] ^ (!b[(x + 1) % 5 + 5 * y] & b[(x + 2) % 5 + 5 * y]);
            }
        }
        a[0] ^= constant;
    }
}

/// A sponge of rate 136 that absorbs bytes and is then squeezed.
struct Sponge {
    lanes: [u64; 25],
    filled: usize,
}

impl Sponge {
    fn new() -> Self {
        Sponge { lanes: [0; 25], filled: 0 }
    }

    fn put(&mut self, at: usize, byte: u8) {
        self.lanes[at / 8] ^= (byte as u64) << (8 * (at % 8));
    }

    fn absorb(&mut self, bytes: &[u8]) {
        for &byte in bytes {
            self.put(self.filled, byte);
            self.filled += 1;
            if self.filled == RATE {
                keccak_f(&mut self.lanes);
                self.filled = 0;
            }
        }
    }

    /// Pads with the domain's suffix and the final bit, then fills the output.
    fn squeeze(mut self, suffix: u8, out: &mut [u8]) {
        self.put(self.filled, suffix);
        self.put(RATE - 1, 0x80);
        for block in out.chunks_mut(RATE) {
            keccak_f(&mut self.lanes);
            for (i, byte) in block.iter_mut().enumerate() {
                *byte = (self.lanes[i / 8] >> (8 * (i % 8))) as u8;
            }
        }
    }
}

pub fn shake256(input: &[u8], out: &mut [u8]) {
    let mut sponge = Sponge::new();
    sponge.absorb(input);
    sponge.squeeze(0x1f, out);
}

/// The bytes of a number, most significant first, with no zero in front (one zero for 0).
fn number(x: u64) -> Vec<u8> {
    let bytes = x.to_be_bytes();
    let zeros = (x.leading_zeros() / 8).min(7) as usize;
    bytes[zeros..].to_vec()
}

fn left_encode(x: u64) -> Vec<u8> {
    let digits = number(x);
    [vec![digits.len() as u8], digits].concat()
}

fn right_encode(x: u64) -> Vec<u8> {
    let digits = number(x);
    let length = digits.len() as u8;
    [digits, vec![length]].concat()
}

fn encode_string(s: &[u8]) -> Vec<u8> {
    [left_encode(8 * s.len() as u64), s.to_vec()].concat()
}

fn bytepad(x: Vec<u8>) -> Vec<u8> {
    let mut padded = [left_encode(RATE as u64), x].concat();
    padded.resize(padded.len().div_ceil(RATE) * RATE, 0);
    padded
}

/// KMAC256 with the bits of the output's length, or 0 for the extendable output, at its end.
fn kmac(key: &[u8], input: &[u8], customization: &[u8], bits: u64, out: &mut [u8]) {
    let mut sponge = Sponge::new();
    sponge.absorb(&bytepad([encode_string(b"KMAC"), encode_string(customization)].concat()));
    sponge.absorb(&bytepad(encode_string(key)));
    sponge.absorb(input);
    sponge.absorb(&right_encode(bits));
    sponge.squeeze(0x04, out);
}

pub fn kmac256(key: &[u8], input: &[u8], customization: &[u8], out: &mut [u8]) {
    kmac(key, input, customization, 8 * out.len() as u64, out);
}

pub fn kmacxof256(key: &[u8], input: &[u8], customization: &[u8], out: &mut [u8]) {
    kmac(key, input, customization, 0, out);
}
