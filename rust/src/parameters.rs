//! The parameter sets, typed in from 003 row by row: tables 2.1 to 2.5 for Titanium-CPA and 2.6 to 2.10 for Titanium-CCA.
//! The columns are Toy64, Lite96, Std128, Med160, Hi192, Super256.

/// The numbers of one set.
#[derive(Clone, Copy, Debug, PartialEq)]
pub struct Set {
    pub number: usize,
    pub q: u64,
    pub n: usize,
    pub k: usize,
    pub d: usize,
    pub t: usize,
    pub dropped_bits: u32,
    /// The three transform sizes and the root of unity of each.
    pub sizes: [usize; 3],
    pub roots: [u64; 3],
    /// Errors are a difference of two counts of this many bits.
    pub eta: u32,
    /// Multipliers have sizes up to 2^b: b1 for the first `first_bound`, b2 for the others.
    pub b1: u32,
    pub b2: u32,
    pub first_bound: usize,
    /// Bytes of one block of a uniform draw, for the secret and for a public polynomial.
    pub secret_block: usize,
    pub public_block: usize,
    /// Candidates of this or more are set aside.
    pub threshold: u64,
}

/// The rows of one family's tables.
struct Family {
    n: [usize; 6],
    k: [usize; 6],
    t: [usize; 6],
    q: [u64; 6],
    cmp: [u32; 6],
    d1: [usize; 6],
    d2: [usize; 6],
    d3: [usize; 6],
    w1: [u64; 6],
    w2: [u64; 6],
    w3: [u64; 6],
    b1: [u32; 6],
    b2: [u32; 6],
    ndec1: [usize; 6],
    bytpcs: [usize; 6],
    bytpca: [usize; 6],
    zq_rej: [u64; 6],
}

const CPA: Family = Family {
    n: [684, 800, 1024, 1280, 1536, 2048],
    k: [255, 479, 511, 511, 767, 1023],
    t: [10, 8, 9, 9, 7, 7],
    q: [240641, 84481, 86017, 301057, 737281, 1198081],
    cmp: [10, 9, 9, 11, 12, 13],
    d1: [512, 768, 768, 768, 1024, 1280],
    d2: [1024, 1280, 1536, 1792, 2304, 3072],
    d3: [1280, 1536, 1792, 2048, 2560, 3328],
    w1: [56644, 32904, 71157, 146766, 1691, 1061167],
    w2: [238, 68911, 30077, 168263, 5454, 186516],
    w3: [35772, 5170, 35007, 174, 332395, 1169874],
    b1: [7, 5, 5, 7, 8, 8],
    b2: [8, 6, 6, 8, 9, 9],
    ndec1: [1488, 1496, 2568, 3816, 3384, 3848],
    bytpcs: [4044, 4764, 5469, 6579, 8571, 10158],
    bytpca: [2205, 2523, 3153, 4191, 5280, 6300],
    zq_rej: [16604229, 16727238, 16773315, 16558135, 16220182, 16773134],
};

const CCA: Family = Family {
    n: [684, 800, 1024, 1280, 1536, 2048],
    k: [255, 479, 511, 511, 767, 1023],
    t: [10, 9, 10, 10, 8, 8],
    q: [471041, 115201, 118273, 430081, 783361, 1198081],
    cmp: [11, 9, 9, 11, 12, 13],
    d1: [512, 768, 768, 768, 1024, 1280],
    d2: [1024, 1280, 1536, 1792, 2304, 3072],
    d3: [1280, 1536, 1792, 2048, 2560, 3328],
    w1: [69169, 13192, 4136, 15791, 874, 1061167],
    w2: [263, 4959, 75894, 235435, 596706, 186516],
    w3: [327393, 5516, 9282, 92, 13502, 1169874],
    b1: [7, 5, 4, 6, 7, 7],
    b2: [8, 6, 5, 7, 8, 8],
    ndec1: [328, 4168, 208, 2248, 4704, 5904],
    bytpcs: [4110, 4788, 5634, 6255, 8334, 10158],
    bytpca: [2250, 2541, 3276, 3942, 5115, 6300],
    zq_rej: [16486435, 16704145, 16676493, 16773159, 16450581, 16773134],
};

/// Set 0, Bench: small enough to work by hand.
const BENCH: Set = Set {
    number: 0,
    q: 17,
    n: 2,
    k: 1,
    d: 2,
    t: 1,
    dropped_bits: 0,
    sizes: [4, 4, 4],
    roots: [4, 4, 4],
    eta: 1,
    b1: 1,
    b2: 1,
    first_bound: 2,
    secret_block: 0,
    public_block: 0,
    threshold: 16777215,
};

/// The numbers of a set from 0 to 12, or none.
pub fn set(number: usize) -> Option<Set> {
    let (family, i) = match number {
        0 => return Some(BENCH),
        1..=6 => (&CPA, number - 1),
        7..=12 => (&CCA, number - 7),
        _ => return None,
    };
    Some(Set {
        number,
        q: family.q[i],
        n: family.n[i],
        k: family.k[i],
        d: 256,
        t: family.t[i],
        dropped_bits: family.cmp[i],
        sizes: [family.d1[i], family.d2[i], family.d3[i]],
        roots: [family.w1[i], family.w2[i], family.w3[i]],
        eta: 4,
        b1: family.b1[i],
        b2: family.b2[i],
        first_bound: family.ndec1[i],
        secret_block: family.bytpcs[i],
        public_block: family.bytpca[i],
        threshold: family.zq_rej[i],
    })
}

impl Set {
    /// The half modulus.
    pub fn half(&self) -> u64 {
        self.q / 2
    }

    /// How many multipliers one sealing draws.
    pub fn multipliers(&self) -> usize {
        self.t * (self.k + 1)
    }

    /// The bits of a packed number.
    pub fn width(&self) -> usize {
        (64 - self.q.leading_zeros()) as usize
    }

    /// The bytes that the size of one multiplier is drawn from.
    pub fn multiplier_bytes(&self) -> usize {
        (self.b1.max(self.b2) as usize).div_ceil(8)
    }

    /// Whether the set is the key exchange's.
    pub fn is_exchange(&self) -> bool {
        (7..=12).contains(&self.number)
    }

    pub fn public_key_bytes(&self) -> usize {
        32 + (self.sizes[0] * self.t * self.width()).div_ceil(8)
    }

    pub fn secret_key_bytes(&self) -> usize {
        32 + if self.is_exchange() { self.public_key_bytes() } else { 0 }
    }

    pub fn ciphertext_bytes(&self) -> usize {
        let c1 = (self.sizes[1] * self.width()).div_ceil(8);
        let c2 = (self.d * (self.width() - self.dropped_bits as usize)).div_ceil(8);
        c1 + c2 + if self.is_exchange() { 32 } else { 0 }
    }
}

/// The powers 1, w, w², .. of a root modulo q, one for each place of a transform of the given size.
pub fn powers(q: u64, w: u64, size: usize) -> Vec<u64> {
    let mut table = Vec::with_capacity(size);
    let mut power = 1;
    for _ in 0..size {
        table.push(power);
        power = power * w % q;
    }
    table
}

#[cfg(test)]
mod tests {
    use super::*;

    fn sets() -> impl Iterator<Item = Set> {
        (0..13).map(|number| set(number).unwrap())
    }

    #[test]
    fn moduli_are_odd_primes_below_two_to_the_24() {
        for s in sets() {
            assert!(s.q % 2 == 1 && s.q < 1 << 24);
            assert!((2..).take_while(|a| a * a <= s.q).all(|a| s.q % a != 0), "set {}", s.number);
        }
    }

    #[test]
    fn half_moduli_of_the_byte_sets_are_even() {
        assert!(sets().skip(1).all(|s| s.half() % 2 == 0));
    }

    #[test]
    fn roots_have_the_order_of_their_size() {
        for s in sets() {
            for (&size, &w) in s.sizes.iter().zip(&s.roots) {
                let table = powers(s.q, w, size);
                assert_eq!(table[size - 1] * w % s.q, 1, "set {} size {size}", s.number);
                assert!(table[1..].iter().all(|&power| power != 1), "set {} size {size}", s.number);
            }
        }
    }

    #[test]
    fn sizes_hold_what_they_must() {
        for s in sets() {
            assert!(s.sizes[0] >= s.d + s.k);
            assert!(s.sizes[1] >= s.n + s.k);
            assert!(s.sizes[2] >= s.n + s.d + s.k - 1);
            assert!(s.number == 0 || s.sizes.iter().all(|size| size % 256 == 0));
        }
    }

    #[test]
    fn thresholds_are_the_largest_multiples_below_two_to_the_24() {
        for s in sets() {
            assert_eq!(s.threshold, (1 << 24) - (1 << 24) % s.q);
        }
    }

    #[test]
    fn multiplier_counts_are_those_of_tables_2_4_and_2_9() {
        let counts: Vec<usize> = sets().skip(1).map(|s| s.multipliers()).collect();
        assert_eq!(counts, [2560, 3840, 4608, 4608, 5376, 7168, 2560, 4320, 5120, 5120, 6144, 8192]);
    }

    #[test]
    fn byte_lengths_are_those_of_tables_3_1_and_3_2() {
        let lengths: Vec<[usize; 3]> =
            sets().skip(1).map(|s| [s.public_key_bytes(), s.secret_key_bytes(), s.ciphertext_bytes()]).collect();
        assert_eq!(
            lengths,
            [
                [11552, 32, 2560],
                [13088, 32, 2976],
                [14720, 32, 3520],
                [16448, 32, 4512],
                [17952, 32, 6016],
                [23552, 32, 8320],
                [12192, 12224, 2720],
                [14720, 14752, 3008],
                [16352, 16384, 3552],
                [18272, 18304, 4544],
                [20512, 20544, 6048],
                [26912, 26944, 8352],
            ]
        );
    }

    #[test]
    fn one_byte_is_kept_of_each_number_of_c2() {
        assert!(sets().skip(1).all(|s| s.width() - s.dropped_bits as usize == 8));
    }
}
