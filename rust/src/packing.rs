//! Numbers packed into bytes without gaps, least significant bit first (003, algorithms 17 to 22), and the bits of a message.

pub fn pack(numbers: &[u32], width: usize) -> Vec<u8> {
    let mut bytes = vec![0; (numbers.len() * width).div_ceil(8)];
    let (mut held, mut bits, mut at) = (0u64, 0, 0);
    for &number in numbers {
        held |= (number as u64) << bits;
        bits += width;
        while bits >= 8 {
            bytes[at] = held as u8;
            at += 1;
            held >>= 8;
            bits -= 8;
        }
    }
    if bits > 0 {
        bytes[at] = held as u8;
    }
    bytes
}

pub fn unpack(bytes: &[u8], width: usize, count: usize) -> Vec<u32> {
    let mut numbers = Vec::with_capacity(count);
    let (mut held, mut bits, mut at) = (0u64, 0, 0);
    for _ in 0..count {
        while bits < width {
            held |= (bytes[at] as u64) << bits;
            at += 1;
            bits += 8;
        }
        numbers.push((held & ((1 << width) - 1)) as u32);
        held >>= width;
        bits -= width;
    }
    numbers
}

pub fn message_bits(message: &[u8]) -> Vec<u32> {
    (0..8 * message.len()).map(|j| (message[j / 8] >> (j % 8) & 1) as u32).collect()
}

pub fn message_bytes(bits: &[u32]) -> Vec<u8> {
    bits.chunks(8).map(|byte| byte.iter().enumerate().fold(0, |value, (j, &bit)| value | (bit as u8) << j)).collect()
}
