//! SHA-256, as FIPS 180-4 defines it. The text is padded to whole blocks of 64 bytes, and each
//! block changes a state of eight 32-bit words.
//!
//! The letters `a` to `h` are the words of a state, as in section 6.2 of the standard.

/// The number of bytes of a block.
const BLOCK: usize = 64;

/// The number of bytes at the end of the last block that hold the length of the text in bits.
const LENGTH: usize = 8;

/// The state before the first block: the first 32 bits of the fractional parts of the square roots
/// of the first eight primes.
const START: [u32; 8] = [
    0x6a09_e667,
    0xbb67_ae85,
    0x3c6e_f372,
    0xa54f_f53a,
    0x510e_527f,
    0x9b05_688c,
    0x1f83_d9ab,
    0x5be0_cd19,
];

/// The constants of the rounds: the first 32 bits of the fractional parts of the cube roots of the
/// first 64 primes.
#[rustfmt::skip]
const ROUNDS: [u32; 64] = [
    0x428a_2f98, 0x7137_4491, 0xb5c0_fbcf, 0xe9b5_dba5, 0x3956_c25b, 0x59f1_11f1, 0x923f_82a4, 0xab1c_5ed5,
    0xd807_aa98, 0x1283_5b01, 0x2431_85be, 0x550c_7dc3, 0x72be_5d74, 0x80de_b1fe, 0x9bdc_06a7, 0xc19b_f174,
    0xe49b_69c1, 0xefbe_4786, 0x0fc1_9dc6, 0x240c_a1cc, 0x2de9_2c6f, 0x4a74_84aa, 0x5cb0_a9dc, 0x76f9_88da,
    0x983e_5152, 0xa831_c66d, 0xb003_27c8, 0xbf59_7fc7, 0xc6e0_0bf3, 0xd5a7_9147, 0x06ca_6351, 0x1429_2967,
    0x27b7_0a85, 0x2e1b_2138, 0x4d2c_6dfc, 0x5338_0d13, 0x650a_7354, 0x766a_0abb, 0x81c2_c92e, 0x9272_2c85,
    0xa2bf_e8a1, 0xa81a_664b, 0xc24b_8b70, 0xc76c_51a3, 0xd192_e819, 0xd699_0624, 0xf40e_3585, 0x106a_a070,
    0x19a4_c116, 0x1e37_6c08, 0x2748_774c, 0x34b0_bcb5, 0x391c_0cb3, 0x4ed8_aa4a, 0x5b9c_ca4f, 0x682e_6ff3,
    0x748f_82ee, 0x78a5_636f, 0x84c8_7814, 0x8cc7_0208, 0x90be_fffa, 0xa450_6ceb, 0xbef9_a3f7, 0xc671_78f2,
];

/// Returns the SHA-256 of a text.
#[must_use]
pub fn digest(text: &[u8]) -> [u8; 32] {
    let whole = text.chunks_exact(BLOCK);
    let (end, length) = ending(whole.remainder(), text.len());
    let mut state = START;
    for block in whole.chain(end[..length].chunks_exact(BLOCK)) {
        state = after_block(state, block);
    }
    bytes_of(state)
}

/// Returns the padding after the whole blocks of a text: its `rest`, a 1 bit, 0 bits, and its
/// length in bits. It is one block or two; the number of their bytes is returned with them.
fn ending(rest: &[u8], length: usize) -> ([u8; 2 * BLOCK], usize) {
    let mut end = [0; 2 * BLOCK];
    end[..rest.len()].copy_from_slice(rest);
    end[rest.len()] = 0x80;
    let fits = rest.len() + 1 + LENGTH <= BLOCK;
    let size = if fits { BLOCK } else { 2 * BLOCK };
    let bits = (length as u64) << 3;
    end[size - LENGTH..size].copy_from_slice(&bits.to_be_bytes());
    (end, size)
}

/// Returns the state after a block.
fn after_block(state: [u32; 8], block: &[u8]) -> [u32; 8] {
    let mut mixed = state;
    for (word, constant) in schedule(block).into_iter().zip(ROUNDS) {
        mixed = round(mixed, word.wrapping_add(constant));
    }
    sums(state, mixed)
}

/// Returns the words of the rounds (the message schedule): the sixteen words of the block, and then
/// those derived from them.
fn schedule(block: &[u8]) -> [u32; 64] {
    let mut words = [0; 64];
    words[..16].copy_from_slice(&words_of(block));
    for place in 16..64 {
        let early = words[place - 15];
        let late = words[place - 2];
        words[place] = words[place - 16]
            .wrapping_add(early.rotate_right(7) ^ early.rotate_right(18) ^ (early >> 3))
            .wrapping_add(words[place - 7])
            .wrapping_add(late.rotate_right(17) ^ late.rotate_right(19) ^ (late >> 10));
    }
    words
}

/// Returns the words of a block, in big-endian order.
fn words_of(block: &[u8]) -> [u32; 16] {
    let mut words = [0; 16];
    for (word, bytes) in words.iter_mut().zip(block.chunks_exact(4)) {
        *word = u32::from_be_bytes([bytes[0], bytes[1], bytes[2], bytes[3]]);
    }
    words
}

/// Returns the state after one round. `added` is the sum of the round's word and its constant.
#[allow(clippy::many_single_char_names)]
fn round([a, b, c, d, e, f, g, h]: [u32; 8], added: u32) -> [u32; 8] {
    let choice = (e & f) ^ (!e & g);
    let majority = (a & b) ^ (a & c) ^ (b & c);
    let first = h
        .wrapping_add(e.rotate_right(6) ^ e.rotate_right(11) ^ e.rotate_right(25))
        .wrapping_add(choice)
        .wrapping_add(added);
    let second =
        (a.rotate_right(2) ^ a.rotate_right(13) ^ a.rotate_right(22)).wrapping_add(majority);
    let (new_a, new_e) = (first.wrapping_add(second), d.wrapping_add(first));
    [new_a, a, b, c, new_e, e, f, g]
}

/// Adds the words of two states.
fn sums(mut state: [u32; 8], other: [u32; 8]) -> [u32; 8] {
    for (word, added) in state.iter_mut().zip(other) {
        *word = word.wrapping_add(added);
    }
    state
}

/// Returns the bytes of a state, in big-endian order.
fn bytes_of(state: [u32; 8]) -> [u8; 32] {
    let mut bytes = [0; 32];
    for (place, word) in bytes.chunks_exact_mut(4).zip(state) {
        place.copy_from_slice(&word.to_be_bytes());
    }
    bytes
}

#[cfg(test)]
mod tests {
    use super::{ending, LENGTH};

    /// A text of any length ends with its length in bits, which may be 2^32 or more.
    #[test]
    fn lengths() {
        for power in 6..usize::BITS.min(61) {
            for rest in [0, 55, 56, 63] {
                let length = (1 << power) + rest;
                let (end, size) = ending(&[7; 63][..rest], length);
                let bits = 8 * u64::try_from(length).expect("at most 64 bits");
                assert_eq!(end[size - LENGTH..size], bits.to_be_bytes(), "{length}");
            }
        }
    }
}
