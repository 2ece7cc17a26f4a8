// Written by tools/rust from crates/aead_ciphers_base/src/aes/key_schedule.rt. Don't edit.
//! The AES key schedule (FIPS 197 section 5.2), with SubWord computed on planes.

use super::ZERO_BLOCK;
use super::pack::{gather, pack, spread};
use super::planes::{Planes, sub_planes};

/// The first byte of each round constant Rcon.
const ROUND_CONSTANTS: [u8; 10] = [0x01, 0x02, 0x04, 0x08, 0x10, 0x20, 0x40, 0x80, 0x1b, 0x36];

// ensures { result ≡ a ⊕ b }
#[inline(always)]
fn add_words(a: [u8; 4], b: [u8; 4]) -> [u8; 4] {
    [a[0] ^ b[0], a[1] ^ b[1], a[2] ^ b[2], a[3] ^ b[3]]
}

// ensures { result ≡ rot_word a }
#[inline(always)]
fn rot_word(a: [u8; 4]) -> [u8; 4] {
    [a[1], a[2], a[3], a[0]]
}

/// Applies the S-box to each byte of a word, on planes that hold these bytes in every eighth of their 64 places.
// ensures { result ≡ sub_word a }
#[inline(always)]
fn sub_word(a: [u8; 4]) -> [u8; 4] {
    let mut planes = spread(u64::from(u32::from_le_bytes(a)));
    sub_planes(&mut planes);
    let [b0, b1, b2, b3, _, _, _, _] = gather(planes).to_le_bytes();
    [b0, b1, b2, b3]
}

// requires { n < 10 }
// ensures { result ≡ power_of_x n }
#[inline(always)]
fn round_constant(n: usize) -> u8 {
    ROUND_CONSTANTS[n]
}

// requires positive { 0 < nk }
// requires from { nk ≤ i }
// requires below { i < 11 * nk }
// requires within { i ≤ length words.now }
// ensures { result ≡ next_word nk words.now i }
#[inline(always)]
fn next_word(words: &[[u8; 4]], i: usize, nk: usize) -> [u8; 4] {
    let last = words[i - 1];
    let turned = if i % nk == 0 {
        add_words(
            sub_word(rot_word(last)),
            [round_constant(i / nk - 1), 0, 0, 0],
        )
    } else if nk > 6 && i % nk == 4 {
        sub_word(last)
    } else {
        last
    };
    add_words(words[i - nk], turned)
}

/// Expands a key of 16 or 32 bytes (FIPS 197 section 5.2). The first 44 or 60 words of the result are its key schedule.
///
/// <details><summary>Contract</summary>
///
/// ```text
/// requires { (length key.now ≡ 16) ⊎ (length key.now ≡ 32) }
/// ensures { let nk = length key.now / 4 in
///     take (4 * (nk + 7)) result ≡ key_words nk key.now (4 * (nk + 7) - nk) }
/// ```
///
/// Definitions: [`key_words`](crate::specs::aes#key_words).
///
/// </details>
#[inline(always)]
pub fn expand(key: &[u8]) -> [[u8; 4]; 60] {
    let nk = key.len() / 4;
    let mut words = [[0; 4]; 60];
    for i in 0..nk {
        words[i] = [key[4 * i], key[4 * i + 1], key[4 * i + 2], key[4 * i + 3]];
    }
    for n in nk..4 * (nk + 7) {
        words[n] = next_word(&words, n, nk);
    }
    words
}

/// Packs a round key into each of the four blocks.
// requires { 4 * round + 4 ≤ length words.now }
// ensures { (p : ℕ) → p < 64
//     → plane_byte result p ≡ slice_index (word_at words.now (4 * round + p % 16 / 4)) (p % 4) }
#[inline(always)]
fn pack_round_key(words: &[[u8; 4]], round: usize) -> Planes {
    let mut block = ZERO_BLOCK;
    for k in 0..16 {
        block[k] = words[4 * round + k / 4][k % 4];
    }
    pack([block, block, block, block])
}

/// Writes the round keys that consist of `words`, four words each.
///
/// <details><summary>Contract</summary>
///
/// ```text
/// requires { length words.now ≤ 60 }
/// ensures { HoldsWords planes.new words.now (length words.now / 4) }
/// ```
///
/// Definitions: [`HoldsWords`](crate::specs::key_schedule#HoldsWords).
///
/// </details>
#[inline(always)]
pub fn write_round_keys(planes: &mut [Planes; 15], words: &[[u8; 4]]) {
    for j in 0..words.len() / 4 {
        planes[j] = pack_round_key(words, j);
    }
}
