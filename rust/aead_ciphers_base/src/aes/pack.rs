// Written by tools/rust from crates/aead_ciphers_base/src/aes/pack.rt. Don't edit.
//! Packing four AES blocks into eight bit planes, and unpacking them.
//!
//! If the blocks are read as eight little-endian words, bit `b` of byte `8 * i + j` is bit `8 * j + b` of
//! word `i`. Two transpositions move it to bit `8 * i + j` of plane `b`.

use super::planes::Planes;
use super::{Block, ZERO_BLOCK};

/// The places whose binary digit `k` is zero, for each `k`.
pub const LOW: [u64; 6] = [
    0x5555_5555_5555_5555,
    0x3333_3333_3333_3333,
    0x0f0f_0f0f_0f0f_0f0f,
    0x00ff_00ff_00ff_00ff,
    0x0000_ffff_0000_ffff,
    0x0000_0000_ffff_ffff,
];

/// A delta swap: exchanges the bits of `a` at places whose digit `k` is one with the bits of `b` at places
/// whose digit `k` is zero.
// requires { k < 6 }
// ensures first { (q : ℕ) → q < 64
//     → bit_at result.0 q ≡ (if bit_at q k == 0 then bit_at a q else bit_at b (q - 2 ^ k)) }
// ensures second { (q : ℕ) → q < 64
//     → bit_at result.1 q ≡ (if bit_at q k == 0 then bit_at a (q + 2 ^ k) else bit_at b q) }
#[inline(always)]
fn delta_swap(a: u64, b: u64, k: usize) -> (u64, u64) {
    let shift = 1u32 << k;
    let delta = ((a >> shift) ^ b) & LOW[k];
    (a ^ (delta << shift), b ^ delta)
}

/// Exchanges digit `k` of each bit's place in its word with the highest digit of the word's index, and
/// then rotates the digits of the index: the highest becomes the lowest.
// requires { k < 6 }
// ensures { (n : ℕ) → n < 512 → word_bit result n ≡ word_bit words (exchanged_from k n) }
#[inline(always)]
fn exchange_digits(words: [u64; 8], k: usize) -> [u64; 8] {
    let [w0, w1, w2, w3, w4, w5, w6, w7] = words;
    let (r0, r1) = delta_swap(w0, w4, k);
    let (r2, r3) = delta_swap(w1, w5, k);
    let (r4, r5) = delta_swap(w2, w6, k);
    let (r6, r7) = delta_swap(w3, w7, k);
    [r0, r1, r2, r3, r4, r5, r6, r7]
}

/// Byte `j` of word `i` becomes byte `i` of word `j`.
// ensures { (n : ℕ) → n < 512
//     → word_bit result n ≡ word_bit words (n / 8 % 8 * 64 + n / 64 * 8 + n % 8) }
#[inline(always)]
fn transpose_bytes(words: [u64; 8]) -> [u64; 8] {
    exchange_digits(exchange_digits(exchange_digits(words, 5), 4), 3)
}

/// Bit `b` of each byte of word `i` becomes bit `i` of that byte of word `b`.
// ensures { (n : ℕ) → n < 512
//     → word_bit result n ≡ word_bit words (n % 8 * 64 + n / 8 % 8 * 8 + n / 64) }
#[inline(always)]
fn transpose_bits(words: [u64; 8]) -> [u64; 8] {
    exchange_digits(exchange_digits(exchange_digits(words, 2), 1), 0)
}

// ensures { to_le_bytes w64 result.0 ++ to_le_bytes w64 result.1 ≡ block }
#[inline(always)]
fn words_of(block: Block) -> (u64, u64) {
    let mut low = [0; 8];
    let mut high = [0; 8];
    low.copy_from_slice(&block[..8]);
    high.copy_from_slice(&block[8..]);
    (u64::from_le_bytes(low), u64::from_le_bytes(high))
}

// ensures { result ≡ to_le_bytes w64 low ++ to_le_bytes w64 high }
#[inline(always)]
fn block_of(low: u64, high: u64) -> Block {
    let mut block = ZERO_BLOCK;
    block[..8].copy_from_slice(&low.to_le_bytes());
    block[8..].copy_from_slice(&high.to_le_bytes());
    block
}

/// Packs four blocks into eight planes: bit `16 * block + byte` of plane `b` is bit `b` of that byte.
///
/// <details><summary>Contract</summary>
///
/// ```text
/// ensures { (p : ℕ) → p < 64
///     → plane_byte result p ≡ slice_index (slice_index_or blocks (p / 16) []) (p % 16) }
/// ```
///
/// Definitions: [`plane_byte`](crate::specs::planes#plane_byte).
///
/// </details>
#[inline(always)]
pub fn pack(blocks: [Block; 4]) -> Planes {
    let [first, second, third, fourth] = blocks;
    let (w0, w1) = words_of(first);
    let (w2, w3) = words_of(second);
    let (w4, w5) = words_of(third);
    let (w6, w7) = words_of(fourth);
    transpose_bits(transpose_bytes([w0, w1, w2, w3, w4, w5, w6, w7]))
}

/// Unpacks the four blocks that the planes hold.
///
/// <details><summary>Contract</summary>
///
/// ```text
/// ensures { (k : ℕ) → k < 4 → slice_index_or result k [] ≡ plane_block planes k }
/// ```
///
/// Definitions: [`plane_block`](crate::specs::planes#plane_block).
///
/// </details>
#[inline(always)]
pub fn unpack(planes: Planes) -> [Block; 4] {
    let [w0, w1, w2, w3, w4, w5, w6, w7] = transpose_bytes(transpose_bits(planes));
    [
        block_of(w0, w1),
        block_of(w2, w3),
        block_of(w4, w5),
        block_of(w6, w7),
    ]
}

/// The bits at every eighth place.
const EIGHTHS: u64 = 0x0101_0101_0101_0101;

/// Returns planes that hold the 8 bytes of a word in every eighth place.
///
/// <details><summary>Contract</summary>
///
/// ```text
/// ensures { (j : ℕ) → j < 8 → plane_byte result (8 * j) ≡ slice_index (to_le_bytes w64 word) j }
/// ```
///
/// Definitions: [`plane_byte`](crate::specs::planes#plane_byte).
///
/// </details>
#[inline(always)]
pub fn spread(word: u64) -> Planes {
    let mut planes = [0; 8];
    for b in 0..8 {
        planes[b] = word >> b;
    }
    planes
}

/// Returns the word of the 8 bytes that the planes hold in every eighth place.
///
/// <details><summary>Contract</summary>
///
/// ```text
/// ensures { (j : ℕ) → j < 8 → slice_index (to_le_bytes w64 result) j ≡ plane_byte planes (8 * j) }
/// ```
///
/// Definitions: [`plane_byte`](crate::specs::planes#plane_byte).
///
/// </details>
#[inline(always)]
pub fn gather(planes: Planes) -> u64 {
    let mut word = 0;
    for b in 0..8 {
        word ^= (planes[b] & EIGHTHS) << b;
    }
    word
}
