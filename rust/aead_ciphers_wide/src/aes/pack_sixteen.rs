// Written by tools/rust from crates/aead_ciphers_wide/src/aes/pack_sixteen.rt. Don't edit.
//! Packing sixteen blocks into eight planes of 256 bits, and unpacking them.
//!
//! Word `i` has the bytes of blocks `2 * i` and `2 * i + 1`. Bit `b` of its byte `j` moves to bit `i` of byte `j` of plane `b`.

use super::transpose::transpose_bits;
use crate::word::WiderWord;
use aead_ciphers_base::aes::Block;

/// Packs the sixteen blocks of the bytes of the halves of eight words into eight planes, whose bit
/// `128 * (block % 2) + 8 * byte + block / 2` is a bit of that byte.
///
/// <details><summary>Contract</summary>
///
/// ```text
/// ensures { (k : ℕ) → k < 16
///     → wider_block result k ≡ to_le_bytes w128 (half_of (k % 2) (slice_index words (k / 2))) }
/// ```
///
/// Definitions: [`wider_block`](crate::specs::wide_planes#wider_block), [`half_of`](crate::specs::word#half_of).
///
/// </details>
#[inline(always)]
pub fn pack_sixteen<V: simd::Level>(words: [WiderWord<V>; 8]) -> [WiderWord<V>; 8] {
    transpose_bits(words)
}

/// The blocks of the bytes of the two halves of a word.
// ensures low { result.0 ≡ to_le_bytes w128 (half_of 0 word) }
// ensures high { result.1 ≡ to_le_bytes w128 (half_of 1 word) }
#[inline(always)]
fn blocks_of_halves<V: simd::Level>(word: WiderWord<V>) -> (Block, Block) {
    let (low, high) = word.halves();
    (low.to_block(), high.to_block())
}

/// Unpacks the sixteen blocks that the planes hold.
///
/// <details><summary>Contract</summary>
///
/// ```text
/// ensures { (k : ℕ) → k < 16 → slice_index_or result k [] ≡ wider_block planes k }
/// ```
///
/// Definitions: [`wider_block`](crate::specs::wide_planes#wider_block).
///
/// </details>
#[inline(always)]
pub fn unpack_sixteen<V: simd::Level>(planes: [WiderWord<V>; 8]) -> [Block; 16] {
    let [w0, w1, w2, w3, w4, w5, w6, w7] = transpose_bits(planes);
    let (b0, b1) = blocks_of_halves(w0);
    let (b2, b3) = blocks_of_halves(w1);
    let (b4, b5) = blocks_of_halves(w2);
    let (b6, b7) = blocks_of_halves(w3);
    let (b8, b9) = blocks_of_halves(w4);
    let (b10, b11) = blocks_of_halves(w5);
    let (b12, b13) = blocks_of_halves(w6);
    let (b14, b15) = blocks_of_halves(w7);
    [
        b0, b1, b2, b3, b4, b5, b6, b7, b8, b9, b10, b11, b12, b13, b14, b15,
    ]
}
