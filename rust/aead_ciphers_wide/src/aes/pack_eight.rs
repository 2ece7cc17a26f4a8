// Written by tools/rust from crates/aead_ciphers_wide/src/aes/pack_eight.rt. Don't edit.
//! Packing eight blocks into eight planes of 128 bits, and unpacking them.
//!
//! Word `i` has the bytes of block `i`. Bit `b` of its byte `j` moves to bit `i` of byte `j` of plane `b`.

use super::transpose::transpose_bits;
use crate::word::Word;
use aead_ciphers_base::aes::Block;

/// Packs the eight blocks of the bytes of eight words into eight planes: bit `8 * byte + block` of plane `b` is bit `b` of that
/// byte.
///
/// <details><summary>Contract</summary>
///
/// ```text
/// ensures { (k : ℕ) → k < 8 → wide_block result k ≡ to_le_bytes w128 (slice_index words k) }
/// ```
///
/// Definitions: [`wide_block`](crate::specs::wide_planes#wide_block).
///
/// </details>
#[inline(always)]
pub fn pack_eight<V: simd::Level>(words: [Word<V>; 8]) -> [Word<V>; 8] {
    transpose_bits(words)
}

/// Unpacks the eight blocks that the planes hold.
///
/// <details><summary>Contract</summary>
///
/// ```text
/// ensures { (k : ℕ) → k < 8 → slice_index_or result k [] ≡ wide_block planes k }
/// ```
///
/// Definitions: [`wide_block`](crate::specs::wide_planes#wide_block).
///
/// </details>
#[inline(always)]
pub fn unpack_eight<V: simd::Level>(planes: [Word<V>; 8]) -> [Block; 8] {
    let [w0, w1, w2, w3, w4, w5, w6, w7] = transpose_bits(planes);
    [
        w0.to_block(),
        w1.to_block(),
        w2.to_block(),
        w3.to_block(),
        w4.to_block(),
        w5.to_block(),
        w6.to_block(),
        w7.to_block(),
    ]
}
