// Written by tools/rust from crates/aead_ciphers_base/src/aes/plane.rt. Don't edit.
//! The trait `Plane`, of words that have one bit of each byte of some blocks.

use core::ops::{BitAnd, BitXor};

/// A word that has one bit of each byte of some blocks.
///
/// <details><summary>Ghost items</summary>
///
/// ```text
/// // The number with these bits.
/// ghost number: { Self → ℕ };
/// // The number of bits.
/// ghost width: { ℕ };
/// // The bit of byte `j` of block `k` is at place `place k j`.
/// ghost place: { ℕ → ℕ → ℕ };
/// // The places of the blocks are within the word.
/// ghost place_within: { (k j : ℕ) → k < width / 16 → j < 16 → place k j < width };
/// // Any two words can be added and multiplied, bit by bit.
/// ghost can_xor: { (a b : Self) → Self.can_bitxor a b };
/// ghost can_and: { (a b : Self) → Self.can_bitand a b };
/// ghost xor_is: { (a b c : Self) → Self.bitxor_gives a b c
///     → number c ≡ bit_xor (number a) (number b) };
/// ghost and_is: { (a b c : Self) → Self.bitand_gives a b c
///     → number c ≡ bit_and (number a) (number b) };
/// ```
///
/// </details>
pub trait Plane: Copy + BitXor<Self, Output = Self> + BitAnd<Self, Output = Self> {
    /// Returns the word all of whose bits are one.
    ///
    /// <details><summary>Contract</summary>
    ///
    /// ```text
    /// ensures { (p : ℕ) → p < width → bit_at (number result) p ≡ 1 }
    /// ```
    ///
    /// </details>
    fn ones() -> Self;

    /// Shifts the rows of each block (FIPS 197 section 5.1.2).
    ///
    /// <details><summary>Contract</summary>
    ///
    /// ```text
    /// ensures { Moves place (width / 16) shifted_from (number self) (number result) }
    /// ```
    ///
    /// Definitions: [`Moves`](crate::specs::planes#Moves), [`shifted_from`](crate::specs::planes#shifted_from).
    ///
    /// </details>
    fn rows_shifted(self) -> Self;

    /// Moves the bit of each row up by one row, cyclically.
    ///
    /// <details><summary>Contract</summary>
    ///
    /// ```text
    /// ensures { Moves place (width / 16) (below 1) (number self) (number result) }
    /// ```
    ///
    /// Definitions: [`Moves`](crate::specs::planes#Moves), [`below`](crate::specs::planes#below).
    ///
    /// </details>
    fn one_below(self) -> Self;

    /// Moves the bit of each row up by two rows, cyclically.
    ///
    /// <details><summary>Contract</summary>
    ///
    /// ```text
    /// ensures { Moves place (width / 16) (below 2) (number self) (number result) }
    /// ```
    ///
    /// Definitions: [`Moves`](crate::specs::planes#Moves), [`below`](crate::specs::planes#below).
    ///
    /// </details>
    fn two_below(self) -> Self;
}

/// <details><summary>Ghost items</summary>
///
/// ```text
/// ghost number = { λ n. n };
/// ghost width = { 64 };
/// ghost place = { place_of_four };
/// ```
///
/// Definitions: [`place_of_four`](crate::specs::planes#place_of_four).
///
/// </details>
impl Plane for u64 {
    #[inline(always)]
    fn ones() -> u64 {
        u64::MAX
    }

    /// Shifts rows 2 and 3 by two columns of four bits, with a delta swap, and then rows 1 and 3 by one.
    #[inline(always)]
    fn rows_shifted(self) -> u64 {
        let delta = ((self >> 8) ^ self) & 0x00cc_00cc_00cc_00cc;
        let by_two = self ^ delta ^ (delta << 8);
        (by_two & 0x5555_5555_5555_5555)
            ^ (((by_two >> 4) & 0x0aaa_0aaa_0aaa_0aaa) ^ ((by_two << 12) & 0xa000_a000_a000_a000))
    }

    #[inline(always)]
    fn one_below(self) -> u64 {
        ((self >> 1) & 0x7777_7777_7777_7777) ^ ((self << 3) & 0x8888_8888_8888_8888)
    }

    #[inline(always)]
    fn two_below(self) -> u64 {
        ((self >> 2) & 0x3333_3333_3333_3333) ^ ((self << 2) & 0xcccc_cccc_cccc_cccc)
    }
}
