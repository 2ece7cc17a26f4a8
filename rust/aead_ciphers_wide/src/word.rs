// Written by tools/rust from crates/aead_ciphers_wide/src/word.rt. Don't edit.
//! `Word`, a number of 128 bits in a vector: a plane of eight AES blocks, or a block of GHASH.

use crate::lanes::Lanes;
use crate::permute::look_up;
use aead_ciphers_base::aes::{Block, Plane};
use core::ops::{BitAnd, BitXor};
use simd::{u8x16, u64x2};

mod wider;

pub use wider::WiderWord;

/// A number of 128 bits.
///
/// <details><summary>Model</summary>
///
/// ```text
/// ghost Value = { ℕ };
/// ghost view = { λ word. number_l (2 ^ 64) word.lanes };
/// ghost invariant = { λ word. (length word.lanes ≡ 2) × Each1 (λ x. x < 2 ^ 64) word.lanes };
/// ```
///
/// </details>
#[derive(Clone, Copy)]
pub struct Word<V: simd::Level> {
    lanes: u64x2<V>,
}

impl<V: simd::Level> Word<V> {
    /// Returns the number with these lanes, the least significant first.
    ///
    /// <details><summary>Contract</summary>
    ///
    /// ```text
    /// ensures { result ≡ high * 2 ^ 64 + low }
    /// ```
    ///
    /// </details>
    #[inline(always)]
    pub fn new(low: u64, high: u64) -> Self {
        Word {
            lanes: u64x2::<V>::from_array([low, high]),
        }
    }

    /// Returns the two lanes, the least significant first.
    ///
    /// <details><summary>Contract</summary>
    ///
    /// ```text
    /// ensures { self ≡ result.1 * 2 ^ 64 + result.0 }
    /// ```
    ///
    /// </details>
    #[inline(always)]
    pub fn lanes(self) -> (u64, u64) {
        let [low, high] = self.lanes.to_array();
        (low, high)
    }

    /// Returns the block of the bytes, the least significant first.
    ///
    /// <details><summary>Contract</summary>
    ///
    /// ```text
    /// ensures { result ≡ to_le_bytes w128 self }
    /// ```
    ///
    /// </details>
    #[inline(always)]
    pub fn to_block(self) -> Block {
        self.bytes().to_array()
    }

    /// Returns the number with these bytes, the least significant first.
    ///
    /// <details><summary>Contract</summary>
    ///
    /// ```text
    /// ensures { to_le_bytes w128 result ≡ bytes }
    /// ```
    ///
    /// </details>
    #[inline(always)]
    pub fn from_bytes(bytes: u8x16<V>) -> Self {
        Word {
            lanes: u64x2::<V>::from_le_bytes(bytes),
        }
    }

    /// Returns the bytes, the least significant first.
    ///
    /// <details><summary>Contract</summary>
    ///
    /// ```text
    /// ensures { result ≡ to_le_bytes w128 self }
    /// ```
    ///
    /// </details>
    #[inline(always)]
    pub fn bytes(self) -> u8x16<V> {
        self.lanes.to_le_bytes()
    }

    /// Returns the number whose byte `i` is 255 if bit `bit` of digit `i` is one, and 0 if it is zero. The digits are in base 16.
    ///
    /// <details><summary>Contract</summary>
    ///
    /// ```text
    /// requires bit { bit < 4 }
    /// requires digits { (i : ℕ) → i < 16 → slice_index digits i < 16 }
    /// ensures { (p : ℕ) → p < 128 → bit_at result p ≡ bit_at (slice_index digits (p / 8)) bit }
    /// ```
    ///
    /// </details>
    #[inline(always)]
    pub fn filled(digits: u8x16<V>, bit: usize) -> Self {
        Word::<V>::from_bytes(look_up(FILLED[bit], digits))
    }
}

/// A table of 16 bytes for each bit of a digit in base 16, the lowest bit first. The byte of a digit is 255 if the digit has
/// this bit, and 0 if it doesn't.
///
/// A look-up in such a table is faster than a comparison of each byte with the bit, for which LLVM takes a comparison of signed
/// bytes: that took 1.4 times as many instructions on x86-64-v2, and equally many on x86-64-v3 and ARM64.
const FILLED: [[u8; 16]; 4] = [
    [
        0, 255, 0, 255, 0, 255, 0, 255, 0, 255, 0, 255, 0, 255, 0, 255,
    ],
    [
        0, 0, 255, 255, 0, 0, 255, 255, 0, 0, 255, 255, 0, 0, 255, 255,
    ],
    [
        0, 0, 0, 0, 255, 255, 255, 255, 0, 0, 0, 0, 255, 255, 255, 255,
    ],
    [
        0, 0, 0, 0, 0, 0, 0, 0, 255, 255, 255, 255, 255, 255, 255, 255,
    ],
];

/// <details><summary>Ghost items</summary>
///
/// ```text
/// // What holds of the operands of `^` and of the result.
/// ghost bitxor_gives = { λ a b result. result ≡ bit_xor a b };
/// ```
///
/// </details>
impl<V: simd::Level> BitXor<Word<V>> for Word<V> {
    type Output = Word<V>;

    #[inline(always)]
    fn bitxor(self, rhs: Word<V>) -> Word<V> {
        Word {
            lanes: self.lanes ^ rhs.lanes,
        }
    }
}

/// <details><summary>Ghost items</summary>
///
/// ```text
/// // What holds of the operands of `&` and of the result.
/// ghost bitand_gives = { λ a b result. result ≡ bit_and a b };
/// ```
///
/// </details>
impl<V: simd::Level> BitAnd<Word<V>> for Word<V> {
    type Output = Word<V>;

    #[inline(always)]
    fn bitand(self, rhs: Word<V>) -> Word<V> {
        Word {
            lanes: self.lanes & rhs.lanes,
        }
    }
}

/// <details><summary>Ghost items</summary>
///
/// ```text
/// ghost number = { λ word. word };
/// ghost width = { 128 };
/// ghost place = { place_of_eight };
/// ```
///
/// Definitions: [`place_of_eight`](crate::specs::wide_planes#place_of_eight).
///
/// </details>
impl<V: simd::Level> Plane for Word<V> {
    #[inline(always)]
    fn ones() -> Word<V> {
        Word::<V>::splat(u64::MAX)
    }

    #[inline(always)]
    fn rows_shifted(self) -> Word<V> {
        Word::<V>::from_bytes(
            self.bytes()
                .swizzle([0, 5, 10, 15, 4, 9, 14, 3, 8, 13, 2, 7, 12, 1, 6, 11]),
        )
    }

    #[inline(always)]
    fn one_below(self) -> Word<V> {
        Word::<V>::from_bytes(
            self.bytes()
                .swizzle([1, 2, 3, 0, 5, 6, 7, 4, 9, 10, 11, 8, 13, 14, 15, 12]),
        )
    }

    #[inline(always)]
    fn two_below(self) -> Word<V> {
        Word::<V>::from_bytes(
            self.bytes()
                .swizzle([2, 3, 0, 1, 6, 7, 4, 5, 10, 11, 8, 9, 14, 15, 12, 13]),
        )
    }
}

impl<V: simd::Level> Lanes for Word<V> {
    #[inline(always)]
    fn splat(lane: u64) -> Word<V> {
        Word {
            lanes: u64x2::<V>::splat(lane),
        }
    }

    #[inline(always)]
    fn lanes_left(self, n: u32) -> Word<V> {
        Word {
            lanes: self.lanes << u64x2::<V>::splat(u64::from(n)),
        }
    }

    #[inline(always)]
    fn lanes_right(self, n: u32) -> Word<V> {
        Word {
            lanes: self.lanes >> u64x2::<V>::splat(u64::from(n)),
        }
    }
}
