// Written by tools/rust from crates/aead_ciphers_wide/src/word/wider.rt. Don't edit.
//! `WiderWord`, a number of 256 bits in a vector: a plane of sixteen AES blocks.

use super::Word;
use crate::lanes::Lanes;
use aead_ciphers_base::aes::Plane;
use core::ops::{BitAnd, BitXor};
use simd::u64x4;

/// A number of 256 bits.
///
/// <details><summary>Model</summary>
///
/// ```text
/// ghost Value = { ℕ };
/// ghost view = { λ word. number_l (2 ^ 64) word.lanes };
/// ghost invariant = { λ word. (length word.lanes ≡ 4) × Each1 (λ x. x < 2 ^ 64) word.lanes };
/// ```
///
/// </details>
#[derive(Clone, Copy)]
pub struct WiderWord<V: simd::Level> {
    lanes: u64x4<V>,
}

impl<V: simd::Level> WiderWord<V> {
    /// Returns the number with these halves.
    ///
    /// <details><summary>Contract</summary>
    ///
    /// ```text
    /// ensures { result ≡ high * 2 ^ 128 + low }
    /// ```
    ///
    /// </details>
    #[inline(always)]
    pub fn new(low: Word<V>, high: Word<V>) -> Self {
        WiderWord {
            lanes: low.lanes.followed_by(high.lanes),
        }
    }

    /// Returns the two halves, the least significant first.
    ///
    /// <details><summary>Contract</summary>
    ///
    /// ```text
    /// ensures { self ≡ result.1 * 2 ^ 128 + result.0 }
    /// ```
    ///
    /// </details>
    #[inline(always)]
    pub fn halves(self) -> (Word<V>, Word<V>) {
        let low = Word {
            lanes: self.lanes.extract::<0, 2>(),
        };
        let high = Word {
            lanes: self.lanes.extract::<2, 2>(),
        };
        (low, high)
    }
}

/// <details><summary>Ghost items</summary>
///
/// ```text
/// // What holds of the operands of `^` and of the result.
/// ghost bitxor_gives = { λ a b result. result ≡ bit_xor a b };
/// ```
///
/// </details>
impl<V: simd::Level> BitXor<WiderWord<V>> for WiderWord<V> {
    type Output = WiderWord<V>;

    #[inline(always)]
    fn bitxor(self, rhs: WiderWord<V>) -> WiderWord<V> {
        WiderWord {
            lanes: self.lanes ^ rhs.lanes,
        }
    }
}

/// <details><summary>Ghost items</summary>
///
/// ```text
/// // What holds of the operands of `&` and of the result.
/// ghost bitand_gives = { λ a b result. result ≡ bit_and a b };
/// ```
///
/// </details>
impl<V: simd::Level> BitAnd<WiderWord<V>> for WiderWord<V> {
    type Output = WiderWord<V>;

    #[inline(always)]
    fn bitand(self, rhs: WiderWord<V>) -> WiderWord<V> {
        WiderWord {
            lanes: self.lanes & rhs.lanes,
        }
    }
}

/// <details><summary>Ghost items</summary>
///
/// ```text
/// ghost number = { λ word. word };
/// ghost width = { 256 };
/// ghost place = { place_of_sixteen };
/// ```
///
/// Definitions: [`place_of_sixteen`](crate::specs::wide_planes#place_of_sixteen).
///
/// </details>
impl<V: simd::Level> Plane for WiderWord<V> {
    #[inline(always)]
    fn ones() -> WiderWord<V> {
        WiderWord::<V>::splat(u64::MAX)
    }

    #[inline(always)]
    fn rows_shifted(self) -> WiderWord<V> {
        let (low, high) = self.halves();
        WiderWord::<V>::new(low.rows_shifted(), high.rows_shifted())
    }

    #[inline(always)]
    fn one_below(self) -> WiderWord<V> {
        let (low, high) = self.halves();
        WiderWord::<V>::new(low.one_below(), high.one_below())
    }

    #[inline(always)]
    fn two_below(self) -> WiderWord<V> {
        let (low, high) = self.halves();
        WiderWord::<V>::new(low.two_below(), high.two_below())
    }
}

impl<V: simd::Level> Lanes for WiderWord<V> {
    #[inline(always)]
    fn splat(lane: u64) -> WiderWord<V> {
        WiderWord {
            lanes: u64x4::<V>::splat(lane),
        }
    }

    #[inline(always)]
    fn lanes_left(self, n: u32) -> WiderWord<V> {
        WiderWord {
            lanes: self.lanes << u64x4::<V>::splat(u64::from(n)),
        }
    }

    #[inline(always)]
    fn lanes_right(self, n: u32) -> WiderWord<V> {
        WiderWord {
            lanes: self.lanes >> u64x4::<V>::splat(u64::from(n)),
        }
    }
}
