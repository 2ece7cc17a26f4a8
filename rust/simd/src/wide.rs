//! Vectors of 256 bits.

use core::ops::{BitAnd, BitXor, Shl, Shr};

use crate::level::Level;
use crate::vectors::u64x2;

/// Four numbers of 64 bits.
#[allow(non_camel_case_types)]
#[derive(Clone, Copy)]
pub struct u64x4<V: Level> {
    numbers: V::Wide,
}

impl<V: Level> u64x4<V> {
    #[inline(always)]
    pub(crate) fn of(numbers: V::Wide) -> Self {
        u64x4 { numbers }
    }

    /// Returns the vector each of whose numbers is `number`.
    #[inline(always)]
    pub fn splat(number: u64) -> Self {
        let half = u64x2::<V>::splat(number);
        half.followed_by(half)
    }

    /// Returns the `COUNT` numbers from `START` on, which are the first two or the last two.
    ///
    /// # Panics
    ///
    /// Does not compile if they are others.
    #[inline(always)]
    pub fn extract<const START: usize, const COUNT: usize>(self) -> u64x2<V> {
        const { assert!(COUNT == 2 && (START == 0 || START == 2)) }
        let (low, high) = V::halves(self.numbers);
        u64x2::of(if START == 0 { low } else { high })
    }
}

/// The operands are exchanged, as those of `u64x2` are.
impl<V: Level> BitXor for u64x4<V> {
    type Output = Self;

    #[inline(always)]
    fn bitxor(self, other: Self) -> Self {
        Self::of(V::wide_xor(other.numbers, self.numbers))
    }
}

impl<V: Level> BitAnd for u64x4<V> {
    type Output = Self;

    #[inline(always)]
    fn bitand(self, other: Self) -> Self {
        Self::of(V::wide_and(self.numbers, other.numbers))
    }
}

impl<V: Level> u64x4<V> {
    #[inline(always)]
    fn in_halves(self, by: Self, each: fn(u64x2<V>, u64x2<V>) -> u64x2<V>) -> Self {
        let low = each(self.extract::<0, 2>(), by.extract::<0, 2>());
        let high = each(self.extract::<2, 2>(), by.extract::<2, 2>());
        low.followed_by(high)
    }

    /// Returns the number that is at each place, if it is one.
    #[inline(always)]
    fn same(self) -> Option<u32> {
        let ([a, b], [c, d]) = (
            self.extract::<0, 2>().to_array(),
            self.extract::<2, 2>().to_array(),
        );
        (a == b && a == c && a == d).then_some(a as u32 % 64)
    }
}

/// Shifts each number to the left by the number at its place, modulo 64.
impl<V: Level> Shl for u64x4<V> {
    type Output = Self;

    #[inline(always)]
    fn shl(self, by: Self) -> Self {
        match by.same() {
            Some(n) => Self::of(V::wide_shl(self.numbers, n)),
            None => self.in_halves(by, |numbers, by| numbers << by),
        }
    }
}

/// Shifts each number to the right by the number at its place, modulo 64.
impl<V: Level> Shr for u64x4<V> {
    type Output = Self;

    #[inline(always)]
    fn shr(self, by: Self) -> Self {
        match by.same() {
            Some(n) => Self::of(V::wide_shr(self.numbers, n)),
            None => self.in_halves(by, |numbers, by| numbers >> by),
        }
    }
}
