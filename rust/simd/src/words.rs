//! Vectors of four numbers of 32 bits, of which each processor has all operations.

use core::ops::{Add, BitAnd, BitOr, BitXor, Shl, Shr, Sub};

use crate::level::Level;
use crate::processor::{self, Bytes};
use crate::vectors::u8x16;

/// Four numbers of 32 bits. Sums and differences are modulo 2^32.
#[allow(non_camel_case_types)]
#[derive(Clone, Copy)]
#[repr(transparent)]
pub struct u32x4 {
    bytes: Bytes,
}

impl u32x4 {
    /// Returns the vector of these numbers.
    #[inline(always)]
    pub fn from_array(array: [u32; 4]) -> Self {
        u32x4 {
            bytes: processor::from_words(array),
        }
    }

    /// Returns the numbers.
    #[inline(always)]
    pub fn to_array(self) -> [u32; 4] {
        processor::to_words(self.bytes)
    }

    /// Returns the vector each of whose numbers is `number`.
    #[inline(always)]
    pub fn splat(number: u32) -> Self {
        Self::from_array([number; 4])
    }

    /// Returns the first four numbers of a slice.
    ///
    /// # Panics
    ///
    /// Panics if the slice is shorter.
    #[inline(always)]
    pub fn from_slice(slice: &[u32]) -> Self {
        Self::from_array([slice[0], slice[1], slice[2], slice[3]])
    }

    /// Moves each number `N` places to the front, cyclically. `N` is at most 3.
    #[inline(always)]
    pub fn rotate_elements_left<const N: usize>(self) -> Self {
        const { assert!(N < 4) }
        u32x4 {
            bytes: processor::rotated_words::<N>(self.bytes),
        }
    }

    /// Returns the XOR of the four numbers.
    #[inline(always)]
    pub fn reduce_xor(self) -> u32 {
        let [a, b, c, d] = self.to_array();
        a ^ b ^ c ^ d
    }

    /// Returns the bytes of the numbers, the least significant first.
    #[inline(always)]
    pub fn to_le_bytes<V: Level>(self) -> u8x16<V> {
        u8x16::of(self.bytes)
    }
}

/// An operator of two vectors.
macro_rules! operator {
    ($trait:ident, $method:ident, $of_processor:path) => {
        impl $trait for u32x4 {
            type Output = Self;

            #[inline(always)]
            fn $method(self, other: Self) -> Self {
                u32x4 {
                    bytes: $of_processor(self.bytes, other.bytes),
                }
            }
        }
    };
}

operator!(Add, add, processor::add_words);
operator!(Sub, sub, processor::sub_words);
operator!(BitXor, bitxor, processor::xor);
operator!(BitAnd, bitand, processor::and);
operator!(BitOr, bitor, processor::or);

/// A shift of each number by the number at its place, modulo 32.
macro_rules! shift {
    ($trait:ident, $method:ident, $of_processor:path, $of_words:path) => {
        impl $trait for u32x4 {
            type Output = Self;

            #[inline(always)]
            fn $method(self, by: Self) -> Self {
                let [a, b, c, d] = by.to_array();
                if a == b && a == c && a == d {
                    return u32x4 {
                        bytes: $of_processor(self.bytes, a % 32),
                    };
                }
                let [w, x, y, z] = self.to_array();
                Self::from_array([
                    $of_words(w, a),
                    $of_words(x, b),
                    $of_words(y, c),
                    $of_words(z, d),
                ])
            }
        }
    };
}

shift!(Shl, shl, processor::shl_words, u32::wrapping_shl);
shift!(Shr, shr, processor::shr_words, u32::wrapping_shr);
