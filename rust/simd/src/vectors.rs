//! Vectors of 128 bits.

use core::marker::PhantomData;
use core::ops::{BitAnd, BitXor, Shl, Shr};

use crate::level::Level;
use crate::processor::{self, Bytes};

/// Sixteen bytes.
#[allow(non_camel_case_types)]
#[derive(Clone, Copy)]
#[repr(transparent)]
pub struct u8x16<V> {
    pub(crate) bytes: Bytes,
    level: PhantomData<V>,
}

/// Two numbers of 64 bits.
#[allow(non_camel_case_types)]
#[derive(Clone, Copy)]
#[repr(transparent)]
pub struct u64x2<V> {
    pub(crate) bytes: Bytes,
    level: PhantomData<V>,
}

/// The places of a shuffle of two vectors: those of the first are below 16, and those of the second from 16 to 31.
///
/// They are made by a constant expression, so that nothing is computed when the program runs.
#[derive(Clone, Copy)]
pub struct Places {
    /// The places in the first vector, and above 127 where there is none.
    pub(crate) here: [u8; 16],
    /// The places in the second vector, and above 127 where there is none.
    pub(crate) there: [u8; 16],
    /// The first place, if the others come after it in a row.
    #[allow(dead_code)] // NEON alone reads it
    pub(crate) from: Option<u8>,
}

impl Places {
    /// Creates the places.
    ///
    /// # Panics
    ///
    /// Panics if one of them is above 31.
    pub const fn new(places: [u8; 16]) -> Self {
        let (mut here, mut there) = ([128; 16], [128; 16]);
        let mut is_row = true;
        let mut i = 0;
        while i < 16 {
            assert!(places[i] < 32);
            is_row &= places[i] as usize == places[0] as usize + i;
            if places[i] < 16 {
                here[i] = places[i];
            } else {
                there[i] = places[i] - 16;
            }
            i += 1;
        }
        let from = if is_row { Some(places[0]) } else { None };
        Places { here, there, from }
    }
}

impl<V: Level> u8x16<V> {
    #[inline(always)]
    pub(crate) fn of(bytes: Bytes) -> Self {
        u8x16 {
            bytes,
            level: PhantomData,
        }
    }

    /// Returns the vector of these bytes.
    #[inline(always)]
    pub fn from_array(array: [u8; 16]) -> Self {
        Self::of(processor::from_array(array))
    }

    /// Returns the bytes.
    #[inline(always)]
    pub fn to_array(self) -> [u8; 16] {
        processor::to_array(self.bytes)
    }

    /// Returns the vector each of whose bytes is `byte`.
    #[inline(always)]
    pub fn splat(byte: u8) -> Self {
        Self::from_array([byte; 16])
    }

    /// Returns the first sixteen bytes of a slice.
    ///
    /// # Panics
    ///
    /// Panics if the slice is shorter.
    #[inline(always)]
    pub fn from_slice(slice: &[u8]) -> Self {
        let mut array = [0; 16];
        array.copy_from_slice(&slice[..16]);
        Self::from_array(array)
    }

    /// Writes the bytes to the front of a slice.
    ///
    /// # Panics
    ///
    /// Panics if the slice is shorter.
    #[inline(always)]
    pub fn copy_to_slice(self, slice: &mut [u8]) {
        slice[..16].copy_from_slice(&self.to_array());
    }

    /// Returns the byte at each of these places: that of a place below 16, and 0 for one from 128 on. Which byte is returned for
    /// another place depends on the processor.
    #[inline(always)]
    pub fn swizzle_dyn(self, places: Self) -> Self {
        Self::of(V::permuted(self.bytes, places.bytes))
    }

    /// Returns the byte at each of these places, which are below 16 and no secret: other than [`swizzle_dyn`](Self::swizzle_dyn),
    /// this may read memory at them.
    #[inline(always)]
    pub fn swizzle(self, places: [u8; 16]) -> Self {
        Self::of(V::permuted_at(self.bytes, places))
    }

    /// Returns the byte at each place in the two vectors, one after the other. The places are no secret.
    #[inline(always)]
    pub fn shuffle(self, other: Self, places: Places) -> Self {
        Self::of(V::shuffled(self.bytes, other.bytes, places))
    }

    /// Returns the difference of zero and each byte, modulo 256.
    #[inline(always)]
    pub fn wrapping_neg(self) -> Self {
        Self::of(processor::negated(self.bytes))
    }
}

impl<V: Level> u64x2<V> {
    #[inline(always)]
    pub(crate) fn of(bytes: Bytes) -> Self {
        u64x2 {
            bytes,
            level: PhantomData,
        }
    }

    /// Returns the vector of these numbers.
    #[inline(always)]
    pub fn from_array(array: [u64; 2]) -> Self {
        Self::of(processor::from_numbers(array))
    }

    /// Returns the numbers.
    #[inline(always)]
    pub fn to_array(self) -> [u64; 2] {
        processor::to_numbers(self.bytes)
    }

    /// Returns the vector both of whose numbers are `number`.
    #[inline(always)]
    pub fn splat(number: u64) -> Self {
        Self::from_array([number; 2])
    }

    /// Returns the numbers with these bytes, the least significant first.
    #[inline(always)]
    pub fn from_le_bytes(bytes: u8x16<V>) -> Self {
        Self::of(bytes.bytes)
    }

    /// Returns the bytes of the numbers, the least significant first.
    #[inline(always)]
    pub fn to_le_bytes(self) -> u8x16<V> {
        u8x16::of(self.bytes)
    }

    /// Returns the numbers of this vector and of another, one after the other.
    #[inline(always)]
    pub fn followed_by(self, other: Self) -> crate::u64x4<V> {
        crate::u64x4::of(V::wide(self.bytes, other.bytes))
    }
}

impl<V: Level> BitXor for u8x16<V> {
    type Output = Self;

    #[inline(always)]
    fn bitxor(self, other: Self) -> Self {
        Self::of(processor::xor(self.bytes, other.bytes))
    }
}

impl<V: Level> BitAnd for u8x16<V> {
    type Output = Self;

    #[inline(always)]
    fn bitand(self, other: Self) -> Self {
        Self::of(processor::and(self.bytes, other.bytes))
    }
}

/// Returns the number that is at each place, if it is one. The compiler knows it where the vector is a constant.
#[inline(always)]
fn same(bytes: [u8; 16]) -> Option<u32> {
    (u128::from_ne_bytes(bytes) == u128::from_ne_bytes([bytes[0]; 16]))
        .then_some(u32::from(bytes[0]))
}

/// Shifts each byte to the left by the number at its place, modulo 8.
#[allow(clippy::suspicious_arithmetic_impl)] // a shift is by a number modulo 8
impl<V: Level> Shl for u8x16<V> {
    type Output = Self;

    #[inline(always)]
    fn shl(self, by: Self) -> Self {
        let places = by.to_array();
        match same(places) {
            Some(n) => Self::of(processor::shl_bytes(self.bytes, n % 8)),
            None => {
                let bytes = self.to_array();
                Self::from_array(core::array::from_fn(|i| bytes[i] << (places[i] % 8)))
            }
        }
    }
}

/// Shifts each byte to the right by the number at its place, modulo 8.
#[allow(clippy::suspicious_arithmetic_impl)] // a shift is by a number modulo 8
impl<V: Level> Shr for u8x16<V> {
    type Output = Self;

    #[inline(always)]
    fn shr(self, by: Self) -> Self {
        let places = by.to_array();
        match same(places) {
            Some(n) => Self::of(processor::shr_bytes(self.bytes, n % 8)),
            None => {
                let bytes = self.to_array();
                Self::from_array(core::array::from_fn(|i| bytes[i] >> (places[i] % 8)))
            }
        }
    }
}

/// The operands are exchanged: rustc 1.95 then needs fewer moves between registers in the rounds of AES on planes.
impl<V: Level> BitXor for u64x2<V> {
    type Output = Self;

    #[inline(always)]
    fn bitxor(self, other: Self) -> Self {
        Self::of(processor::xor(other.bytes, self.bytes))
    }
}

impl<V: Level> BitAnd for u64x2<V> {
    type Output = Self;

    #[inline(always)]
    fn bitand(self, other: Self) -> Self {
        Self::of(processor::and(self.bytes, other.bytes))
    }
}

/// Shifts each number to the left by the number at its place, modulo 64.
#[allow(clippy::suspicious_arithmetic_impl)] // a shift is by a number modulo 64
impl<V: Level> Shl for u64x2<V> {
    type Output = Self;

    #[inline(always)]
    fn shl(self, by: Self) -> Self {
        match by.to_array() {
            [n, other] if n == other => Self::of(processor::shl_numbers(self.bytes, n as u32 % 64)),
            [n, other] => {
                let [a, b] = self.to_array();
                Self::from_array([a << (n % 64), b << (other % 64)])
            }
        }
    }
}

/// Shifts each number to the right by the number at its place, modulo 64.
#[allow(clippy::suspicious_arithmetic_impl)] // a shift is by a number modulo 64
impl<V: Level> Shr for u64x2<V> {
    type Output = Self;

    #[inline(always)]
    fn shr(self, by: Self) -> Self {
        match by.to_array() {
            [n, other] if n == other => Self::of(processor::shr_numbers(self.bytes, n as u32 % 64)),
            [n, other] => {
                let [a, b] = self.to_array();
                Self::from_array([a >> (n % 64), b >> (other % 64)])
            }
        }
    }
}
