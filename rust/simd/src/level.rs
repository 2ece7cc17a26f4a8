//! The trait of levels, and the trait of what is run at one.

use crate::processor::{self, Bytes};
use crate::vectors::Places;

/// What `Level` is implemented for is decided here.
pub trait Sealed {}

/// A level of vectors: instructions that the running processor has.
///
/// No type that implements it has a public name. A [`Job`] gets one as a type parameter.
pub trait Level: Sealed + Copy + 'static {
    /// Whether a vector of 256 bits takes one instruction where two vectors of 128 bits take two.
    const HAS_256_BITS: bool;

    /// 256 bits.
    #[doc(hidden)]
    type Wide: Copy;

    /// Makes a call whose code is a function of its own, compiled for this level. All that the call reaches should be
    /// `#[inline(always)]`.
    fn outlined<C: Call>(call: C) -> C::Output;

    #[doc(hidden)]
    fn permuted(table: Bytes, places: Bytes) -> Bytes;

    /// The same for places that are no secret, so that memory may be read at them.
    #[doc(hidden)]
    #[inline(always)]
    fn permuted_at(table: Bytes, places: [u8; 16]) -> Bytes {
        Self::permuted(table, processor::from_array(places))
    }

    /// The bytes at these places in the two vectors, one after the other.
    #[doc(hidden)]
    #[inline(always)]
    fn shuffled(first: Bytes, second: Bytes, places: Places) -> Bytes {
        joined::<Self>(first, second, places)
    }

    #[doc(hidden)]
    fn wide(low: Bytes, high: Bytes) -> Self::Wide;

    #[doc(hidden)]
    fn halves(wide: Self::Wide) -> (Bytes, Bytes);

    #[doc(hidden)]
    fn wide_xor(a: Self::Wide, b: Self::Wide) -> Self::Wide;

    #[doc(hidden)]
    fn wide_and(a: Self::Wide, b: Self::Wide) -> Self::Wide;

    #[doc(hidden)]
    fn wide_shl(a: Self::Wide, n: u32) -> Self::Wide;

    #[doc(hidden)]
    fn wide_shr(a: Self::Wide, n: u32) -> Self::Wide;
}

/// Joins a permutation of each vector. Each byte is zero in one of them: LLVM makes one instruction of both and their OR, such as
/// `palignr`, and doesn't of their XOR.
#[inline(always)]
pub fn joined<V: Level>(first: Bytes, second: Bytes, places: Places) -> Bytes {
    let here = V::permuted_at(first, places.here);
    processor::or(here, V::permuted_at(second, places.there))
}

/// What [`run`](crate::run) runs at the level of the processor.
///
/// Its function and all that this calls should be `#[inline(always)]`: only what is inlined is compiled for the level.
pub trait Job {
    /// What the job returns.
    type Output;

    /// Does the job, with the vectors of this level.
    fn run<V: Level>(self) -> Self::Output;
}

/// A call that [`Level::outlined`] makes.
pub trait Call {
    /// What the call returns.
    type Output;

    /// Makes the call.
    fn call(self) -> Self::Output;
}

/// The operations on 256 bits by those on each half.
macro_rules! in_halves {
    () => {
        const HAS_256_BITS: bool = false;

        type Wide = (Bytes, Bytes);

        #[inline(always)]
        fn wide(low: Bytes, high: Bytes) -> Self::Wide {
            (low, high)
        }

        #[inline(always)]
        fn halves(wide: Self::Wide) -> (Bytes, Bytes) {
            wide
        }

        #[inline(always)]
        fn wide_xor(a: Self::Wide, b: Self::Wide) -> Self::Wide {
            (xor(a.0, b.0), xor(a.1, b.1))
        }

        #[inline(always)]
        fn wide_and(a: Self::Wide, b: Self::Wide) -> Self::Wide {
            (and(a.0, b.0), and(a.1, b.1))
        }

        #[inline(always)]
        fn wide_shl(a: Self::Wide, n: u32) -> Self::Wide {
            (shl_numbers(a.0, n), shl_numbers(a.1, n))
        }

        #[inline(always)]
        fn wide_shr(a: Self::Wide, n: u32) -> Self::Wide {
            (shr_numbers(a.0, n), shr_numbers(a.1, n))
        }
    };
}

pub(crate) use in_halves;
