//! Vectors by NEON, which each processor of ARM64 has that Rust's targets are for.

use core::arch::aarch64::*;

use crate::level::{Call, Job, Level, Sealed, in_halves, joined};
use crate::vectors::Places;

/// 128 bits.
pub type Bytes = uint8x16_t;

macro_rules! of_two {
    ($($name:ident = $instruction:ident;)*) => {
        $(
            #[inline(always)]
            pub fn $name(a: Bytes, b: Bytes) -> Bytes {
                // SAFETY: the compilation is for processors with NEON.
                unsafe { $instruction(a, b) }
            }
        )*
    };
}

of_two! {
    xor = veorq_u8;
    and = vandq_u8;
    or = vorrq_u8;
}

/// A conversion between an array and a vector of the same bytes.
macro_rules! conversions {
    ($($from:ident, $to:ident: $array:ty;)*) => {
        $(
            #[inline(always)]
            pub fn $from(array: $array) -> Bytes {
                // SAFETY: both are 16 bytes, and any bytes are a vector.
                unsafe { core::mem::transmute(array) }
            }

            #[inline(always)]
            pub fn $to(bytes: Bytes) -> $array {
                // SAFETY: both are 16 bytes, and any bytes are an array of integers.
                unsafe { core::mem::transmute(bytes) }
            }
        )*
    };
}

conversions! {
    from_array, to_array: [u8; 16];
    from_words, to_words: [u32; 4];
    from_numbers, to_numbers: [u64; 2];
}

/// Adds the words.
#[inline(always)]
pub fn add_words(a: Bytes, b: Bytes) -> Bytes {
    // SAFETY: the compilation is for processors with NEON.
    unsafe { vreinterpretq_u8_u32(vaddq_u32(vreinterpretq_u32_u8(a), vreinterpretq_u32_u8(b))) }
}

/// Subtracts the words.
#[inline(always)]
pub fn sub_words(a: Bytes, b: Bytes) -> Bytes {
    // SAFETY: the compilation is for processors with NEON.
    unsafe { vreinterpretq_u8_u32(vsubq_u32(vreinterpretq_u32_u8(a), vreinterpretq_u32_u8(b))) }
}

/// A shift of each lane: to the right if the number is negative.
#[inline(always)]
fn shift_bytes(a: Bytes, n: i8) -> Bytes {
    // SAFETY: the compilation is for processors with NEON.
    unsafe { vshlq_u8(a, vdupq_n_s8(n)) }
}

#[inline(always)]
fn shift_words(a: Bytes, n: i32) -> Bytes {
    // SAFETY: the compilation is for processors with NEON.
    unsafe { vreinterpretq_u8_u32(vshlq_u32(vreinterpretq_u32_u8(a), vdupq_n_s32(n))) }
}

#[inline(always)]
fn shift_numbers(a: Bytes, n: i64) -> Bytes {
    // SAFETY: the compilation is for processors with NEON.
    unsafe { vreinterpretq_u8_u64(vshlq_u64(vreinterpretq_u64_u8(a), vdupq_n_s64(n))) }
}

/// Shifts each byte to the left.
#[inline(always)]
pub fn shl_bytes(a: Bytes, n: u32) -> Bytes {
    shift_bytes(a, n as i8)
}

/// Shifts each byte to the right.
#[inline(always)]
pub fn shr_bytes(a: Bytes, n: u32) -> Bytes {
    shift_bytes(a, -(n as i8))
}

/// Shifts each word to the left.
#[inline(always)]
pub fn shl_words(a: Bytes, n: u32) -> Bytes {
    shift_words(a, n as i32)
}

/// Shifts each word to the right.
#[inline(always)]
pub fn shr_words(a: Bytes, n: u32) -> Bytes {
    shift_words(a, -(n as i32))
}

/// Shifts each number to the left.
#[inline(always)]
pub fn shl_numbers(a: Bytes, n: u32) -> Bytes {
    shift_numbers(a, i64::from(n))
}

/// Shifts each number to the right.
#[inline(always)]
pub fn shr_numbers(a: Bytes, n: u32) -> Bytes {
    shift_numbers(a, -i64::from(n))
}

/// Returns the difference of zero and each byte.
#[inline(always)]
pub fn negated(a: Bytes) -> Bytes {
    // SAFETY: the compilation is for processors with NEON.
    unsafe { vreinterpretq_u8_s8(vnegq_s8(vreinterpretq_s8_u8(a))) }
}

/// Moves each word `N` places to the front, cyclically.
#[inline(always)]
pub fn rotated_words<const N: usize>(a: Bytes) -> Bytes {
    // SAFETY: the compilation is for processors with NEON.
    unsafe {
        match N {
            0 => a,
            1 => vextq_u8::<4>(a, a),
            2 => vextq_u8::<8>(a, a),
            _ => vextq_u8::<12>(a, a),
        }
    }
}

/// The sixteen bytes from `from` on, which is at most 16, in the two vectors, one after the other.
#[inline(always)]
fn in_a_row(first: Bytes, second: Bytes, from: u8) -> Bytes {
    /// An arm for each number, which the instruction has as a constant.
    macro_rules! arms {
        ($($n:literal)*) => {
            match from {
                0 => first,
                // SAFETY: the compilation is for processors with NEON.
                $($n => unsafe { vextq_u8::<$n>(first, second) },)*
                _ => second,
            }
        };
    }
    arms!(1 2 3 4 5 6 7 8 9 10 11 12 13 14 15)
}

/// NEON.
#[derive(Clone, Copy)]
pub struct Neon;

impl Sealed for Neon {}

impl Level for Neon {
    in_halves!();

    #[inline(never)]
    fn outlined<C: Call>(call: C) -> C::Output {
        call.call()
    }

    #[inline(always)]
    fn permuted(table: Bytes, places: Bytes) -> Bytes {
        // SAFETY: the compilation is for processors with NEON.
        unsafe { vqtbl1q_u8(table, places) }
    }

    /// LLVM doesn't know what a permutation by a table does, so the instruction for places in a row is named here.
    #[inline(always)]
    fn shuffled(first: Bytes, second: Bytes, places: Places) -> Bytes {
        match places.from {
            Some(from) => in_a_row(first, second, from),
            None => joined::<Self>(first, second, places),
        }
    }
}

/// Returns the names of the levels that the processor has, the lowest first.
pub fn levels() -> &'static [&'static str] {
    &["NEON"]
}

/// Lowers the level of all jobs from now on to the first `count` of [`levels`], for tests: here there is one.
///
/// # Panics
///
/// Panics if `count` is zero.
pub fn at_most(count: usize) {
    assert_ne!(count, 0);
}

/// Returns whether jobs run at a level with vectors of 256 bits.
#[inline]
pub fn has_256_bits() -> bool {
    false
}

/// Runs a job at the highest level that the processor has.
#[inline]
pub fn run<J: Job>(job: J) -> J::Output {
    job.run::<Neon>()
}
