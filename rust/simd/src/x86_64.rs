//! Vectors by SSE2, which each processor of x86-64 has, and the levels above it.

use core::arch::x86_64::*;
use core::sync::atomic::{AtomicU8, Ordering};

use crate::level::{Call, Job, Level, Sealed, in_halves};

/// 128 bits.
pub type Bytes = __m128i;

/// A function of one instruction that each processor of x86-64 has.
macro_rules! of_two {
    ($($name:ident = $instruction:ident;)*) => {
        $(
            #[inline(always)]
            pub fn $name(a: Bytes, b: Bytes) -> Bytes {
                // SAFETY: each processor of x86-64 has SSE2.
                unsafe { $instruction(a, b) }
            }
        )*
    };
}

of_two! {
    xor = _mm_xor_si128;
    and = _mm_and_si128;
    or = _mm_or_si128;
    add_words = _mm_add_epi32;
    sub_words = _mm_sub_epi32;
}

/// A conversion between an array and a vector of the same bytes.
macro_rules! conversions {
    ($($from:ident, $to:ident: $array:ty;)*) => {
        $(
            #[inline(always)]
            pub fn $from(array: $array) -> Bytes {
                // SAFETY: both are 16 bytes, and any bytes are a vector.
                unsafe { core::mem::transmute(array) }
            }

            #[inline(always)]
            pub fn $to(bytes: Bytes) -> $array {
                // SAFETY: both are 16 bytes, and any bytes are an array of integers.
                unsafe { core::mem::transmute(bytes) }
            }
        )*
    };
}

conversions! {
    from_array, to_array: [u8; 16];
    from_words, to_words: [u32; 4];
    from_numbers, to_numbers: [u64; 2];
}

/// A shift by one number.
macro_rules! shifts {
    ($($name:ident = $instruction:ident;)*) => {
        $(
            #[inline(always)]
            pub fn $name(a: Bytes, n: u32) -> Bytes {
                // SAFETY: each processor of x86-64 has SSE2.
                unsafe { $instruction(a, _mm_cvtsi32_si128(n as i32)) }
            }
        )*
    };
}

shifts! {
    shl_words = _mm_sll_epi32;
    shr_words = _mm_srl_epi32;
    shl_numbers = _mm_sll_epi64;
    shr_numbers = _mm_srl_epi64;
}

shifts! {
    shl_pairs = _mm_sll_epi16;
    shr_pairs = _mm_srl_epi16;
}

/// Shifts each byte to the left. There is no instruction for bytes, so pairs are shifted, and what came from the other byte is
/// taken away.
#[inline(always)]
pub fn shl_bytes(a: Bytes, n: u32) -> Bytes {
    and(shl_pairs(a, n), from_array([0xff << n; 16]))
}

/// Shifts each byte to the right.
#[inline(always)]
pub fn shr_bytes(a: Bytes, n: u32) -> Bytes {
    and(shr_pairs(a, n), from_array([0xff >> n; 16]))
}

/// Returns the difference of zero and each byte.
#[inline(always)]
pub fn negated(a: Bytes) -> Bytes {
    // SAFETY: each processor of x86-64 has SSE2.
    unsafe { _mm_sub_epi8(_mm_setzero_si128(), a) }
}

/// Moves each word `N` places to the front, cyclically.
#[inline(always)]
pub fn rotated_words<const N: usize>(a: Bytes) -> Bytes {
    // SAFETY: each processor of x86-64 has SSE2.
    unsafe {
        match N {
            0 => a,
            1 => _mm_shuffle_epi32::<0b00_11_10_01>(a),
            2 => _mm_shuffle_epi32::<0b01_00_11_10>(a),
            _ => _mm_shuffle_epi32::<0b10_01_00_11>(a),
        }
    }
}

/// SSE2 alone.
#[derive(Clone, Copy)]
pub struct Sse2;

/// SSSE3 and what else x86-64-v2 has.
#[derive(Clone, Copy)]
pub struct Ssse3;

/// AVX2 and what else x86-64-v3 has.
#[derive(Clone, Copy)]
pub struct Avx2;

impl Sealed for Sse2 {}
impl Sealed for Ssse3 {}
impl Sealed for Avx2 {}

impl Level for Sse2 {
    in_halves!();

    #[inline(never)]
    fn outlined<C: Call>(call: C) -> C::Output {
        call.call()
    }

    /// Reads all sixteen bytes of the table for each place, by masks.
    #[inline(always)]
    fn permuted(table: Bytes, places: Bytes) -> Bytes {
        let mut found = from_array([0; 16]);
        for (place, byte) in to_array(table).into_iter().enumerate() {
            // SAFETY: each processor of x86-64 has SSE2.
            let mask = unsafe { _mm_cmpeq_epi8(places, from_array([place as u8; 16])) };
            found = or(found, and(mask, from_array([byte; 16])));
        }
        found
    }
}

impl Level for Ssse3 {
    in_halves!();

    #[inline(always)]
    fn outlined<C: Call>(call: C) -> C::Output {
        // SAFETY: only `run` names this level, where the processor has the features.
        unsafe { call_ssse3(call) }
    }

    #[inline(always)]
    fn permuted(table: Bytes, places: Bytes) -> Bytes {
        // SAFETY: only `run` names this level, where the processor has SSSE3.
        unsafe { _mm_shuffle_epi8(table, places) }
    }
}

/// Whether bytes at even places stay together with those after them.
#[inline(always)]
fn moves_pairs(places: [u8; 16]) -> bool {
    let mut pairs = places.chunks_exact(2);
    pairs.all(|pair| pair[0] % 2 == 0 && pair[1] == pair[0] + 1)
}

/// Returns the same bytes, which the compiler then doesn't know.
#[inline(always)]
fn unknown(mut bytes: Bytes) -> Bytes {
    // SAFETY: no instruction is executed.
    unsafe {
        core::arch::asm!("/* {0} */", inout(xmm_reg) bytes, options(pure, nomem, nostack, preserves_flags));
    }
    bytes
}

impl Level for Avx2 {
    const HAS_256_BITS: bool = true;

    type Wide = __m256i;

    /// If LLVM knows that pairs are moved within halves, it moves them by two instructions, `vpshuflw` and `vpshufhw`.
    #[inline(always)]
    fn permuted_at(table: Bytes, places: [u8; 16]) -> Bytes {
        let bytes = from_array(places);
        let places = if moves_pairs(places) {
            unknown(bytes)
        } else {
            bytes
        };
        Self::permuted(table, places)
    }

    #[inline(always)]
    fn outlined<C: Call>(call: C) -> C::Output {
        // SAFETY: only `run` names this level, where the processor has the features.
        unsafe { call_avx2(call) }
    }

    #[inline(always)]
    fn permuted(table: Bytes, places: Bytes) -> Bytes {
        // SAFETY: only `run` names this level, where the processor has AVX2, and so SSSE3.
        unsafe { _mm_shuffle_epi8(table, places) }
    }

    #[inline(always)]
    fn wide(low: Bytes, high: Bytes) -> __m256i {
        // SAFETY: only `run` names this level, where the processor has AVX2.
        unsafe { _mm256_set_m128i(high, low) }
    }

    #[inline(always)]
    fn halves(wide: __m256i) -> (Bytes, Bytes) {
        // SAFETY: as above.
        unsafe {
            (
                _mm256_castsi256_si128(wide),
                _mm256_extracti128_si256::<1>(wide),
            )
        }
    }

    #[inline(always)]
    fn wide_xor(a: __m256i, b: __m256i) -> __m256i {
        // SAFETY: as above.
        unsafe { _mm256_xor_si256(a, b) }
    }

    #[inline(always)]
    fn wide_and(a: __m256i, b: __m256i) -> __m256i {
        // SAFETY: as above.
        unsafe { _mm256_and_si256(a, b) }
    }

    #[inline(always)]
    fn wide_shl(a: __m256i, n: u32) -> __m256i {
        // SAFETY: as above.
        unsafe { _mm256_sll_epi64(a, _mm_cvtsi32_si128(n as i32)) }
    }

    #[inline(always)]
    fn wide_shr(a: __m256i, n: u32) -> __m256i {
        // SAFETY: as above.
        unsafe { _mm256_srl_epi64(a, _mm_cvtsi32_si128(n as i32)) }
    }
}

/// The names of the levels, the lowest first.
const LEVELS: [&str; 3] = ["SSE2", "SSSE3", "AVX2"];
const SSSE3: u8 = 1;
const AVX2: u8 = 2;
/// Before the processor was asked.
const UNKNOWN: u8 = 3;

/// The number of the level in `LEVELS`.
static LEVEL: AtomicU8 = AtomicU8::new(UNKNOWN);

/// Returns whether the processor has these features or, without the feature `std`, whether the compilation is for one that has.
macro_rules! has {
    ($($feature:tt),*) => {{
        #[cfg(feature = "std")]
        let has = true $(&& std::is_x86_feature_detected!($feature))*;
        #[cfg(not(feature = "std"))]
        let has = true $(&& cfg!(target_feature = $feature))*;
        has
    }};
}

/// The functions of a level: whether the processor has these features, and a job and a call that are compiled for them.
macro_rules! functions {
    ($level:ident, $has:ident, $run:ident, $call:ident: $($feature:tt),*) => {
        /// Returns whether a job can run at the level.
        fn $has() -> bool {
            has!($($feature),*)
        }

        /// Runs a job at the level.
        ///
        /// # Safety
        ///
        /// The processor must have the features.
        #[target_feature($(enable = $feature),*)]
        unsafe fn $run<J: Job>(job: J) -> J::Output {
            job.run::<$level>()
        }

        /// Makes a call at the level.
        ///
        /// # Safety
        ///
        /// The processor must have the features.
        #[target_feature($(enable = $feature),*)]
        #[inline(never)]
        unsafe fn $call<C: Call>(call: C) -> C::Output {
            call.call()
        }
    };
}

functions!(Avx2, has_avx2, run_avx2, call_avx2: "avx2", "bmi1", "bmi2", "fma", "lzcnt", "movbe", "popcnt", "sse4.2", "ssse3");
functions!(Ssse3, has_ssse3, run_ssse3, call_ssse3: "popcnt", "sse4.2", "ssse3");

#[cold]
fn ask() -> u8 {
    let level = if has_avx2() {
        AVX2
    } else if has_ssse3() {
        SSSE3
    } else {
        0
    };
    LEVEL.fetch_min(level, Ordering::Relaxed).min(level)
}

#[inline(always)]
fn level() -> u8 {
    match LEVEL.load(Ordering::Relaxed) {
        UNKNOWN => ask(),
        level => level,
    }
}

/// Returns the names of the levels that the processor has, the lowest first.
pub fn levels() -> &'static [&'static str] {
    &LEVELS[..usize::from(level()) + 1]
}

/// Lowers the level of all jobs from now on to the first `count` of [`levels`], for tests. Nothing raises it again.
///
/// # Panics
///
/// Panics if `count` is zero.
pub fn at_most(count: usize) {
    assert_ne!(count, 0);
    let highest = u8::try_from(count - 1).unwrap_or(UNKNOWN);
    LEVEL.store(level().min(highest), Ordering::Relaxed);
}

/// Returns whether jobs run at a level with vectors of 256 bits.
#[inline]
pub fn has_256_bits() -> bool {
    level() == AVX2
}

/// Runs a job at the highest level that the processor has.
#[inline]
pub fn run<J: Job>(job: J) -> J::Output {
    match level() {
        // SAFETY: the level is this only where `ask` has found all features that the function has.
        AVX2 => unsafe { run_avx2(job) },
        // SAFETY: as above.
        SSSE3 => unsafe { run_ssse3(job) },
        _ => job.run::<Sse2>(),
    }
}
