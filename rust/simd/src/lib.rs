//! Vectors of integers, at the level of the running processor.
//!
//! This is the one package of Deerlapse with `unsafe` code. The others forbid it, and compute with the vectors of this one:
//! [`u8x16`], [`u64x2`] and [`u64x4`], whose type parameter is a [`Level`], and [`u32x4`], which each processor has.
//!
//! A level is a set of instructions that not every processor has. The types that implement [`Level`] have no public names: only a
//! [`Job`] gets one, as a type parameter, and [`run`] runs the job after it has asked the processor. A safe call therefore never
//! runs an instruction that the processor lacks.
//!
//! ```
//! /// Looks up four places of a table of 16 bytes.
//! struct LookUp;
//!
//! impl simd::Job for LookUp {
//!     type Output = [u8; 16];
//!
//!     #[inline(always)]
//!     fn run<V: simd::Level>(self) -> [u8; 16] {
//!         let table = simd::u8x16::<V>::from_array(*b"0123456789abcdef");
//!         table.swizzle_dyn(simd::u8x16::splat(11)).to_array()
//!     }
//! }
//!
//! assert_eq!(simd::run(LookUp), *b"bbbbbbbbbbbbbbbb");
//! ```
//!
//! | Target | Levels |
//! |---|---|
//! | x86-64 | SSE2, which each processor has; SSSE3 and what else x86-64-v2 has; AVX2 and what else x86-64-v3 has |
//! | ARM64, little-endian | NEON |
//! | each other | numbers of 64 bits, whatever the order of bytes in memory is |
//!
//! With SSE2 alone and on numbers of 64 bits, a permutation reads all sixteen bytes of the table for each place, by masks: no index
//! of memory depends on a place. Only where the places are no secret, memory may be read at them.

#![no_std]
#![deny(unsafe_op_in_unsafe_fn)]

#[cfg(not(target_pointer_width = "64"))]
compile_error!("the proofs of Deerlapse are of 64 bits in a usize");

#[cfg(feature = "std")]
extern crate std;

mod arrays;
mod level;
mod vectors;
mod wide;
mod wipe;
mod words;

#[cfg(all(
    target_arch = "aarch64",
    target_feature = "neon",
    target_endian = "little"
))]
#[path = "aarch64.rs"]
mod processor;
#[cfg(not(any(
    target_arch = "x86_64",
    all(
        target_arch = "aarch64",
        target_feature = "neon",
        target_endian = "little"
    )
)))]
#[path = "portable.rs"]
mod processor;
#[cfg(target_arch = "x86_64")]
#[path = "x86_64.rs"]
mod processor;

pub use arrays::{array_of, array_of_mut};
pub use level::{Call, Job, Level};
pub use processor::{at_most, has_256_bits, levels, run};
pub use vectors::{Places, u8x16, u64x2};
pub use wide::u64x4;
pub use wipe::{Plain, wipe};
pub use words::u32x4;
