// Written by tools/rust from crates/aead_ciphers_wide/src/permute.rt. Don't edit.
//! `look_up`, a byte permute: it replaces each byte of a vector by the byte of a table of 16 bytes to which it points.

use simd::u8x16;

/// Returns the bytes of `table` at `places`, and 0 for each place from 128 on. No memory is read at a place.
// requires { (i : ℕ) → i < 16 → (slice_index places i < 16) ⊎ (128 ≤ slice_index places i) }
// ensures { result ≡ map (slice_index table) places }
#[inline(always)]
pub(crate) fn look_up<V: simd::Level>(table: [u8; 16], places: u8x16<V>) -> u8x16<V> {
    u8x16::<V>::from_array(table).swizzle_dyn(places)
}
