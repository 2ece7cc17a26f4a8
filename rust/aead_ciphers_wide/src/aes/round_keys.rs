// Written by tools/rust from crates/aead_ciphers_wide/src/aes/round_keys.rt. Don't edit.
//! AES round keys as blocks, and as the planes that a pass adds. The planes hold a round key eight times, once for each block, since
//! spreading words in each round took a tenth of a pass.

use crate::word::{WiderWord, Word};
use aead_ciphers_base::aes::{Block, RoundKeyPlanes};
use simd::u8x16;

/// The round keys of a key.
pub type RoundKeys = [Block; 15];

/// The eight planes of a round key, of 128 bits each, in two words each, the lower word first.
pub type KeyPlanes = [u64; 16];

/// The planes of the round keys of a key.
pub type RoundPlanes = [KeyPlanes; 15];

/// <details><summary>Ghost items</summary>
///
/// ```text
/// ghost held = { planes_of };
/// ```
///
/// Definitions: [`planes_of`](crate::specs::wide_schedule#planes_of).
///
/// </details>
impl<V: simd::Level> RoundKeyPlanes<Word<V>> for KeyPlanes {
    #[inline(always)]
    fn planes(&self) -> [Word<V>; 8] {
        [
            Word::<V>::new(self[0], self[1]),
            Word::<V>::new(self[2], self[3]),
            Word::<V>::new(self[4], self[5]),
            Word::<V>::new(self[6], self[7]),
            Word::<V>::new(self[8], self[9]),
            Word::<V>::new(self[10], self[11]),
            Word::<V>::new(self[12], self[13]),
            Word::<V>::new(self[14], self[15]),
        ]
    }
}

/// The word both of whose halves have these lanes, the least significant first.
// ensures { result ≡ twice (high * 2 ^ 64 + low) }
#[inline(always)]
fn both_halves<V: simd::Level>(low: u64, high: u64) -> WiderWord<V> {
    let half = Word::<V>::new(low, high);
    WiderWord::<V>::new(half, half)
}

/// <details><summary>Ghost items</summary>
///
/// ```text
/// ghost held = { λ key. map twice (planes_of key) };
/// ```
///
/// Definitions: [`twice`](crate::specs::word#twice), [`planes_of`](crate::specs::wide_schedule#planes_of).
///
/// </details>
impl<V: simd::Level> RoundKeyPlanes<WiderWord<V>> for KeyPlanes {
    #[inline(always)]
    fn planes(&self) -> [WiderWord<V>; 8] {
        [
            both_halves::<V>(self[0], self[1]),
            both_halves::<V>(self[2], self[3]),
            both_halves::<V>(self[4], self[5]),
            both_halves::<V>(self[6], self[7]),
            both_halves::<V>(self[8], self[9]),
            both_halves::<V>(self[10], self[11]),
            both_halves::<V>(self[12], self[13]),
            both_halves::<V>(self[14], self[15]),
        ]
    }
}

/// Returns the plane of bit `bit` of each digit in two words, the lower word first. The digits are in base 16.
// requires bit { bit < 4 }
// requires digits { (i : ℕ) → i < 16 → slice_index digits i < 16 }
// ensures { (p : ℕ) → p < 128
//     → bit_at (result.1 * 2 ^ 64 + result.0) p ≡ bit_at (slice_index digits (p / 8)) bit }
#[inline(always)]
fn plane_of<V: simd::Level>(digits: u8x16<V>, bit: usize) -> (u64, u64) {
    Word::<V>::filled(digits, bit).lanes()
}

/// Packs a round key into each of the eight blocks.
// ensures { (p : ℕ) → p < 128
//     → plane_byte (planes_of result) p ≡ slice_index block (p / 8) }
#[inline(always)]
fn pack_round_key<V: simd::Level>(block: Block) -> KeyPlanes {
    let bytes = u8x16::<V>::from_array(block);
    let low = bytes & u8x16::<V>::splat(15);
    let high = bytes >> u8x16::<V>::splat(4);
    let (a0, a1) = plane_of(low, 0);
    let (b0, b1) = plane_of(low, 1);
    let (c0, c1) = plane_of(low, 2);
    let (d0, d1) = plane_of(low, 3);
    let (e0, e1) = plane_of(high, 0);
    let (f0, f1) = plane_of(high, 1);
    let (g0, g1) = plane_of(high, 2);
    let (h0, h1) = plane_of(high, 3);
    [
        a0, a1, b0, b1, c0, c1, d0, d1, e0, e1, f0, f1, g0, g1, h0, h1,
    ]
}

/// Returns the bytes of two blocks, one after the other.
// ensures first { take 16 result ≡ first }
// ensures second { drop 16 result ≡ second }
#[inline(always)]
pub(crate) fn joined(first: Block, second: Block) -> [u8; 32] {
    let mut both = [0; 32];
    both[..16].copy_from_slice(&first);
    both[16..].copy_from_slice(&second);
    both
}

/// Writes zeros to the places that a key of 10 rounds doesn't use. A key of more rounds then overwrites some. Clearing only
/// the places after a key's own took three times as many instructions.
// requires { length rows.old ≡ 15 }
// ensures size { length rows.new ≡ 15 }
// ensures cleared { (j : ℕ) (d : T) → 10 < j → j < 15 → slice_index_or rows.new j d ≡ zero }
#[inline(always)]
pub(super) fn clear_last_four<T: Copy>(rows: &mut [T], zero: T) {
    for j in 11..15 {
        rows[j] = zero;
    }
}

/// Writes the planes of the first `rounds + 1` round keys, and zeros after them if there are at least 10 rounds.
///
/// <details><summary>Contract</summary>
///
/// ```text
/// requires { rounds ≤ 14 }
/// ensures planes { HoldsPlanes planes.new round_keys.now (rounds + 1) }
/// ensures unused { 10 ≤ rounds → AreZerosAfter planes.new rounds }
/// ```
///
/// Definitions: [`HoldsPlanes`](crate::specs::wide_schedule#HoldsPlanes),
/// [`AreZerosAfter`](crate::specs::wide_schedule#AreZerosAfter).
///
/// </details>
#[inline(always)]
pub fn write_planes<V: simd::Level>(
    planes: &mut RoundPlanes,
    round_keys: &RoundKeys,
    rounds: usize,
) {
    clear_last_four(planes, [0; 16]);
    for j in 0..rounds + 1 {
        planes[j] = pack_round_key::<V>(round_keys[j]);
    }
}
