// Written by tools/rust from crates/aead_ciphers_wide/src/aes/permuted.rt. Don't edit.
//! The steps of an AES round (FIPS 197 section 5.1) on the bytes of a block, by byte permutes (M. Hamburg, Accelerating AES with
//! Vector Permute Instructions, 2009).
//!
//! A look-up in a table of 16 bytes permutes the bytes of a vector, so no memory is read at an index that depends on a byte.
//!
//! A field of 16 elements has 0 and the powers of w = {0d}, where w^4 = w^3 + {01}. The number of an element has its
//! coordinates over {01}, w, w^2 = {51} and w^3 = {b0} as bits, the lowest first. Each byte is k + i s for two elements k and i
//! and s = {34}, where s^2 = a s + a for a = {0c}, whose number is 3. The digits of a byte are those numbers: the low half is
//! that of k, the high half that of i. With j = i + k, its inverse is {9c} / io + {6f} / jo, where
//!
//! io = j + 1 / (1 / i + a / k) and jo = i + 1 / (1 / j + a / k).
//!
//! 1 / 0 is infinity, as is its sum with an element, and 1 / infinity is 0: in its place the tables have a number from 128 on, at
//! which a look-up gives 0.

use crate::permute::look_up;
use aead_ciphers_base::aes::Block;
use simd::u8x16;

/// The digits of each byte below 16.
const LOW_DIGITS: [u8; 16] = [
    0, 1, 39, 38, 192, 193, 231, 230, 195, 194, 228, 229, 3, 2, 36, 37,
];

/// The digits of 16 times each byte below 16, as a number.
const HIGH_DIGITS: [u8; 16] = [
    0, 170, 122, 208, 175, 5, 213, 127, 216, 114, 162, 8, 119, 221, 13, 167,
];

/// The number of the inverse of the element with each number.
const INVERSES: [u8; 16] = [128, 1, 12, 8, 6, 15, 4, 14, 3, 13, 11, 10, 2, 9, 7, 5];

/// The number of a times the inverse of the element with each number.
const SCALED_INVERSES: [u8; 16] = [128, 3, 13, 1, 10, 8, 12, 11, 5, 14, 4, 7, 6, 2, 9, 15];

/// The affine transformation of {9c} / io, without {63}, by the number of io.
const FROM_IO: [u8; 16] = [
    0, 250, 53, 106, 43, 187, 95, 65, 142, 207, 228, 30, 116, 144, 209, 165,
];

/// The affine transformation of {6f} / jo, without {63}, by the number of jo.
const FROM_JO: [u8; 16] = [
    0, 129, 153, 118, 10, 253, 239, 124, 100, 24, 18, 147, 229, 247, 139, 110,
];

/// Replaces each byte by its S-box value (FIPS 197 section 5.1.1).
// ensures { result ≡ map sbox bytes }
#[inline(always)]
pub(crate) fn sub_each<V: simd::Level>(bytes: u8x16<V>) -> u8x16<V> {
    let fifteen = u8x16::<V>::splat(15);
    let four = u8x16::<V>::splat(4);
    let low = look_up(LOW_DIGITS, bytes & fifteen);
    let high = look_up(HIGH_DIGITS, bytes >> four);
    let x = low ^ high;
    let k = x & fifteen;
    let i = x >> four;
    let j = i ^ k;
    let scaled = look_up(SCALED_INVERSES, k);
    let of_i = look_up(INVERSES, i) ^ scaled;
    let of_j = look_up(INVERSES, j) ^ scaled;
    let io = look_up(INVERSES, of_i) ^ j;
    let jo = look_up(INVERSES, of_j) ^ i;
    look_up(FROM_IO, io) ^ look_up(FROM_JO, jo) ^ u8x16::<V>::splat(0x63)
}

/// Multiplies each byte by {02}, the polynomial x (FIPS 197 section 4.2).
// ensures { result ≡ map (mul8 2) bytes }
#[inline(always)]
fn times_x<V: simd::Level>(bytes: u8x16<V>) -> u8x16<V> {
    let tops = bytes >> u8x16::<V>::splat(7);
    (bytes << u8x16::<V>::splat(1)) ^ (tops.wrapping_neg() & u8x16::<V>::splat(0x1b))
}

/// Shifts the rows (FIPS 197 section 5.1.2).
// ensures { result ≡ shift_rows block }
#[inline(always)]
fn shift_rows<V: simd::Level>(block: u8x16<V>) -> u8x16<V> {
    block.swizzle([0, 5, 10, 15, 4, 9, 14, 3, 8, 13, 2, 7, 12, 1, 6, 11])
}

/// Moves the byte of each row up by one row, cyclically.
// ensures { result ≡ state (λ r c. at block ((r + 1) % 4) c) }
#[inline(always)]
fn rows_up_by_one<V: simd::Level>(block: u8x16<V>) -> u8x16<V> {
    block.swizzle([1, 2, 3, 0, 5, 6, 7, 4, 9, 10, 11, 8, 13, 14, 15, 12])
}

/// Moves the byte of each row up by two rows, cyclically.
// ensures { result ≡ state (λ r c. at block ((r + 2) % 4) c) }
#[inline(always)]
fn rows_up_by_two<V: simd::Level>(block: u8x16<V>) -> u8x16<V> {
    block.swizzle([2, 3, 0, 1, 6, 7, 4, 5, 10, 11, 8, 9, 14, 15, 12, 13])
}

/// Mixes the columns (FIPS 197 section 5.1.3).
// ensures { result ≡ mix_columns block }
#[inline(always)]
fn mix_columns<V: simd::Level>(block: u8x16<V>) -> u8x16<V> {
    let below = rows_up_by_one(block);
    let sum = block ^ below;
    times_x(sum) ^ below ^ rows_up_by_two(sum)
}

/// Adds a round key (FIPS 197 section 5.1.4).
// ensures { result ≡ state (λ r c. at block r c ⊻ at round_key.now r c) }
#[inline(always)]
pub(crate) fn add_round_key<V: simd::Level>(block: u8x16<V>, round_key: &Block) -> u8x16<V> {
    block ^ u8x16::<V>::from_array(*round_key)
}

/// Applies SubBytes, ShiftRows and MixColumns, and adds a round key (FIPS 197 section 5.1).
// ensures { let mixed = mix_columns (shift_rows (sub_bytes block)) in
//     result ≡ state (λ r c. at mixed r c ⊻ at round_key.now r c) }
#[inline(always)]
pub(crate) fn round<V: simd::Level>(block: u8x16<V>, round_key: &Block) -> u8x16<V> {
    add_round_key(mix_columns(shift_rows(sub_each(block))), round_key)
}

/// Does the same as `round` without MixColumns, as in the last round.
// ensures { let shifted = shift_rows (sub_bytes block) in
//     result ≡ state (λ r c. at shifted r c ⊻ at round_key.now r c) }
#[inline(always)]
pub(crate) fn last_round<V: simd::Level>(block: u8x16<V>, round_key: &Block) -> u8x16<V> {
    add_round_key(shift_rows(sub_each(block)), round_key)
}
