// Written by tools/rust from crates/aead_ciphers_wide/src/aes/key_schedule.rt. Don't edit.
//! The AES key schedule (FIPS 197 section 5.2), a round key at a time: the columns of a vector are its four words. The
//! compiler would copy words of four bytes one by one.

use super::permuted::sub_each;
use super::round_keys::{RoundKeys, clear_last_four};
use crate::permute::look_up;
use aead_ciphers_base::aes::{BLOCK_LEN, ZERO_BLOCK};
use simd::u8x16;

/// The first byte of each round constant Rcon.
const ROUND_CONSTANTS: [u8; 10] = [0x01, 0x02, 0x04, 0x08, 0x10, 0x20, 0x40, 0x80, 0x1b, 0x36];

/// Returns a vector each of whose columns is round constant `n`.
// requires { n < 10 }
// ensures { result ≡ state (λ r c. if r == 0 then power_of_x n else 0) }
#[inline(always)]
fn round_constant<V: simd::Level>(n: usize) -> u8x16<V> {
    let x = ROUND_CONSTANTS[n];
    u8x16::<V>::from_array([x, 0, 0, 0, x, 0, 0, 0, x, 0, 0, 0, x, 0, 0, 0])
}

/// Moves each column to the next place. The first becomes zero.
// ensures { result ≡ state (λ r c. if c == 0 then 0 else at block r (c - 1)) }
#[inline(always)]
fn shift_columns_by_one<V: simd::Level>(block: u8x16<V>) -> u8x16<V> {
    look_up(
        block.to_array(),
        u8x16::<V>::from_array([128, 128, 128, 128, 0, 1, 2, 3, 4, 5, 6, 7, 8, 9, 10, 11]),
    )
}

/// Moves each column by two places. The first two become zero.
// ensures { result ≡ state (λ r c. if nat_lt c 2 then 0 else at block r (c - 2)) }
#[inline(always)]
fn shift_columns_by_two<V: simd::Level>(block: u8x16<V>) -> u8x16<V> {
    look_up(
        block.to_array(),
        u8x16::<V>::from_array([
            128, 128, 128, 128, 128, 128, 128, 128, 0, 1, 2, 3, 4, 5, 6, 7,
        ]),
    )
}

/// Returns a vector each of whose columns is the last column.
// ensures { result ≡ state (λ r c. at block r 3) }
#[inline(always)]
fn last_column<V: simd::Level>(block: u8x16<V>) -> u8x16<V> {
    block.swizzle([
        12, 13, 14, 15, 12, 13, 14, 15, 12, 13, 14, 15, 12, 13, 14, 15,
    ])
}

/// Returns a vector each of whose columns is RotWord of the last column.
// ensures { result ≡ state (λ r c. at block ((r + 1) % 4) 3) }
#[inline(always)]
fn rotated_column<V: simd::Level>(block: u8x16<V>) -> u8x16<V> {
    block.swizzle([
        13, 14, 15, 12, 13, 14, 15, 12, 13, 14, 15, 12, 13, 14, 15, 12,
    ])
}

/// Returns a vector each of whose columns is SubWord of RotWord of the last column, with round constant `i` added.
// requires { i < 10 }
// ensures { (c : ℕ) → c < 4 → column result c
//     ≡ sub_word (rot_word (column last 3)) ⊕ (power_of_x i ∷ 0 ∷ 0 ∷ 0 ∷ []) }
#[inline(always)]
fn sub_rot_last_word<V: simd::Level>(last: u8x16<V>, i: usize) -> u8x16<V> {
    sub_each(rotated_column(last)) ^ round_constant::<V>(i)
}

/// Returns a vector each of whose columns is SubWord of the last column.
// ensures { (c : ℕ) → c < 4 → column result c ≡ sub_word (column last 3) }
#[inline(always)]
fn sub_last_word<V: simd::Level>(last: u8x16<V>) -> u8x16<V> {
    sub_each(last_column(last))
}

/// Returns a vector each of whose columns is the last word before round key `n` of a key of `m` blocks, transformed as it is before
/// it is added to the first word of that round key.
// requires blocks { 0 < m }
// requires from { m ≤ n }
// requires below { n / m ≤ 10 }
// ensures turned { n % m ≡ 0 → (c : ℕ) → c < 4 → column result c
//     ≡ sub_word (rot_word (column last 3)) ⊕ (power_of_x (n / m - 1) ∷ 0 ∷ 0 ∷ 0 ∷ []) }
// ensures middle { n % m ≢ 0 → (c : ℕ) → c < 4 → column result c ≡ sub_word (column last 3) }
#[inline(always)]
fn transformed<V: simd::Level>(last: u8x16<V>, n: usize, m: usize) -> u8x16<V> {
    if n % m == 0 {
        sub_rot_last_word(last, n / m - 1)
    } else {
        sub_last_word(last)
    }
}

/// Returns the words each of which is the sum of the word in `back` and of the word before it, which is `word` for the first.
// requires { (c : ℕ) → c < 4 → column word c ≡ column word 0 }
// ensures first { column result 0 ≡ column back 0 ⊕ column word 0 }
// ensures others { (c : ℕ) → c < 3 → column result (c + 1) ≡ column back (c + 1) ⊕ column result c }
#[inline(always)]
fn next_round_key<V: simd::Level>(back: u8x16<V>, word: u8x16<V>) -> u8x16<V> {
    let two = back ^ shift_columns_by_one(back);
    let four = two ^ shift_columns_by_two(two);
    four ^ word
}

/// Copies the key to the first round keys.
// requires { length key.now ≤ 240 }
// ensures later { (j : ℕ) → length key.now / 16 ≤ j → key_at round_keys.new j ≡ key_at round_keys.old j }
// ensures copied { (j k : ℕ) → j < length key.now / 16 → k < 16
//     → slice_index (key_at round_keys.new j) k ≡ slice_index key.now (16 * j + k) }
#[inline(always)]
fn copy_key(round_keys: &mut RoundKeys, key: &[u8]) {
    for n in 0..key.len() / BLOCK_LEN {
        let mut block = ZERO_BLOCK;
        block.copy_from_slice(&key[BLOCK_LEN * n..BLOCK_LEN * n + BLOCK_LEN]);
        round_keys[n] = block;
    }
}

/// Expands a key of 16 or 32 bytes: writes its 11 or 15 round keys, and zeros after them.
///
/// <details><summary>Contract</summary>
///
/// ```text
/// requires { (length key.now ≡ 16) ⊎ (length key.now ≡ 32) }
/// ensures words { let nk = length key.now / 4 in
///     HoldsWords round_keys.new (key_words nk key.now (4 * (nk + 7) - nk)) (nk + 7) }
/// ensures unused { AreZerosAfter round_keys.new (length key.now / 4 + 6) }
/// ```
///
/// Definitions: [`HoldsWords`](crate::specs::wide_schedule#HoldsWords),
/// [`key_words`](aead_ciphers_base::specs::aes#key_words),
/// [`AreZerosAfter`](crate::specs::wide_schedule#AreZerosAfter).
///
/// </details>
#[inline(always)]
pub fn expand<V: simd::Level>(round_keys: &mut RoundKeys, key: &[u8]) {
    clear_last_four(round_keys, ZERO_BLOCK);
    copy_key(round_keys, key);
    let m = key.len() / BLOCK_LEN;
    // The round keys that the next one is made of. A load of them from `round_keys` would wait for the last store.
    let mut back = u8x16::<V>::from_array(round_keys[0]);
    let mut last = u8x16::<V>::from_array(round_keys[m - 1]);
    for n in m..4 * m + 7 {
        let word = transformed(last, n, m);
        let next = next_round_key(back, word);
        round_keys[n] = next.to_array();
        back = if m == 1 { next } else { last };
        last = next;
    }
}
