// Written by tools/rust from crates/aead_ciphers_wide/src/aes/transpose.rt. Don't edit.
//! The transposition of bits that packs blocks into planes, and unpacks them.

use crate::lanes::Lanes;
use aead_ciphers_base::aes::LOW;

/// A delta swap in each lane: exchanges the bits of `a` at places whose digit `k` is one with the bits of `b` at
/// places whose digit `k` is zero.
// requires { k < 6 }
// ensures first { (j q : ℕ) → j < P.width / 64 → q < 64
//     → bit_at (lane_of j (P.number result.0)) q ≡ (if bit_at q k == 0
//     then bit_at (lane_of j (P.number a)) q else bit_at (lane_of j (P.number b)) (q - 2 ^ k)) }
// ensures second { (j q : ℕ) → j < P.width / 64 → q < 64
//     → bit_at (lane_of j (P.number result.1)) q ≡ (if bit_at q k == 0
//     then bit_at (lane_of j (P.number a)) (q + 2 ^ k) else bit_at (lane_of j (P.number b)) q) }
#[inline(always)]
fn delta_swap<P: Lanes>(a: P, b: P, k: usize) -> (P, P) {
    let shift = 1u32 << k;
    let delta = (a.lanes_right(shift) ^ b) & P::splat(LOW[k]);
    (a ^ delta.lanes_left(shift), b ^ delta)
}

/// Exchanges digit `k` of each bit's place in its word with the highest digit of the word's index, and
/// then rotates the digits of the index: the highest becomes the lowest.
// requires { k < 6 }
// ensures { (j n : ℕ) → j < P.width / 64 → n < 512
//     → word_bit (lanes_of j (map P.number result)) n
//     ≡ word_bit (lanes_of j (map P.number words)) (exchanged_from k n) }
#[inline(always)]
fn exchange_digits<P: Lanes>(words: [P; 8], k: usize) -> [P; 8] {
    let [w0, w1, w2, w3, w4, w5, w6, w7] = words;
    let (r0, r1) = delta_swap(w0, w4, k);
    let (r2, r3) = delta_swap(w1, w5, k);
    let (r4, r5) = delta_swap(w2, w6, k);
    let (r6, r7) = delta_swap(w3, w7, k);
    [r0, r1, r2, r3, r4, r5, r6, r7]
}

/// Transposes the bits of each byte: bit `b` of each byte of word `i` becomes bit `i` of that byte of word `b`.
///
/// <details><summary>Contract</summary>
///
/// ```text
/// ensures { (j n : ℕ) → j < P.width / 64 → n < 512
///     → word_bit (lanes_of j (map P.number result)) n
///     ≡ word_bit (lanes_of j (map P.number words)) (n % 8 * 64 + n / 8 % 8 * 8 + n / 64) }
/// ```
///
/// Definitions: [`word_bit`](aead_ciphers_base::specs::planes#word_bit), [`lanes_of`](crate::specs::word#lanes_of).
///
/// </details>
#[inline(always)]
pub fn transpose_bits<P: Lanes>(words: [P; 8]) -> [P; 8] {
    exchange_digits(exchange_digits(exchange_digits(words, 2), 1), 0)
}
