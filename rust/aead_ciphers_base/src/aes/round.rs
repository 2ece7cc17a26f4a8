// Written by tools/rust from crates/aead_ciphers_base/src/aes/round.rt. Don't edit.
//! The steps of an AES round on planes (FIPS 197 section 5.1), except SubBytes.

use super::plane::Plane;

/// Multiplies each byte by {02}, the polynomial x (FIPS 197 section 4.2).
// ensures { (p : ℕ) → plane_byte (map P.number result) p ≡ mul8 2 (plane_byte (map P.number a) p) }
#[inline(always)]
fn times_x<P: Plane>(a: [P; 8]) -> [P; 8] {
    let [a0, a1, a2, a3, a4, a5, a6, top] = a;
    [top, a0 ^ top, a1, a2 ^ top, a3 ^ top, a4, a5, a6]
}

// ensures { MovesBytes P.place (P.width / 16) (below 1) (map P.number a) (map P.number result) }
#[inline(always)]
fn planes_one_below<P: Plane>(a: [P; 8]) -> [P; 8] {
    let mut out = [a[0]; 8];
    for k in 0..8 {
        out[k] = a[k].one_below();
    }
    out
}

// ensures { MovesBytes P.place (P.width / 16) (below 2) (map P.number a) (map P.number result) }
#[inline(always)]
fn planes_two_below<P: Plane>(a: [P; 8]) -> [P; 8] {
    let mut out = [a[0]; 8];
    for k in 0..8 {
        out[k] = a[k].two_below();
    }
    out
}

// ensures { (p : ℕ) → plane_byte (map P.number result) p
//     ≡ bit_xor (plane_byte (map P.number a) p) (plane_byte (map P.number b) p) }
#[inline(always)]
fn add_planes<P: Plane>(a: [P; 8], b: [P; 8]) -> [P; 8] {
    let mut out = [a[0]; 8];
    for k in 0..8 {
        out[k] = a[k] ^ b[k];
    }
    out
}

/// Applies ShiftRows (FIPS 197 section 5.1.2) to each block.
///
/// <details><summary>Contract</summary>
///
/// ```text
/// ensures { (k : ℕ) → k < P.width / 16 → block_at P.place (map P.number result) k
///     ≡ shift_rows (block_at P.place (map P.number a) k) }
/// ```
///
/// Definitions: [`block_at`](crate::specs::planes#block_at), [`shift_rows`](crate::specs::aes#shift_rows).
///
/// </details>
#[inline(always)]
pub fn shift_rows<P: Plane>(a: [P; 8]) -> [P; 8] {
    let mut out = [a[0]; 8];
    for k in 0..8 {
        out[k] = a[k].rows_shifted();
    }
    out
}

/// Applies MixColumns (FIPS 197 section 5.1.3) to each block.
///
/// <details><summary>Contract</summary>
///
/// ```text
/// ensures { (k : ℕ) → k < P.width / 16 → block_at P.place (map P.number result) k
///     ≡ mix_columns (block_at P.place (map P.number a) k) }
/// ```
///
/// Definitions: [`block_at`](crate::specs::planes#block_at), [`mix_columns`](crate::specs::aes#mix_columns).
///
/// </details>
#[inline(always)]
pub fn mix_columns<P: Plane>(a: [P; 8]) -> [P; 8] {
    let b = planes_one_below(a);
    let sum = add_planes(a, b);
    let doubled = add_planes(times_x(sum), b);
    add_planes(doubled, planes_two_below(sum))
}

/// Applies AddRoundKey (FIPS 197 section 5.1.4) to each block.
///
/// <details><summary>Contract</summary>
///
/// ```text
/// ensures { (k : ℕ) → k < P.width / 16 → (w : List (List ℕ)) (j : ℕ) → HoldsRound P.place k w j (map P.number round_key)
///     → block_at P.place (map P.number result) k ≡ add_round_key w j (block_at P.place (map P.number a) k) }
/// ```
///
/// Definitions: [`HoldsRound`](crate::specs::planes#HoldsRound), [`block_at`](crate::specs::planes#block_at),
/// [`add_round_key`](crate::specs::aes#add_round_key).
///
/// </details>
#[inline(always)]
pub fn add_round_key<P: Plane>(a: [P; 8], round_key: [P; 8]) -> [P; 8] {
    add_planes(a, round_key)
}
