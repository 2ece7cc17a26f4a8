// Written by tools/rust from crates/aead_ciphers_base/src/chacha/lanes.rt. Don't edit.
//! ChaCha20's block function (RFC 8439 section 2.3) on four states at a time, side by side in vectors.

use super::State;
use simd::u32x4;

/// Four states: word `k` of state `j` is lane `j` of vector `k`.
type States = [u32x4; 16];

// ensures { (j : ℕ) → j < 4 → slice_index result j ≡ add32 (slice_index a j) (slice_index b j) }
#[inline(always)]
pub(super) fn add(a: u32x4, b: u32x4) -> u32x4 {
    a + b
}

// requires above_zero { 0 < n }
// requires below_width { n < 32 }
// ensures { (j : ℕ) → j < 4
//     → slice_index result j ≡ xor_rotate (slice_index a j) (slice_index b j) n }
#[inline(always)]
fn xor_rotate(a: u32x4, b: u32x4, n: u32) -> u32x4 {
    let x = a ^ b;
    (x << u32x4::splat(n)) | (x >> u32x4::splat(32 - n))
}

// ensures { (j : ℕ) → j < 4 →
//     let at = λ (v : List ℕ). slice_index v j in
//     (at result.0, at result.1, at result.2, at result.3)
//     ≡ quarter_round (at a) (at b) (at c) (at d) }
#[inline(always)]
pub(super) fn quarter_round(
    a: u32x4,
    b: u32x4,
    c: u32x4,
    d: u32x4,
) -> (u32x4, u32x4, u32x4, u32x4) {
    let a1 = add(a, b);
    let d1 = xor_rotate(d, a1, 16);
    let c1 = add(c, d1);
    let b1 = xor_rotate(b, c1, 12);
    let a2 = add(a1, b1);
    let d2 = xor_rotate(d1, a2, 8);
    let c2 = add(c1, d2);
    let b2 = xor_rotate(b1, c2, 7);
    (a2, b2, c2, d2)
}

// ensures { (j : ℕ) → j < 4 → lane j result ≡ double_round (lane j x) }
#[inline(always)]
fn double_round(x: States) -> States {
    let (x0, x4, x8, x12) = quarter_round(x[0], x[4], x[8], x[12]);
    let (x1, x5, x9, x13) = quarter_round(x[1], x[5], x[9], x[13]);
    let (x2, x6, x10, x14) = quarter_round(x[2], x[6], x[10], x[14]);
    let (x3, x7, x11, x15) = quarter_round(x[3], x[7], x[11], x[15]);
    let (x0, x5, x10, x15) = quarter_round(x0, x5, x10, x15);
    let (x1, x6, x11, x12) = quarter_round(x1, x6, x11, x12);
    let (x2, x7, x8, x13) = quarter_round(x2, x7, x8, x13);
    let (x3, x4, x9, x14) = quarter_round(x3, x4, x9, x14);
    [
        x0, x1, x2, x3, x4, x5, x6, x7, x8, x9, x10, x11, x12, x13, x14, x15,
    ]
}

/// Returns four copies of a state, whose block counters (word 12) count up from its own.
// ensures { (j : ℕ) → j < 4
//     → lane j result ≡ slice_set state.now 12 (add32 (slice_index state.now 12) j) }
#[inline(always)]
fn four_states(state: &State) -> States {
    [
        u32x4::splat(state[0]),
        u32x4::splat(state[1]),
        u32x4::splat(state[2]),
        u32x4::splat(state[3]),
        u32x4::splat(state[4]),
        u32x4::splat(state[5]),
        u32x4::splat(state[6]),
        u32x4::splat(state[7]),
        u32x4::splat(state[8]),
        u32x4::splat(state[9]),
        u32x4::splat(state[10]),
        u32x4::splat(state[11]),
        add(u32x4::splat(state[12]), u32x4::from_array([0, 1, 2, 3])),
        u32x4::splat(state[13]),
        u32x4::splat(state[14]),
        u32x4::splat(state[15]),
    ]
}

/// Computes the blocks of a state and of those of the next three block counters, and returns their words,
/// one block after another.
// ensures { (j k : ℕ) → j < 4 → k < 16 →
//     let counted = slice_set state.now 12 (add32 (slice_index state.now 12) j) in
//     slice_index result (16 * j + k)
//     ≡ slice_index (zip2 add32 (iterate double_round 10 counted) counted) k }
#[inline(always)]
pub(super) fn four_blocks(state: &State) -> [u32; 64] {
    let states = four_states(state);
    let mut x = states;
    for _round in 0..10u32 {
        x = double_round(x);
    }
    let mut words = [0; 64];
    for k in 0..16 {
        let [w0, w1, w2, w3] = add(x[k], states[k]).to_array();
        words[k] = w0;
        words[16 + k] = w1;
        words[32 + k] = w2;
        words[48 + k] = w3;
    }
    words
}
