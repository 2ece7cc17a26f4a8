// Written by tools/rust from crates/aead_ciphers_base/src/chacha/rows.rt. Don't edit.
//! ChaCha20's block function (RFC 8439 section 2.3) on one state, whose four rows are vectors.

use super::lanes::{add, quarter_round};
use super::{BLOCK_LEN, State, write_le_bytes};
use simd::u32x4;

/// Applies a quarter round to each column, and then to each diagonal, which becomes a column when the
/// rows are rotated.
// ensures { state_of_rows result.0 result.1 result.2 result.3
//     ≡ double_round (state_of_rows a b c d) }
#[inline(always)]
fn double_round(a: u32x4, b: u32x4, c: u32x4, d: u32x4) -> (u32x4, u32x4, u32x4, u32x4) {
    let (a1, b1, c1, d1) = quarter_round(a, b, c, d);
    let (a2, b2, c2, d2) = quarter_round(
        a1,
        b1.rotate_elements_left::<1>(),
        c1.rotate_elements_left::<2>(),
        d1.rotate_elements_left::<3>(),
    );
    (
        a2,
        b2.rotate_elements_left::<3>(),
        c2.rotate_elements_left::<2>(),
        d2.rotate_elements_left::<1>(),
    )
}

/// Computes the block of an initial state.
// ensures { result ≡ state_block state.now }
#[inline(always)]
pub(super) fn state_block(state: &State) -> [u8; BLOCK_LEN] {
    let a = u32x4::from_slice(&state[..4]);
    let b = u32x4::from_slice(&state[4..8]);
    let c = u32x4::from_slice(&state[8..12]);
    let d = u32x4::from_slice(&state[12..]);
    let mut rows = (a, b, c, d);
    for _round in 0..10u32 {
        rows = double_round(rows.0, rows.1, rows.2, rows.3);
    }
    let [w0, w1, w2, w3] = add(rows.0, a).to_array();
    let [w4, w5, w6, w7] = add(rows.1, b).to_array();
    let [w8, w9, w10, w11] = add(rows.2, c).to_array();
    let [w12, w13, w14, w15] = add(rows.3, d).to_array();
    let words = [
        w0, w1, w2, w3, w4, w5, w6, w7, w8, w9, w10, w11, w12, w13, w14, w15,
    ];
    let mut bytes = [0; BLOCK_LEN];
    write_le_bytes(&words, &mut bytes);
    bytes
}
