// Written by tools/rust from crates/aead_ciphers_base/src/bb.rt. Don't edit.
//! Building blocks of the ciphers: comparing two slices of bytes, and XORing blocks and slices.

use crate::error::Unspecified;

/// Verifies that two slices are equal. Fails with `Unspecified` if they differ.
///
/// For slices of one length the loop reads every byte, wherever they differ. No clause says so.
///
/// <details><summary>Contract</summary>
///
/// ```text
/// ensures { IsOk result ↔ (a.now ≡ b.now) }
/// ```
///
/// </details>
#[inline(always)]
pub fn verify_slices_are_equal(a: &[u8], b: &[u8]) -> Result<(), Unspecified> {
    if a.len() != b.len() {
        return Err(Unspecified);
    }
    let mut difference = 0u8;
    for i in 0..a.len() {
        difference |= a[i] ^ b[i];
    }
    if is_zero(difference) {
        Ok(())
    } else {
        Err(Unspecified)
    }
}

/// Returns whether `difference` is 0. Not inlined, so that the compiler computes `difference` from all bytes instead of
/// returning at the first that differs.
// ensures { IsTrue result ↔ (difference ≡ 0) }
#[inline(never)]
fn is_zero(difference: u8) -> bool {
    difference == 0
}

/// Returns the XOR of two blocks of 16 bytes.
///
/// <details><summary>Contract</summary>
///
/// ```text
/// ensures { result ≡ a ⊕ b }
/// ```
///
/// Definitions: [`⊕`](crate::specs::bytes#⊕).
///
/// </details>
#[inline(always)]
pub fn xor_16(a: [u8; 16], b: [u8; 16]) -> [u8; 16] {
    let mut r = a;
    xor_assign_at_start(&mut r, &b);
    r
}

/// XORs `b` into each byte of `a`.
///
/// <details><summary>Contract</summary>
///
/// ```text
/// ensures { a.new ≡ map (λ x. bit_xor x b) a.old }
/// ```
///
/// </details>
#[inline(always)]
pub fn xor_assign(a: &mut [u8], b: u8) {
    for i in 0..a.len() {
        a[i] ^= b;
    }
}

/// XORs the bytes of `b` into the first bytes of `a`, up to the end of the shorter slice. The other
/// bytes of `a` are unchanged.
///
/// <details><summary>Contract</summary>
///
/// ```text
/// ensures { a.new ≡ (a.old ⊕ b.now) ++ drop (length b.now) a.old }
/// ```
///
/// Definitions: [`⊕`](crate::specs::bytes#⊕).
///
/// </details>
#[inline(always)]
pub fn xor_assign_at_start(a: &mut [u8], b: &[u8]) {
    let count = a.len().min(b.len());
    for i in 0..count {
        a[i] ^= b[i];
    }
}
