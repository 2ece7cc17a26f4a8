// Written by tools/rust from crates/aead_ciphers_base/src/aes/planes.rt. Don't edit.
//! SubBytes (FIPS 197 section 5.1.1) on 64 bytes at a time, in eight planes.

use super::tower::sub_bytes;

/// Eight planes, which hold 64 bytes: bit `p` of plane `b` is bit `b` of byte `p`.
pub type Planes = [u64; 8];

/// Replaces each of the 64 bytes that the planes hold by its S-box value (FIPS 197 section 5.1.1). Bit
/// `b` of byte `p` is bit `p` of plane `b`.
///
/// <details><summary>Contract</summary>
///
/// ```text
/// ensures { (p : ℕ) → p < 64 → plane_byte planes.new p ≡ sbox (plane_byte planes.old p) }
/// ```
///
/// Definitions: [`plane_byte`](crate::specs::planes#plane_byte), [`sbox`](crate::specs::byte_field#sbox).
///
/// </details>
#[inline(always)]
pub fn sub_planes(planes: &mut [u64; 8]) {
    *planes = sub_bytes(*planes);
}
