// Written by tools/rust from crates/aead_ciphers/src/gcm/limits.rt. Don't edit.
//! The limits on the lengths of AAD and plaintext (SP 800-38D section 5.2.1.1).

/// The maximum length of AAD, in bytes (SP 800-38D section 5.2.1.1).
pub const MAX_AAD_LEN: usize = (1 << 61) - 1;

/// The maximum length of a plaintext, in bytes (SP 800-38D section 5.2.1.1).
pub const MAX_IN_OUT_LEN: usize = (1 << 36) - 32;

/// Returns whether AAD and a message of these lengths, in bytes, are within the limits of AES-GCM (SP 800-38D section
/// 5.2.1.1).
///
/// <details><summary>Contract</summary>
///
/// ```text
/// ensures { IsTrue result ↔ Fits aad_len in_out_len }
/// ```
///
/// Definitions: [`Fits`](crate::specs::gcm#Fits).
///
/// </details>
#[inline(always)]
pub fn fits(aad_len: usize, in_out_len: usize) -> bool {
    aad_len <= MAX_AAD_LEN && in_out_len <= MAX_IN_OUT_LEN
}
