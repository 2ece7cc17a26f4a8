// Written by tools/rust from crates/xaes/src/nonce.rt. Don't edit.
//! The nonces of XAES-256-GCM, of 24 bytes.

use crate::cmac::{CONTEXT_LEN, Context};
use aead_ciphers_base::error::Unspecified;
use aead_ciphers_base::values::{NONCE_LEN, Nonce};

/// The length of a nonce of XAES-256-GCM, in bytes.
pub const XAES_NONCE_LEN: usize = CONTEXT_LEN + NONCE_LEN;

/// A nonce of XAES-256-GCM: 24 bytes that are used only once under a key, such as bytes drawn at random for each message. Calls
/// consume it, and it cannot be cloned.
///
/// # Examples
///
/// ```
/// use deerlapse::aead::Unspecified;
/// use deerlapse::xaes::{XAES_NONCE_LEN, XNonce};
///
/// let drawn = [7; XAES_NONCE_LEN]; // in a program, by the system's generator
/// let nonce = XNonce::try_assume_unique_for_key(&drawn)?;
/// assert_eq!(nonce.as_ref(), &drawn);
/// assert!(XNonce::try_assume_unique_for_key(&drawn[1..]).is_err());
/// # Ok::<(), Unspecified>(())
/// ```
///
/// <details><summary>Model</summary>
///
/// ```text
/// ghost Value = { List ℕ };
/// ghost view = { λ nonce. nonce.bytes };
/// ```
///
/// </details>
pub struct XNonce {
    bytes: [u8; XAES_NONCE_LEN],
}

impl XNonce {
    /// Creates a nonce from 24 bytes. Using them only once under a key is the caller's responsibility.
    ///
    /// <details><summary>Contract</summary>
    ///
    /// ```text
    /// ensures { result ≡ value }
    /// ```
    ///
    /// </details>
    #[inline(always)]
    pub fn assume_unique_for_key(value: [u8; XAES_NONCE_LEN]) -> Self {
        XNonce { bytes: value }
    }

    /// Creates a nonce from a slice. Fails with `Unspecified` if the slice is not 24 bytes long. Using the bytes only once under a
    /// key is the caller's responsibility.
    ///
    /// <details><summary>Contract</summary>
    ///
    /// ```text
    /// ensures accepted { IsOk result ↔ (length value.now ≡ 24) }
    /// ensures bytes { IfOk result (λ nonce. nonce ≡ value.now) }
    /// ```
    ///
    /// </details>
    #[inline(always)]
    pub fn try_assume_unique_for_key(value: &[u8]) -> Result<Self, Unspecified> {
        match simd::array_of::<_, XAES_NONCE_LEN>(value) {
            Some(bytes) => Ok(XNonce { bytes: *bytes }),
            None => Err(Unspecified),
        }
    }

    /// Returns the 24 bytes of the nonce.
    ///
    /// <details><summary>Contract</summary>
    ///
    /// ```text
    /// ensures { result.now ≡ self.now }
    /// ```
    ///
    /// </details>
    #[inline(always)]
    pub fn as_ref(&self) -> &[u8; XAES_NONCE_LEN] {
        &self.bytes
    }

    /// The first half, for which the key of the message is derived.
    // ensures { result ≡ take 12 self.now }
    #[inline(always)]
    pub(crate) fn context(&self) -> Context {
        let mut context = [0; CONTEXT_LEN];
        context.copy_from_slice(&self.bytes[..CONTEXT_LEN]);
        context
    }

    /// The last half, which is the nonce of AES-256-GCM.
    // ensures { result ≡ drop 12 self.now }
    #[inline(always)]
    pub(crate) fn message_nonce(&self) -> Nonce {
        let (_, last) = self.bytes.split_at(CONTEXT_LEN);
        let mut nonce = [0; NONCE_LEN];
        nonce.copy_from_slice(last);
        Nonce::assume_unique_for_key(nonce)
    }
}
