// Written by tools/rust from crates/aead_ciphers/src/aes_gcm.rt. Don't edit.
//! AES-GCM in place, with 12-byte nonces and 16-byte tags (SP 800-38D section 7).
//!
//! `aead` is the interface for callers. The functions here also count their cipher blocks and field products in a
//! `Work`. `seal_with`, `open_with` and `open_to_with` are the same with any cipher of 16-byte blocks.

mod counter_mode;
mod expanded;
mod gcm_key;
mod hash;
mod key;
mod opening;
mod sealing;

use aead_ciphers_base::aes::Work;
use aead_ciphers_base::error::Unspecified;
use aead_ciphers_base::values::{Aad, Nonce, Tag};
use core::ops::RangeFrom;
pub use expanded::ExpandedKey;
pub use gcm_key::GcmKey;
pub use opening::{open_fitting_with, open_to_with, open_with};
pub use sealing::seal_with;

/// The same key over any expanded AES-GCM key.
pub mod generic {
    pub use super::key::Key;
}

/// A key of AES-GCM. It is [`generic::Key`], which has the methods, over [`ExpandedKey`].
pub type Key = key::Key<ExpandedKey>;

/// Encrypts `in_out` in place, and returns the 16-byte tag of the ciphertext and `aad` (SP 800-38D section 7.1).
///
/// # Errors
///
/// Fails with `Unspecified`, and leaves `in_out` unchanged, if it is longer than 2^36 - 32 bytes or `aad` is 2^61 bytes
/// or longer (SP 800-38D section 5.2.1.1).
///
/// <details><summary>Contract</summary>
///
/// ```text
/// requires { CanSeal work.old (length (aad_bytes aad)) (length in_out.old) }
/// ensures accepted { IsOk result ↔ Fits (length (aad_bytes aad.entry)) (length in_out.old) }
/// ensures ciphertext { OnOk result (in_out.new ≡ gcm_encrypted (aes_cipher key.now) nonce in_out.old) }
/// ensures tag { IfOk result (λ t. t ≡ gcm_tag (aes_cipher key.now) nonce (aad_bytes aad.entry) in_out.new) }
/// ensures refused { OnErr result (in_out.new ≡ in_out.old) }
/// ensures worked { SealWork (length (aad_bytes aad.entry)) (length in_out.old) result
///     work.old work.new }
/// ```
///
/// Definitions: [`CanSeal`](crate::specs::gcm#CanSeal), [`aad_bytes`](aead_ciphers_base::specs::values#aad_bytes),
/// [`Fits`](crate::specs::gcm#Fits), [`gcm_encrypted`](crate::specs::gcm#gcm_encrypted),
/// [`aes_cipher` (`aes`)](aead_ciphers_base::specs::aes#aes), [`gcm_tag`](crate::specs::gcm#gcm_tag),
/// [`SealWork`](crate::specs::gcm#SealWork).
///
/// </details>
pub fn seal<K: GcmKey>(
    key: &generic::Key<K>,
    nonce: Nonce,
    aad: Aad<'_>,
    in_out: &mut [u8],
    work: &mut Work,
) -> Result<Tag, Unspecified> {
    key.expanded.seal(nonce, aad, in_out, work)
}

/// Opens the ciphertext `in_out[src]`: compares its tag with `received_tag`, and then decrypts it to the front of
/// `in_out` (SP 800-38D section 7.2).
///
/// # Errors
///
/// Fails with `Unspecified`, and leaves `in_out` unchanged, in these cases, which are checked in this order:
///
/// - `src.start` is greater than `in_out.len()`.
/// - The lengths exceed the limits of [`seal`].
/// - `received_tag` is not the tag of the ciphertext and `aad`.
///
/// <details><summary>Contract</summary>
///
/// ```text
/// requires { CanOpen work.old (length (aad_bytes aad)) src.start (length in_out.old) }
/// ensures opened { Opened (aes_cipher key.now) nonce (aad_bytes aad.entry) received_tag src.start in_out.old
///     (is_ok result) in_out.new }
/// ensures worked { OpenWork (length (aad_bytes aad.entry)) src.start (length in_out.old) result
///     work.old work.new }
/// ```
///
/// Definitions: [`CanOpen`](crate::specs::gcm#CanOpen), [`aad_bytes`](aead_ciphers_base::specs::values#aad_bytes),
/// [`Opened`](crate::specs::gcm#Opened), [`aes_cipher` (`aes`)](aead_ciphers_base::specs::aes#aes),
/// [`OpenWork`](crate::specs::gcm#OpenWork).
///
/// </details>
pub fn open<K: GcmKey>(
    key: &generic::Key<K>,
    nonce: Nonce,
    aad: Aad<'_>,
    received_tag: Tag,
    in_out: &mut [u8],
    src: RangeFrom<usize>,
    work: &mut Work,
) -> Result<(), Unspecified> {
    key.expanded
        .open(nonce, aad, received_tag, in_out, src, work)?;
    Ok(())
}
