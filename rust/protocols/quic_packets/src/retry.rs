// Written by tools/rust from crates/quic_packets/src/retry.rt. Don't edit.
//! The integrity tag of Retry packets (RFC 9001 section 5.8, RFC 9369 section 3.3.3).

use crate::datagram::MAX_ID_LEN;
use aead_ciphers::aead::{MAX_TAG_LEN, NONCE_LEN, Nonce, Tag};
use aead_ciphers::aes_gcm::GcmKey;
use aead_ciphers_base::aes::{KeyBytes, Work};
use aead_ciphers_wide::aes_gcm::ExpandedKey;
use key_derivation::quic::Version;

/// The key of version 1 (RFC 9001 section 5.8).
const KEY_1: [u8; 16] = [
    0xbe, 0x0c, 0x69, 0x0b, 0x9f, 0x66, 0x57, 0x5a, 0x1d, 0x76, 0x6b, 0x54, 0xe3, 0x68, 0xc8, 0x4e,
];

/// The nonce of version 1 (RFC 9001 section 5.8).
const NONCE_1: [u8; NONCE_LEN] = [
    0x46, 0x15, 0x99, 0xd3, 0x5d, 0x63, 0x2b, 0xf2, 0x23, 0x98, 0x25, 0xbb,
];

/// The key of version 2 (RFC 9369 section 3.3.3).
const KEY_2: [u8; 16] = [
    0x8f, 0xb4, 0xb0, 0x1b, 0x56, 0xac, 0x48, 0xe2, 0x60, 0xfb, 0xcb, 0xce, 0xad, 0x7c, 0xcc, 0x92,
];

/// The nonce of version 2 (RFC 9369 section 3.3.3).
const NONCE_2: [u8; NONCE_LEN] = [
    0xd8, 0x69, 0x69, 0xbc, 0x2d, 0x7c, 0x6d, 0x99, 0x90, 0xef, 0xb0, 0x4a,
];

/// The error of computing the tag of a Retry packet.
#[derive(Clone, Copy, PartialEq, Eq, Debug)]
pub enum RetryError {
    /// The connection ID has more than 20 bytes (RFC 9000 section 17.2).
    IdTooLong,
    /// The Retry packet and the connection ID have 2^61 bytes or more.
    TooLong,
}

impl core::fmt::Display for RetryError {
    fn fmt(&self, f: &mut core::fmt::Formatter<'_>) -> core::fmt::Result {
        match self {
            RetryError::IdTooLong => f.write_str("a connection ID has at most 20 bytes"),
            RetryError::TooLong => f.write_str("the Retry packet has 2^61 bytes or more"),
        }
    }
}

impl core::error::Error for RetryError {}

/// Returns the integrity tag of a Retry packet of a version, the last 16 bytes of the packet (RFC 9001 section 5.8, RFC 9369
/// section 3.3.3).
///
/// `header` and `token` together are the packet without its tag, cut at any byte. `original_id` is the destination connection
/// ID of the client's first packet. No memory is allocated.
///
/// # Errors
///
/// Fails with `IdTooLong` if `original_id` has more than 20 bytes, and with `TooLong` if the ID, a byte for its length, `header`
/// and `token` together have 2^61 bytes or more (SP 800-38D section 5.2.1.1).
///
/// <details><summary>Contract</summary>
///
/// ```text
/// ensures accepted { IsOk result ↔ ((length original_id.now ≤ 20)
///     × IsShortPseudoPacket original_id.now (header.now ++ token.now)) }
/// ensures id_too_long { IsErrOf result RetryError.IdTooLong ↔ (20 < length original_id.now) }
/// ensures too_long { IsErrOf result RetryError.TooLong ↔ ((length original_id.now ≤ 20)
///     × ¬ IsShortPseudoPacket original_id.now (header.now ++ token.now)) }
/// ensures tag { IfOk result (λ tag. tag ≡ integrity_tag version original_id.now (header.now ++ token.now)) }
/// ```
///
/// Definitions: [`IsShortPseudoPacket`](crate::specs::retry#IsShortPseudoPacket),
/// [`integrity_tag`](crate::specs::retry#integrity_tag).
///
/// </details>
pub fn retry_tag(
    version: Version,
    original_id: &[u8],
    header: &[u8],
    token: &[u8],
) -> Result<Tag, RetryError> {
    if original_id.len() > MAX_ID_LEN {
        return Err(RetryError::IdTooLong);
    }
    let id_len = [original_id.len() as u8];
    tag_of(version, &id_len, original_id, header, token)
}

/// Returns whether a Retry packet of a version ends with its integrity tag (RFC 9001 section 5.8, RFC 9369 section 3.3.3).
///
/// `header` and `payload` together are the packet, cut at any byte before its last 16, which are the tag. `original_id` is the
/// destination connection ID of the client's first packet.
///
/// It also returns `false` if `original_id` has more than 20 bytes, if `payload` has fewer than 16, or if the packet is so long
/// that `retry_tag` fails.
///
/// <details><summary>Contract</summary>
///
/// ```text
/// ensures { IsTrue result ↔ ((length original_id.now ≤ 20) × (tag_len ≤ length payload.now)
///     × IsGenuineRetry version original_id.now (header.now ++ payload.now)) }
/// ```
///
/// Definitions: [`tag_len`](aead_ciphers::specs::gcm#tag_len),
/// [`IsGenuineRetry`](crate::specs::retry#IsGenuineRetry).
///
/// </details>
pub fn is_genuine_retry(
    version: Version,
    original_id: &[u8],
    header: &[u8],
    payload: &[u8],
) -> bool {
    let Some(token_len) = payload.len().checked_sub(MAX_TAG_LEN) else {
        return false;
    };
    let (token, tag) = payload.split_at(token_len);
    match retry_tag(version, original_id, header, token) {
        Ok(made) => made.as_ref() == tag,
        Err(_) => false,
    }
}

/// Returns the key under which a version computes the tag.
// ensures { result ≡ retry_key version }
fn retry_key(version: Version) -> [u8; 16] {
    match version {
        Version::One => KEY_1,
        Version::Two => KEY_2,
    }
}

/// Returns the nonce with which a version computes the tag.
// ensures { result ≡ retry_nonce version }
fn retry_nonce(version: Version) -> [u8; NONCE_LEN] {
    match version {
        Version::One => NONCE_1,
        Version::Two => NONCE_2,
    }
}

/// Returns the tag of AES-128-GCM for an empty plaintext, with these four parts joined as AAD.
// ensures accepted { IsOk result
//     ↔ (length (id_len.now ++ (id.now ++ (header.now ++ token.now))) < 2 ^ 61) }
// ensures refused { IsOkUnless result RetryError.TooLong }
// ensures tag { IfOk result (λ tag. tag
//     ≡ gcm_tag (aes (retry_key version)) (retry_nonce version) (id_len.now ++ (id.now ++ (header.now ++ token.now))) []) }
fn tag_of<'a>(
    version: Version,
    id_len: &'a [u8],
    id: &'a [u8],
    header: &'a [u8],
    token: &'a [u8],
) -> Result<Tag, RetryError> {
    let mut key = ExpandedKey::zeros();
    let bytes = retry_key(version);
    key.expand(KeyBytes::AES_128(&bytes), &mut Work::new());
    let nonce = Nonce::assume_unique_for_key(retry_nonce(version));
    match key.begin_with_parts(nonce, &[id_len, id, header, token]) {
        Ok(message) => Ok(key.finish(message)),
        Err(_) => Err(RetryError::TooLong),
    }
}
