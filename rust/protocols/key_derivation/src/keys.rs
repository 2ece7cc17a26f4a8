// Written by tools/rust from crates/key_derivation/src/keys.rt. Don't edit.
//! The keys that are derived from a secret: a type for each kind of key.
use crate::suite_key::SuiteKey;
use core::fmt;

/// The length of an IV in bytes.
pub const IV_LEN: usize = 12;

/// The keys of one direction of QUIC (RFC 9001 section 5.1).
pub struct QuicKeys {
    /// The key for payloads.
    pub key: AeadKeyBytes,
    /// The IV of the nonces.
    pub iv: [u8; IV_LEN],
    /// The key that masks headers.
    pub header_key: HeaderKeyBytes,
}

/// <details><summary>Ghost items</summary>
///
/// ```text
/// // `Some` of what `{:?}` prints.
/// ghost debug_output = { λ keys. Some (codes "QuicKeys { .. }") };
/// ```
///
/// </details>
impl fmt::Debug for QuicKeys {
    fn fmt(&self, f: &mut fmt::Formatter<'_>) -> fmt::Result {
        f.write_str("QuicKeys { .. }")
    }
}

/// The key and the IV for payloads in one direction of QUIC. A key update replaces these two, and keeps the key that masks
/// headers (RFC 9001 section 6.1).
pub struct PacketKeys {
    /// The key for payloads.
    pub key: AeadKeyBytes,
    /// The IV of the nonces.
    pub iv: [u8; IV_LEN],
}

/// <details><summary>Ghost items</summary>
///
/// ```text
/// // `Some` of what `{:?}` prints.
/// ghost debug_output = { λ keys. Some (codes "PacketKeys { .. }") };
/// ```
///
/// </details>
impl fmt::Debug for PacketKeys {
    fn fmt(&self, f: &mut fmt::Formatter<'_>) -> fmt::Result {
        f.write_str("PacketKeys { .. }")
    }
}

/// The key and the IV for the records in one direction of TLS 1.3 (RFC 8446 section 7.3).
pub struct RecordKeys {
    /// The key for contents.
    pub key: AeadKeyBytes,
    /// The IV of the nonces.
    pub iv: [u8; IV_LEN],
}

/// <details><summary>Ghost items</summary>
///
/// ```text
/// // `Some` of what `{:?}` prints.
/// ghost debug_output = { λ keys. Some (codes "RecordKeys { .. }") };
/// ```
///
/// </details>
impl fmt::Debug for RecordKeys {
    fn fmt(&self, f: &mut fmt::Formatter<'_>) -> fmt::Result {
        f.write_str("RecordKeys { .. }")
    }
}

/// The 16 or 32 bytes of an AEAD key, which seals or opens payloads. Its label is `quic key` or `quicv2 key`, or `key` in TLS
/// 1.3.
///
/// <details><summary>Model</summary>
///
/// ```text
/// ghost Value = { List ℕ };
/// ghost view = { λ key. key.bytes.items };
/// ```
///
/// </details>
pub struct AeadKeyBytes {
    pub(crate) bytes: SuiteKey,
}

/// <details><summary>Ghost items</summary>
///
/// ```text
/// // `Some` of what `{:?}` prints.
/// ghost debug_output = { λ key. Some (codes "AeadKeyBytes { .. }") };
/// ```
///
/// </details>
impl fmt::Debug for AeadKeyBytes {
    fn fmt(&self, f: &mut fmt::Formatter<'_>) -> fmt::Result {
        f.write_str("AeadKeyBytes { .. }")
    }
}

impl AeadKeyBytes {
    /// Returns the bytes of the key.
    ///
    /// <details><summary>Contract</summary>
    ///
    /// ```text
    /// ensures { result.now ≡ self.now }
    /// ```
    ///
    /// </details>
    pub fn as_slice(&self) -> &[u8] {
        &self.bytes
    }
}

/// The 16 or 32 bytes of a key that masks headers. Its label is `quic hp` or `quicv2 hp`.
///
/// <details><summary>Model</summary>
///
/// ```text
/// ghost Value = { List ℕ };
/// ghost view = { λ key. key.bytes.items };
/// ```
///
/// </details>
pub struct HeaderKeyBytes {
    pub(crate) bytes: SuiteKey,
}

/// <details><summary>Ghost items</summary>
///
/// ```text
/// // `Some` of what `{:?}` prints.
/// ghost debug_output = { λ key. Some (codes "HeaderKeyBytes { .. }") };
/// ```
///
/// </details>
impl fmt::Debug for HeaderKeyBytes {
    fn fmt(&self, f: &mut fmt::Formatter<'_>) -> fmt::Result {
        f.write_str("HeaderKeyBytes { .. }")
    }
}

impl HeaderKeyBytes {
    /// Returns the bytes of the key.
    ///
    /// <details><summary>Contract</summary>
    ///
    /// ```text
    /// ensures { result.now ≡ self.now }
    /// ```
    ///
    /// </details>
    pub fn as_slice(&self) -> &[u8] {
        &self.bytes
    }
}
