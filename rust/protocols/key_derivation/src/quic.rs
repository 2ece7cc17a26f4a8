// Written by tools/rust from crates/key_derivation/src/quic.rt. Don't edit.
//! Secrets of QUIC, and the keys that they give in each version (RFC 9001 sections 5.1, 5.2 and 6.1, RFC 9369 section 3).

use crate::error::DerivationError;
use crate::hash::Hash;
use crate::hkdf::{Expander, extract};
use crate::keys::{AeadKeyBytes, HeaderKeyBytes, PacketKeys, QuicKeys};
use crate::secret::{Secret, SecretBytes};
use crate::suite::Suite;
use core::fmt;
use sha2::{Sha256, Sha384};

/// The length of the longest connection ID in bytes (RFC 9000 section 17.2).
pub const MAX_CONNECTION_ID_LEN: usize = 20;

/// The number of version 2 (RFC 9369 section 3.1).
const VERSION_2: u32 = 0x6b3343cf;

/// The salt of the Initial secrets in version 1 (RFC 9001 section 5.2).
const INITIAL_SALT_1: [u8; 20] = [
    0x38, 0x76, 0x2c, 0xf7, 0xf5, 0x59, 0x34, 0xb3, 0x4d, 0x17, 0x9a, 0xe6, 0xa4, 0xc8, 0x0c, 0xad,
    0xcc, 0xbb, 0x7f, 0x0a,
];

/// The salt of the Initial secrets in version 2 (RFC 9369 section 3.3.1).
const INITIAL_SALT_2: [u8; 20] = [
    0x0d, 0xed, 0xe3, 0xde, 0xf7, 0x00, 0xa6, 0xdb, 0x81, 0x93, 0x81, 0xbe, 0x6e, 0x26, 0x9d, 0xcb,
    0xf9, 0xbd, 0x2e, 0xd9,
];

/// A version of QUIC. It determines the salt of the Initial secrets and the labels of all keys.
#[derive(Clone, Copy, PartialEq, Eq, Debug)]
pub enum Version {
    /// QUIC version 1 (RFC 9000, RFC 9001).
    One,
    /// QUIC version 2 (RFC 9369).
    Two,
}

impl Version {
    /// Returns the number of the version in a long header: 1 (RFC 9000 section 15), or 0x6b3343cf (RFC 9369 section 3.1).
    ///
    /// <details><summary>Contract</summary>
    ///
    /// ```text
    /// ensures { result ≡ version_number self }
    /// ```
    ///
    /// Definitions: [`version_number`](crate::specs::quic#version_number).
    ///
    /// </details>
    pub fn number(self) -> u32 {
        match self {
            Version::One => 1,
            Version::Two => VERSION_2,
        }
    }

    /// Returns the version with a number, or `None` if it is neither version 1 nor version 2.
    ///
    /// <details><summary>Contract</summary>
    ///
    /// ```text
    /// ensures { result ≡ numbered_version number }
    /// ```
    ///
    /// Definitions: [`numbered_version`](crate::specs::quic#numbered_version).
    ///
    /// </details>
    pub fn from_number(number: u32) -> Option<Self> {
        match number {
            1 => Some(Version::One),
            VERSION_2 => Some(Version::Two),
            _ => None,
        }
    }

    // ensures { result ≡ initial_salt self }
    fn initial_salt(self) -> [u8; 20] {
        match self {
            Version::One => INITIAL_SALT_1,
            Version::Two => INITIAL_SALT_2,
        }
    }

    // ensures label { result.now ≡ key_label self }
    // ensures len { length result.now ≤ 249 }
    fn key_label(self) -> &'static [u8] {
        match self {
            Version::One => b"quic key",
            Version::Two => b"quicv2 key",
        }
    }

    // ensures label { result.now ≡ iv_label self }
    // ensures len { length result.now ≤ 249 }
    fn iv_label(self) -> &'static [u8] {
        match self {
            Version::One => b"quic iv",
            Version::Two => b"quicv2 iv",
        }
    }

    // ensures label { result.now ≡ header_key_label self }
    // ensures len { length result.now ≤ 249 }
    fn header_key_label(self) -> &'static [u8] {
        match self {
            Version::One => b"quic hp",
            Version::Two => b"quicv2 hp",
        }
    }

    // ensures label { result.now ≡ update_label self }
    // ensures len { length result.now ≤ 249 }
    fn update_label(self) -> &'static [u8] {
        match self {
            Version::One => b"quic ku",
            Version::Two => b"quicv2 ku",
        }
    }
}

/// A secret of one direction of a connection of QUIC, with its version, which gives the keys of this direction and the next
/// secret.
///
/// # Examples
///
/// The secrets of Initial packets derive from the connection ID that the client chose. TLS gives the secrets of the other
/// packets, one for each direction. A key update changes the key and the IV for payloads, and keeps the key that masks headers:
///
/// ```
/// use deerlapse_key_derivation::quic::{QuicSecret, Version};
/// use deerlapse_key_derivation::{Secret, Suite};
///
/// // RFC 9001 section A.1.
/// let id = [0x83, 0x94, 0xc8, 0xf0, 0x3e, 0x51, 0x57, 0x08];
/// let keys = QuicSecret::client_initial(Version::One, &id)?.keys();
/// assert_eq!(keys.key.as_slice()[..4], [0x1f, 0x36, 0x96, 0x13]);
/// assert_eq!(keys.iv[..4], [0xfa, 0x04, 0x4b, 0x2f]);
/// assert_eq!(keys.header_key.as_slice()[..4], [0x9f, 0x50, 0x44, 0x9e]);
///
/// // `traffic_secret` is from TLS.
/// let traffic_secret = [7; 48];
/// let secret = Secret::new(Suite::Aes256Gcm, &traffic_secret)?;
/// let secret = QuicSecret::new(Version::One, secret);
/// let (header_key, first) = (secret.header_key(), secret.packet_keys());
/// assert_eq!(
///     (header_key.as_slice().len(), first.key.as_slice().len()),
///     (32, 32)
/// );
///
/// // The connection updates its keys.
/// let secret = secret.next();
/// let second = secret.packet_keys();
/// assert_ne!(second.key.as_slice(), first.key.as_slice());
/// assert_ne!(second.iv, first.iv);
/// # Ok::<(), deerlapse_key_derivation::DerivationError>(())
/// ```
///
/// <details><summary>Model</summary>
///
/// ```text
/// ghost Value = { QuicSecretState };
/// ghost view = { λ s. record { version = s.version; secret = s.secret } };
/// ```
///
/// Definitions: [`QuicSecretState`](crate::specs::quic#QuicSecretState).
///
/// </details>
pub struct QuicSecret {
    version: Version,
    secret: Secret,
}

/// <details><summary>Ghost items</summary>
///
/// ```text
/// // `Some` of what `{:?}` prints.
/// ghost debug_output = { λ s. Some (codes "QuicSecret { .. }") };
/// ```
///
/// </details>
impl fmt::Debug for QuicSecret {
    fn fmt(&self, f: &mut fmt::Formatter<'_>) -> fmt::Result {
        f.write_str("QuicSecret { .. }")
    }
}

impl QuicSecret {
    /// Creates a QUIC secret from a version and a traffic secret of TLS.
    ///
    /// <details><summary>Contract</summary>
    ///
    /// ```text
    /// ensures { result ≡ record { version = version; secret = secret } }
    /// ```
    ///
    /// </details>
    pub fn new(version: Version, secret: Secret) -> Self {
        QuicSecret { version, secret }
    }

    /// Creates the secret of the Initial packets that a client sends, from the Destination Connection ID of its first one
    /// (RFC 9001 section 5.2).
    ///
    /// # Errors
    ///
    /// Fails with `ConnectionIdLength` if `id` has more than 20 bytes.
    ///
    /// <details><summary>Contract</summary>
    ///
    /// ```text
    /// ensures accepted { IsOk result ↔ (length id.now ≤ 20) }
    /// ensures refused { IsOkUnless result DerivationError.ConnectionIdLength }
    /// ensures made { IfOk result (λ s. s ≡ client_initial_secret version id.now) }
    /// ```
    ///
    /// Definitions: [`client_initial_secret`](crate::specs::quic#client_initial_secret).
    ///
    /// </details>
    pub fn client_initial(version: Version, id: &[u8]) -> Result<Self, DerivationError> {
        endpoint_secret(version, id, b"client in")
    }

    /// Creates the secret of the Initial packets that a server sends, from the Destination Connection ID of the client's
    /// first Initial packet (RFC 9001 section 5.2).
    ///
    /// # Errors
    ///
    /// Fails with `ConnectionIdLength` if `id` has more than 20 bytes.
    ///
    /// <details><summary>Contract</summary>
    ///
    /// ```text
    /// ensures accepted { IsOk result ↔ (length id.now ≤ 20) }
    /// ensures refused { IsOkUnless result DerivationError.ConnectionIdLength }
    /// ensures made { IfOk result (λ s. s ≡ server_initial_secret version id.now) }
    /// ```
    ///
    /// Definitions: [`server_initial_secret`](crate::specs::quic#server_initial_secret).
    ///
    /// </details>
    pub fn server_initial(version: Version, id: &[u8]) -> Result<Self, DerivationError> {
        endpoint_secret(version, id, b"server in")
    }

    /// Returns the secret's version.
    ///
    /// <details><summary>Contract</summary>
    ///
    /// ```text
    /// ensures { result ≡ self.now.version }
    /// ```
    ///
    /// </details>
    pub fn version(&self) -> Version {
        self.version
    }

    /// Returns the secret's suite.
    ///
    /// <details><summary>Contract</summary>
    ///
    /// ```text
    /// ensures { result ≡ self.now.secret.suite }
    /// ```
    ///
    /// </details>
    pub fn suite(&self) -> Suite {
        self.secret.suite()
    }

    /// Returns the secret's bytes.
    ///
    /// <details><summary>Contract</summary>
    ///
    /// ```text
    /// ensures bytes { result.now ≡ self.now.secret.bytes }
    /// ensures len { length result.now ≡ suite_secret_len self.now.secret.suite }
    /// ```
    ///
    /// Definitions: [`suite_secret_len`](crate::specs::secret#suite_secret_len).
    ///
    /// </details>
    pub fn as_slice(&self) -> &[u8] {
        self.secret.as_slice()
    }

    /// Returns all keys of the secret, by the labels `quic key`, `quic iv` and `quic hp` of version 1 (RFC 9001 section 5.1), or
    /// `quicv2 key`, `quicv2 iv` and `quicv2 hp` of version 2 (RFC 9369 section 3.3.2).
    ///
    /// <details><summary>Contract</summary>
    ///
    /// ```text
    /// ensures key { result.key ≡ quic_key self.now }
    /// ensures iv { result.iv ≡ quic_iv self.now }
    /// ensures header_key { result.header_key ≡ quic_header_key self.now }
    /// ensures key_len { length result.key ≡ suite_key_len self.now.secret.suite }
    /// ensures header_key_len { length result.header_key ≡ suite_key_len self.now.secret.suite }
    /// ```
    ///
    /// Definitions: [`quic_key`](crate::specs::quic#quic_key), [`quic_iv`](crate::specs::quic#quic_iv),
    /// [`quic_header_key`](crate::specs::quic#quic_header_key), [`suite_key_len`](crate::specs::secret#suite_key_len).
    ///
    /// </details>
    pub fn keys(&self) -> QuicKeys {
        let version = self.version;
        match &self.secret.inner {
            SecretBytes::Sha256(bytes) => derive_keys::<Sha256>(version, bytes, Suite::Aes128Gcm),
            SecretBytes::Sha384(bytes) => derive_keys::<Sha384>(version, bytes, Suite::Aes256Gcm),
        }
    }

    /// Returns the key and the IV for payloads, by the labels `quic key` and `quic iv`, or `quicv2 key` and `quicv2 iv`. A key
    /// update changes these two and no other key (RFC 9001 section 6.1).
    ///
    /// <details><summary>Contract</summary>
    ///
    /// ```text
    /// ensures key { result.key ≡ quic_key self.now }
    /// ensures iv { result.iv ≡ quic_iv self.now }
    /// ensures key_len { length result.key ≡ suite_key_len self.now.secret.suite }
    /// ```
    ///
    /// Definitions: [`quic_key`](crate::specs::quic#quic_key), [`quic_iv`](crate::specs::quic#quic_iv),
    /// [`suite_key_len`](crate::specs::secret#suite_key_len).
    ///
    /// </details>
    pub fn packet_keys(&self) -> PacketKeys {
        let version = self.version;
        match &self.secret.inner {
            SecretBytes::Sha256(bytes) => {
                derive_packet_keys(&Expander::<Sha256>::new(bytes), version, Suite::Aes128Gcm)
            }
            SecretBytes::Sha384(bytes) => {
                derive_packet_keys(&Expander::<Sha384>::new(bytes), version, Suite::Aes256Gcm)
            }
        }
    }

    /// Returns the key that masks headers, by the label `quic hp` or `quicv2 hp`.
    ///
    /// <details><summary>Contract</summary>
    ///
    /// ```text
    /// ensures key { result ≡ quic_header_key self.now }
    /// ensures len { length result ≡ suite_key_len self.now.secret.suite }
    /// ```
    ///
    /// Definitions: [`quic_header_key`](crate::specs::quic#quic_header_key),
    /// [`suite_key_len`](crate::specs::secret#suite_key_len).
    ///
    /// </details>
    pub fn header_key(&self) -> HeaderKeyBytes {
        let version = self.version;
        match &self.secret.inner {
            SecretBytes::Sha256(bytes) => {
                derive_header_key(&Expander::<Sha256>::new(bytes), version, Suite::Aes128Gcm)
            }
            SecretBytes::Sha384(bytes) => {
                derive_header_key(&Expander::<Sha384>::new(bytes), version, Suite::Aes256Gcm)
            }
        }
    }

    /// Returns the secret after a key update, by the label `quic ku` of version 1 (RFC 9001 section 6.1), or `quicv2 ku` of
    /// version 2 (RFC 9369 section 3.3.2). The header key does not change at an update: it stays that of the first secret.
    ///
    /// <details><summary>Contract</summary>
    ///
    /// ```text
    /// ensures { result ≡ next_quic_secret self.now }
    /// ```
    ///
    /// Definitions: [`next_quic_secret`](crate::specs::quic#next_quic_secret).
    ///
    /// </details>
    pub fn next(&self) -> Self {
        QuicSecret {
            version: self.version,
            secret: self.secret.next(self.version.update_label()),
        }
    }
}

/// Returns all keys of a secret, as long as the suite's keys, from one HMAC key.
// ensures key { result.key ≡ hkdf_expand_label H.function secret.now (key_label version) [] (suite_key_len suite) }
// ensures iv { result.iv ≡ hkdf_expand_label H.function secret.now (iv_label version) [] 12 }
// ensures header_key { result.header_key
//     ≡ hkdf_expand_label H.function secret.now (header_key_label version) [] (suite_key_len suite) }
// ensures key_len { length result.key ≡ suite_key_len suite }
// ensures header_key_len { length result.header_key ≡ suite_key_len suite }
fn derive_keys<H: Hash>(version: Version, secret: &[u8], suite: Suite) -> QuicKeys {
    let from = Expander::<H>::new(secret);
    let PacketKeys { key, iv } = derive_packet_keys(&from, version, suite);
    let header_key = derive_header_key(&from, version, suite);
    QuicKeys {
        key,
        iv,
        header_key,
    }
}

/// Returns the key and the IV for payloads of the expander's secret. The key is as long as the suite's keys.
// ensures key { (secret : List ℕ) → IsExpander H.function H.holds secret from.now
//     → result.key ≡ hkdf_expand_label H.function secret (key_label version) [] (suite_key_len suite) }
// ensures iv { (secret : List ℕ) → IsExpander H.function H.holds secret from.now
//     → result.iv ≡ hkdf_expand_label H.function secret (iv_label version) [] 12 }
// ensures key_len { length result.key ≡ suite_key_len suite }
fn derive_packet_keys<H: Hash>(from: &Expander<H>, version: Version, suite: Suite) -> PacketKeys {
    PacketKeys {
        key: AeadKeyBytes {
            bytes: from.suite_key(version.key_label(), suite),
        },
        iv: from.labeled(version.iv_label()),
    }
}

/// Returns the key that masks headers of the expander's secret, as long as the suite's keys.
// ensures key { (secret : List ℕ) → IsExpander H.function H.holds secret from.now
//     → result ≡ hkdf_expand_label H.function secret (header_key_label version) [] (suite_key_len suite) }
// ensures len { length result ≡ suite_key_len suite }
fn derive_header_key<H: Hash>(
    from: &Expander<H>,
    version: Version,
    suite: Suite,
) -> HeaderKeyBytes {
    HeaderKeyBytes {
        bytes: from.suite_key(version.header_key_label(), suite),
    }
}

/// Returns the Initial secret of an endpoint, whose label is `client in` or `server in` (RFC 9001 section 5.2).
// requires { length label.now ≤ 249 }
// ensures accepted { IsOk result ↔ (length id.now ≤ 20) }
// ensures refused { IsOkUnless result DerivationError.ConnectionIdLength }
// ensures made { IfOk result (λ s. s ≡ endpoint_secret version id.now label.now) }
fn endpoint_secret(
    version: Version,
    id: &[u8],
    label: &[u8],
) -> Result<QuicSecret, DerivationError> {
    if id.len() > MAX_CONNECTION_ID_LEN {
        return Err(DerivationError::ConnectionIdLength);
    }
    let secret = extract::<Sha256>(&version.initial_salt(), id);
    let bytes = Expander::<Sha256>::new(&secret).labeled(label);
    Ok(QuicSecret::new(version, Secret::aes_128_gcm(bytes)))
}
