// Written by tools/rust from crates/key_derivation/src/suite.rt. Don't edit.
//! The cipher suites of TLS 1.3 and QUIC (RFC 8446 section B.4).

/// A cipher suite of TLS 1.3 and QUIC, named by its algorithm for payloads (RFC 8446 section B.4).
#[derive(Clone, Copy, PartialEq, Eq, Debug)]
pub enum Suite {
    /// TLS_AES_128_GCM_SHA256: AES-128-GCM, with QUIC's headers masked by AES-128. A secret has 32 bytes, and a key 16.
    Aes128Gcm,
    /// TLS_AES_256_GCM_SHA384: AES-256-GCM, with QUIC's headers masked by AES-256. A secret has 48 bytes, and a key 32.
    Aes256Gcm,
}
