// Written by tools/rust from crates/key_derivation/src/error.rt. Don't edit.
//! The error of deriving keys.

/// The error of deriving a key. A call that fails writes nothing.
#[derive(Clone, Copy, PartialEq, Eq, Debug)]
pub enum DerivationError {
    /// The secret is not as long as a digest of its suite's hash function.
    SecretLength,
    /// The connection ID has more than 20 bytes (RFC 9000 section 17.2).
    ConnectionIdLength,
    /// The label is empty or has more than 249 bytes, besides its prefix `tls13 ` (RFC 8446 section 7.1).
    LabelLength,
    /// The context has more than 255 bytes (RFC 8446 section 7.1).
    ContextLength,
    /// The hash of the messages is not as long as the hash function's digests (RFC 8446 section 4.4.1).
    TranscriptHashLength,
    /// The output is longer than the function can make it: 255 digests by HKDF (RFC 5869 section 2.3), 2^32 - 1 digests by
    /// PBKDF2 (RFC 8018 section 5.2).
    TooLong,
    /// The count of iterations is 0 (RFC 8018 section 5.2).
    NoIterations,
}

impl core::fmt::Display for DerivationError {
    fn fmt(&self, f: &mut core::fmt::Formatter<'_>) -> core::fmt::Result {
        match self {
            DerivationError::SecretLength => {
                f.write_str("the secret does not have the length of the suite's digests")
            }
            DerivationError::ConnectionIdLength => {
                f.write_str("the connection ID has more than 20 bytes")
            }
            DerivationError::LabelLength => {
                f.write_str("the label is empty or has more than 249 bytes")
            }
            DerivationError::ContextLength => f.write_str("the context has more than 255 bytes"),
            DerivationError::TranscriptHashLength => {
                f.write_str("the hash of the messages does not have the length of a digest")
            }
            DerivationError::TooLong => {
                f.write_str("more bytes are asked for than the function gives")
            }
            DerivationError::NoIterations => f.write_str("the count of iterations is 0"),
        }
    }
}

impl core::error::Error for DerivationError {}
