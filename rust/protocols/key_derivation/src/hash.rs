// By hand, in place of crates/key_derivation/src/hash.rt: RustCrypto's traits have other names than Rattle's.
//! The hash functions under HMAC, SHA-256 and SHA-384, with the lengths of their blocks and digests (FIPS 180-4).

use sha2::Digest;
pub use sha2::{Sha256, Sha384};

/// The length of the longest block in bytes, that of SHA-384.
pub(crate) const MAX_BLOCK_LEN: usize = 128;

/// The length of the longest digest in bytes, that of SHA-384.
pub(crate) const MAX_OUTPUT_LEN: usize = 48;

/// A hash function with its lengths: SHA-256 or SHA-384.
///
/// <details><summary>Ghost items</summary>
///
/// ```text
/// // The hash function.
/// ghost function: { HashFunction };
///
/// // The hasher has absorbed this message.
/// ghost holds: { Self → List ℕ → Type 0 };
/// ```
///
/// Definitions: [`HashFunction`](crate::specs::hash#HashFunction).
///
/// </details>
pub trait Hash: Sized {
    /// A digest.
    type Output: AsRef<[u8]> + Copy;

    /// The length of a block in bytes.
    const BLOCK_LEN: usize;

    /// The length of a digest in bytes.
    const OUTPUT_LEN: usize;

    /// Creates a hasher, which has absorbed nothing.
    fn new() -> Self;

    /// Absorbs more of the message.
    fn update(&mut self, bytes: impl AsRef<[u8]>);

    /// Returns a second hasher, which has absorbed the same message.
    fn fork(&self) -> Self;

    /// Returns the digest of the message.
    fn finalize(self) -> Self::Output;

    /// Returns the digest of a message.
    fn digest(bytes: impl AsRef<[u8]>) -> Self::Output {
        let mut hasher = Self::new();
        hasher.update(bytes);
        hasher.finalize()
    }
}

impl Hash for Sha256 {
    type Output = [u8; 32];

    const BLOCK_LEN: usize = 64;

    const OUTPUT_LEN: usize = 32;

    fn new() -> Self {
        Digest::new()
    }

    fn update(&mut self, bytes: impl AsRef<[u8]>) {
        Digest::update(self, bytes);
    }

    fn fork(&self) -> Self {
        self.clone()
    }

    fn finalize(self) -> [u8; 32] {
        Digest::finalize(self).into()
    }
}

impl Hash for Sha384 {
    type Output = [u8; 48];

    const BLOCK_LEN: usize = 128;

    const OUTPUT_LEN: usize = 48;

    fn new() -> Self {
        Digest::new()
    }

    fn update(&mut self, bytes: impl AsRef<[u8]>) {
        Digest::update(self, bytes);
    }

    fn fork(&self) -> Self {
        self.clone()
    }

    fn finalize(self) -> [u8; 48] {
        Digest::finalize(self).into()
    }
}
