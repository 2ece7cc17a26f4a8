// Written by tools/rust from crates/key_derivation/src/hmac.rt. Don't edit.
//! HMAC (RFC 2104): authentication codes by SHA-256 or SHA-384, in one call or under a key that is kept.

use crate::hash::{Hash, MAX_BLOCK_LEN};
use aead_ciphers_base::bb;
use sha2::{Sha256, Sha384};

/// A key of HMAC, kept as two hashers that have absorbed it, XORed with ipad and with opad (RFC 2104 section 4).
pub struct HmacKey<H> {
    inner: H,
    outer: H,
}

impl<H: Hash> HmacKey<H> {
    /// Creates a key from bytes of any length.
    ///
    /// <details><summary>Contract</summary>
    ///
    /// ```text
    /// ensures { IsKey H.function H.holds key.now result }
    /// ```
    ///
    /// Definitions: [`IsKey`](crate::specs::hmac_state#IsKey).
    ///
    /// </details>
    // Not inlined, and neither is `absorb_xored`, so that the C library contains one copy of each per hash function.
    #[inline(never)]
    pub fn new(key: &[u8]) -> Self {
        let block = key_block::<H>(key);
        let block = &block[..H::BLOCK_LEN];
        HmacKey {
            inner: absorb_xored(block, 0x36),
            outer: absorb_xored(block, 0x5c),
        }
    }

    /// Begins a message: returns a hasher, which the caller updates with the message.
    ///
    /// <details><summary>Contract</summary>
    ///
    /// ```text
    /// ensures { (key : List ℕ) → IsKey H.function H.holds key self.now
    ///     → H.holds result (inner_block H.function key) }
    /// ```
    ///
    /// Definitions: [`IsKey`](crate::specs::hmac_state#IsKey), [`inner_block`](crate::specs::hmac#inner_block).
    ///
    /// </details>
    pub fn start(&self) -> H {
        self.inner.fork()
    }

    /// Returns the authentication code of the message with which the caller has updated `hasher`, a hasher from `start`.
    ///
    /// <details><summary>Contract</summary>
    ///
    /// ```text
    /// ensures { (key text : List ℕ) → IsKey H.function H.holds key self.now
    ///     → H.holds «hasher» (inner_block H.function key ++ text)
    ///     → H.Output.items result ≡ hmac H.function key text }
    /// ```
    ///
    /// Definitions: [`IsKey`](crate::specs::hmac_state#IsKey), [`inner_block`](crate::specs::hmac#inner_block),
    /// [`hmac`](crate::specs::hmac#hmac).
    ///
    /// </details>
    pub fn finish(&self, hasher: H) -> H::Output {
        let mut outer = self.outer.fork();
        outer.update(hasher.finalize());
        outer.finalize()
    }

    /// Returns whether `code` is the authentication code of the message with which the caller has updated `hasher`, a hasher
    /// from `start`.
    ///
    /// A code of another length is never right. One of the same length is compared up to its last byte, wherever the first
    /// difference is.
    ///
    /// <details><summary>Contract</summary>
    ///
    /// ```text
    /// ensures { (key text : List ℕ) → IsKey H.function H.holds key self.now
    ///     → H.holds «hasher» (inner_block H.function key ++ text)
    ///     → (IsTrue result ↔ (code.now ≡ hmac H.function key text)) }
    /// ```
    ///
    /// Definitions: [`IsKey`](crate::specs::hmac_state#IsKey), [`inner_block`](crate::specs::hmac#inner_block),
    /// [`hmac`](crate::specs::hmac#hmac).
    ///
    /// </details>
    pub fn verify(&self, hasher: H, code: &[u8]) -> bool {
        let made = self.finish(hasher);
        bb::verify_slices_are_equal(made.as_ref(), code).is_ok()
    }
}

/// Returns the key, hashed if it is longer than a block, with zeros after it (RFC 2104 section 2, step 1).
// ensures { take H.BLOCK_LEN result ≡ block_key H.function key.now }
fn key_block<H: Hash>(key: &[u8]) -> [u8; MAX_BLOCK_LEN] {
    let mut block = [0u8; MAX_BLOCK_LEN];
    if is_long::<H>(key) {
        let digest = H::digest(key);
        block[..H::OUTPUT_LEN].copy_from_slice(digest.as_ref());
    } else {
        block[..key.len()].copy_from_slice(key);
    }
    block
}

/// Returns whether a key is longer than a block.
// ensures { IsTrue result ↔ (H.BLOCK_LEN < length key.now) }
fn is_long<H: Hash>(key: &[u8]) -> bool {
    key.len() > H::BLOCK_LEN
}

/// Returns a hasher that has absorbed the block, each of its bytes XORed with `pad`.
// requires { length block.now ≤ 128 }
// ensures { H.holds result (map (bit_xor pad) block.now) }
#[inline(never)]
fn absorb_xored<H: Hash>(block: &[u8], pad: u8) -> H {
    let mut padded = [0u8; MAX_BLOCK_LEN];
    for i in 0..block.len() {
        padded[i] = pad ^ block[i];
    }
    let mut hasher = H::new();
    hasher.update(&padded[..block.len()]);
    hasher
}

/// Returns the authentication code of a message.
///
/// <details><summary>Contract</summary>
///
/// ```text
/// ensures { H.Output.items result ≡ hmac H.function key.now text.now }
/// ```
///
/// Definitions: [`hmac`](crate::specs::hmac#hmac).
///
/// </details>
pub fn hmac<H: Hash>(key: &[u8], text: &[u8]) -> H::Output {
    let key = HmacKey::<H>::new(key);
    let mut hasher = key.start();
    hasher.update(text);
    key.finish(hasher)
}

/// Returns the authentication code of a message by HMAC-SHA-256.
///
/// <details><summary>Contract</summary>
///
/// ```text
/// ensures { result ≡ hmac sha_256 key.now text.now }
/// ```
///
/// Definitions: [`hmac`](crate::specs::hmac#hmac), [`sha_256`](crate::specs::hash#sha_256).
///
/// </details>
pub fn hmac_sha_256(key: &[u8], text: &[u8]) -> [u8; 32] {
    hmac::<Sha256>(key, text)
}

/// Returns the authentication code of a message by HMAC-SHA-384.
///
/// <details><summary>Contract</summary>
///
/// ```text
/// ensures { result ≡ hmac sha_384 key.now text.now }
/// ```
///
/// Definitions: [`hmac`](crate::specs::hmac#hmac), [`sha_384`](crate::specs::hash#sha_384).
///
/// </details>
pub fn hmac_sha_384(key: &[u8], text: &[u8]) -> [u8; 48] {
    hmac::<Sha384>(key, text)
}
