// Written by tools/rust from crates/aead_ciphers_base/src/aes/counter.rt. Don't edit.
//! Counter blocks of 12-byte nonces (SP 800-38D sections 6.2 and 7.1).

use crate::aes::{BLOCK_LEN, Block};
use crate::values::{NONCE_LEN, Nonce};

/// A counter block: a nonce of 12 bytes, and a number modulo 2^32 in four big-endian bytes.
///
/// <details><summary>Model</summary>
///
/// ```text
/// ghost Value = { List ℕ };
/// ghost view = { λ counter. counter.block };
/// ```
///
/// </details>
pub struct Counter {
    block: Block,
}

impl Counter {
    /// Creates counter block 1 of the nonce, the pre-counter block J0 (SP 800-38D section 7.1).
    ///
    /// <details><summary>Contract</summary>
    ///
    /// ```text
    /// ensures { IsCounter result nonce 1 }
    /// ```
    ///
    /// Definitions: [`IsCounter`](crate::specs::counter_mode#IsCounter).
    ///
    /// </details>
    #[inline(always)]
    pub fn one(nonce: Nonce) -> Self {
        let mut block = [0; BLOCK_LEN];
        block[..NONCE_LEN].copy_from_slice(nonce.as_ref());
        block[BLOCK_LEN - 1] = 1;
        Counter { block }
    }

    /// Adds one to the number (inc32, SP 800-38D section 6.2), and returns the previous counter block.
    ///
    /// <details><summary>Contract</summary>
    ///
    /// ```text
    /// ensures iv { result ≡ self.old }
    /// ensures counter { (nonce : List ℕ) (k : ℕ) → IsCounter self.old nonce k →
    ///     IsCounter self.new nonce (k + 1) }
    /// ```
    ///
    /// Definitions: [`IsCounter`](crate::specs::counter_mode#IsCounter).
    ///
    /// </details>
    #[inline(always)]
    pub fn increment(&mut self) -> Iv {
        let iv = Iv { block: self.block };
        self.increment_by_less_safe(1);
        iv
    }

    /// Adds `increment_by` to the number, modulo 2^32. Using no counter block twice under a key is the
    /// caller's responsibility.
    ///
    /// <details><summary>Contract</summary>
    ///
    /// ```text
    /// ensures { (nonce : List ℕ) (k : ℕ) → IsCounter self.old nonce k →
    ///     IsCounter self.new nonce (k + increment_by) }
    /// ```
    ///
    /// Definitions: [`IsCounter`](crate::specs::counter_mode#IsCounter).
    ///
    /// </details>
    #[inline(always)]
    pub fn increment_by_less_safe(&mut self, increment_by: u32) {
        self.block = self.plus(increment_by);
    }

    /// Returns the counter block with `more` added to its number, modulo 2^32.
    ///
    /// <details><summary>Contract</summary>
    ///
    /// ```text
    /// ensures { (nonce : List ℕ) (k : ℕ) → IsCounter self.now nonce k →
    ///     IsCounter result nonce (k + more) }
    /// ```
    ///
    /// Definitions: [`IsCounter`](crate::specs::counter_mode#IsCounter).
    ///
    /// </details>
    #[inline(always)]
    pub fn plus(&self, more: u32) -> Block {
        let mut block = self.block;
        let [.., n0, n1, n2, n3] = block;
        let number = u32::from_be_bytes([n0, n1, n2, n3]);
        let next = number.wrapping_add(more).to_be_bytes();
        block[NONCE_LEN..].copy_from_slice(&next);
        block
    }

    /// Returns the counter block and the next three.
    // ensures { (nonce : List ℕ) (k : ℕ) → IsCounter self.now nonce k → (i : ℕ) → i < 4 →
    //     IsCounter (slice_index_or result i []) nonce (k + i) }
    #[inline(always)]
    pub(crate) fn next_four(&self) -> [Block; 4] {
        [self.plus(0), self.plus(1), self.plus(2), self.plus(3)]
    }

    /// Returns the 16 bytes, which are the counter block of some nonce and number.
    ///
    /// <details><summary>Contract</summary>
    ///
    /// ```text
    /// ensures bytes { result.now ≡ self.now }
    /// ensures counter { (nonce : List ℕ) × (k : ℕ) × IsCounter self.now nonce k }
    /// ```
    ///
    /// Definitions: [`IsCounter`](crate::specs::counter_mode#IsCounter).
    ///
    /// </details>
    #[inline(always)]
    pub fn as_ref(&self) -> &Block {
        &self.block
    }
}

/// A counter block of 16 bytes that is used only once.
///
/// <details><summary>Model</summary>
///
/// ```text
/// ghost Value = { List ℕ };
/// ghost view = { λ iv. iv.block };
/// ```
///
/// </details>
pub struct Iv {
    block: Block,
}

/// Consumes a counter, and returns its counter block.
///
/// <details><summary>Ghost items</summary>
///
/// ```text
/// // What holds of the argument of `from` and of what it returns.
/// ghost from_gives = { λ counter iv. iv ≡ counter };
/// ```
///
/// </details>
impl From<Counter> for Iv {
    #[inline(always)]
    fn from(counter: Counter) -> Self {
        let Counter { block } = counter;
        Iv { block }
    }
}

impl Iv {
    /// Consumes the counter block, and returns its 16 bytes.
    ///
    /// <details><summary>Contract</summary>
    ///
    /// ```text
    /// ensures { result ≡ self }
    /// ```
    ///
    /// </details>
    #[inline(always)]
    pub fn into_block_less_safe(self) -> Block {
        self.block
    }
}
