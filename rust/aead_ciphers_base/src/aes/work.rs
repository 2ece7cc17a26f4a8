// Written by tools/rust from crates/aead_ciphers_base/src/aes/work.rt. Don't edit.
//! Tallies of cipher blocks and field products, so that a contract can say how much a call computes.

/// Two 64-bit tallies: of cipher blocks whose output was used, and of field products (SP 800-38D
/// section 6.3). They let contracts state how much a call computes. A caller that doesn't need the
/// numbers passes `&mut Work::new()`.
///
/// Each tally must stay below 2^64. If `has_room` returns `true`, both do in the next call that seals
/// or opens. In Rust nothing checks this, and a larger sum panics or wraps around.
///
/// # Examples
///
/// ```
/// use deerlapse::aead::{Aad, Nonce, Unspecified};
/// use deerlapse::aes_gcm::{ExpandedKey, GcmKey, KeyBytes, Work};
///
/// let mut key = ExpandedKey::zeros();
/// key.expand(KeyBytes::AES_128(&[7; 16]), &mut Work::new()); // not a real key
///
/// let mut work = Work::new();
/// let nonce = Nonce::assume_unique_for_key([1; 12]);
/// let _tag = key.seal(nonce, Aad::empty(), &mut [2; 32], &mut work)?;
/// assert_eq!(work.blocks(), 3); // two of the message, and one of the tag
/// assert_eq!(work.products(), 3); // two of the ciphertext, and one of the lengths
/// # Ok::<(), Unspecified>(())
/// ```
///
/// <details><summary>Model</summary>
///
/// ```text
/// ghost Value = { Tallies };
/// ghost view = { λ work. record { blocks = work.blocks; products = work.products } };
/// ```
///
/// Definitions: [`Tallies`](crate::specs::work#Tallies).
///
/// </details>
pub struct Work {
    blocks: u64,
    products: u64,
}

impl Work {
    /// Creates two tallies of zero.
    ///
    /// <details><summary>Contract</summary>
    ///
    /// ```text
    /// ensures { result ≡ record { blocks = 0; products = 0 } }
    /// ```
    ///
    /// </details>
    #[inline(always)]
    pub fn new() -> Self {
        Work {
            blocks: 0,
            products: 0,
        }
    }

    /// Returns the number of cipher blocks that were counted.
    ///
    /// <details><summary>Contract</summary>
    ///
    /// ```text
    /// ensures { result ≡ self.now.blocks }
    /// ```
    ///
    /// </details>
    #[inline(always)]
    pub fn blocks(&self) -> u64 {
        self.blocks
    }

    /// Returns the number of field products that were counted.
    ///
    /// <details><summary>Contract</summary>
    ///
    /// ```text
    /// ensures { result ≡ self.now.products }
    /// ```
    ///
    /// </details>
    #[inline(always)]
    pub fn products(&self) -> u64 {
        self.products
    }

    /// Returns `true` if both tallies are at most 2^62.
    ///
    /// <details><summary>Contract</summary>
    ///
    /// ```text
    /// ensures { IsTrue result ↔ HasRoom self.now }
    /// ```
    ///
    /// Definitions: [`HasRoom`](crate::specs::work#HasRoom).
    ///
    /// </details>
    #[inline(always)]
    pub fn has_room(&self) -> bool {
        self.blocks <= 1 << 62 && self.products <= 1 << 62
    }

    /// Counts one field product.
    ///
    /// <details><summary>Contract</summary>
    ///
    /// ```text
    /// requires { CanAdd self.old 0 1 }
    /// ensures { Adds self.old self.new 0 1 }
    /// ```
    ///
    /// Definitions: [`CanAdd`](crate::specs::work#CanAdd), [`Adds`](crate::specs::work#Adds).
    ///
    /// </details>
    #[inline(always)]
    pub fn add_product(&mut self) {
        self.products += 1;
    }

    /// Counts one cipher block.
    ///
    /// <details><summary>Contract</summary>
    ///
    /// ```text
    /// requires { CanAdd self.old 1 0 }
    /// ensures { Adds self.old self.new 1 0 }
    /// ```
    ///
    /// Definitions: [`CanAdd`](crate::specs::work#CanAdd), [`Adds`](crate::specs::work#Adds).
    ///
    /// </details>
    #[inline(always)]
    pub fn add_block(&mut self) {
        self.blocks += 1;
    }

    /// Counts `count` cipher blocks.
    ///
    /// <details><summary>Contract</summary>
    ///
    /// ```text
    /// requires { CanAdd self.old count 0 }
    /// ensures { Adds self.old self.new count 0 }
    /// ```
    ///
    /// Definitions: [`CanAdd`](crate::specs::work#CanAdd), [`Adds`](crate::specs::work#Adds).
    ///
    /// </details>
    #[inline(always)]
    pub fn add_blocks(&mut self, count: u64) {
        self.blocks += count;
    }
}
