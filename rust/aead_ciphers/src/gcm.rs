// Written by tools/rust from crates/aead_ciphers/src/gcm.rt. Don't edit.
//! GHASH (SP 800-38D section 6.4) over the blocks of the AAD and the ciphertext. `Context` hashes a whole message.

mod context;
mod limits;
mod padding;
mod product;

use aead_ciphers_base::aes::{BLOCK_LEN, Block, Work, ZERO_BLOCK};
use aead_ciphers_base::polyfill::slice::AsChunks;
pub use context::Context;
pub use limits::{MAX_AAD_LEN, MAX_IN_OUT_LEN, fits};
pub use padding::{absorb, lengths};

/// A hash subkey: the 16-byte block H of SP 800-38D.
///
/// <details><summary>Model</summary>
///
/// ```text
/// ghost Value = { List ℕ };
/// ghost view = { λ value. value.block };
/// ```
///
/// </details>
pub struct KeyValue {
    block: Block,
}

impl KeyValue {
    /// Creates a hash subkey from its bytes.
    ///
    /// <details><summary>Contract</summary>
    ///
    /// ```text
    /// ensures { result ≡ block }
    /// ```
    ///
    /// </details>
    #[inline(always)]
    pub fn new(block: Block) -> Self {
        KeyValue { block }
    }
}

/// The intermediate block of a GHASH: 16 bytes.
///
/// <details><summary>Model</summary>
///
/// ```text
/// ghost Value = { List ℕ };
/// ghost view = { λ xi. xi.block };
/// ```
///
/// </details>
pub struct Xi {
    block: Block,
}

impl Xi {
    /// Returns the GHASH of no blocks.
    ///
    /// <details><summary>Contract</summary>
    ///
    /// ```text
    /// ensures { (h : List ℕ) → IsHashOf h [] result }
    /// ```
    ///
    /// Definitions: [`IsHashOf`](crate::specs::hash_of#IsHashOf).
    ///
    /// </details>
    #[inline(always)]
    pub fn zero() -> Self {
        Xi { block: ZERO_BLOCK }
    }

    /// Replaces the block, for a hash that is implemented in another crate.
    ///
    /// <details><summary>Contract</summary>
    ///
    /// ```text
    /// ensures { self.new ≡ block }
    /// ```
    ///
    /// </details>
    #[inline(always)]
    pub fn set(&mut self, block: Block) {
        self.block = block;
    }

    /// Returns the bytes of the block.
    ///
    /// <details><summary>Contract</summary>
    ///
    /// ```text
    /// ensures { result.now ≡ self.now }
    /// ```
    ///
    /// </details>
    #[inline(always)]
    pub fn as_ref(&self) -> &Block {
        &self.block
    }
}

/// GHASH under a key, block by block.
///
/// <details><summary>Ghost items</summary>
///
/// ```text
/// // The hash subkey.
/// ghost hash_subkey: { Self → List ℕ };
/// ```
///
/// </details>
pub trait UpdateBlock {
    /// Updates the hash `xi` with `block`, by one field product.
    ///
    /// <details><summary>Contract</summary>
    ///
    /// ```text
    /// requires { CanAdd work.old 0 1 }
    /// ensures hashed { (done : List (List ℕ)) → IsHashOf (hash_subkey self.now) done xi.old
    ///     → IsHashOf (hash_subkey self.now) (done ++ block ∷ []) xi.new }
    /// ensures worked { Adds work.old work.new 0 1 }
    /// ```
    ///
    /// Definitions: [`CanAdd`](aead_ciphers_base::specs::work#CanAdd), [`IsHashOf`](crate::specs::hash_of#IsHashOf),
    /// [`Adds`](aead_ciphers_base::specs::work#Adds).
    ///
    /// </details>
    fn update_block(&self, xi: &mut Xi, block: Block, work: &mut Work);
}

/// GHASH under a key, many blocks at a time.
pub trait UpdateBlocks: UpdateBlock {
    /// Updates the hash `xi` with the blocks of `input` in order, by one field product each.
    ///
    /// <details><summary>Contract</summary>
    ///
    /// ```text
    /// requires { CanAdd work.old 0 (length input.items.now / 16) }
    /// ensures hashed { (done : List (List ℕ)) → IsHashOf (Self.hash_subkey self.now) done xi.old
    ///     → IsHashOf (Self.hash_subkey self.now) (done ++ blocks 16 input.entry.items.now) xi.new }
    /// ensures worked { Adds work.old work.new 0 (length input.entry.items.now / 16) }
    /// ```
    ///
    /// Definitions: [`CanAdd`](aead_ciphers_base::specs::work#CanAdd), [`IsHashOf`](crate::specs::hash_of#IsHashOf),
    /// [`blocks`](aead_ciphers_base::specs::blocks#blocks), [`Adds`](aead_ciphers_base::specs::work#Adds).
    ///
    /// </details>
    fn update_blocks(&self, xi: &mut Xi, input: AsChunks<'_, u8, BLOCK_LEN>, work: &mut Work);
}

/// A key for GHASH: a hash subkey with its multiples.
///
/// <details><summary>Model</summary>
///
/// ```text
/// ghost Value = { List ℕ };
/// ghost view = { λ key. to_be_bytes w128 (entry key.multiples 0) };
/// ghost invariant = { λ key.
///     AreMultiples (to_be_bytes w128 (entry key.multiples 0)) key.multiples };
/// ```
///
/// Definitions: [`entry`](crate::specs::multiples#entry), [`AreMultiples`](crate::specs::multiples#AreMultiples).
///
/// </details>
#[derive(Clone)]
pub struct Key {
    /// The multiples of the hash subkey (SP 800-38D section 6.3).
    multiples: [u32; 512],
}

/// Overwrites the secret fields with zeros.
impl Drop for Key {
    fn drop(&mut self) {
        simd::wipe(&mut self.multiples);
    }
}

impl Key {
    /// Creates a key from a hash subkey, and computes the multiples of the subkey.
    ///
    /// <details><summary>Contract</summary>
    ///
    /// ```text
    /// ensures { result ≡ value }
    /// ```
    ///
    /// </details>
    #[inline(always)]
    pub fn new(value: KeyValue) -> Self {
        let mut multiples = [0; 512];
        expand(&mut multiples, value);
        Key { multiples }
    }

    /// Borrows the key.
    // ensures { result ≡ self.now }
    #[inline(always)]
    pub(crate) fn as_key_ref(&self) -> KeyRef<'_> {
        KeyRef {
            multiples: &self.multiples,
        }
    }
}

/// Writes the multiples of the hash subkey `value` to `multiples`.
// ensures multiples { AreMultiples (to_be_bytes w128 (entry multiples.new 0)) multiples.new }
// ensures subkey { to_be_bytes w128 (entry multiples.new 0) ≡ value }
#[inline(always)]
pub(crate) fn expand(multiples: &mut [u32; 512], value: KeyValue) {
    product::write_multiples(multiples, number_of_block(value.block));
}

/// A key for GHASH that borrows the multiples of its hash subkey.
// Model:
// ghost Value = { List ℕ };
// ghost view = { λ key. to_be_bytes w128 (entry key.multiples.now 0) };
// ghost invariant = { λ key.
//     AreMultiples (to_be_bytes w128 (entry key.multiples.now 0)) key.multiples.now };
pub(crate) struct KeyRef<'k> {
    multiples: &'k [u32; 512],
}

impl<'k> KeyRef<'k> {
    /// Creates a key from the multiples of its hash subkey.
    // requires { AreMultiples (to_be_bytes w128 (entry multiples.now 0)) multiples.now }
    // ensures { result ≡ to_be_bytes w128 (entry multiples.now 0) }
    #[inline(always)]
    pub(crate) fn new(multiples: &'k [u32; 512]) -> Self {
        KeyRef { multiples }
    }
}

/// Returns the number whose big-endian bytes are `block`.
// ensures { to_be_bytes w128 result ≡ block }
#[inline(always)]
fn number_of_block(block: Block) -> u128 {
    u128::from_be_bytes(block)
}

/// <details><summary>Ghost items</summary>
///
/// ```text
/// ghost hash_subkey = { λ key. key };
/// ```
///
/// </details>
impl<'k> UpdateBlock for KeyRef<'k> {
    #[inline(always)]
    fn update_block(&self, xi: &mut Xi, block: Block, work: &mut Work) {
        let sum = number_of_block(xi.block) ^ number_of_block(block);
        xi.block = product::product(self.multiples, sum).to_be_bytes();
        work.add_product();
    }
}

impl<'k> UpdateBlocks for KeyRef<'k> {
    #[inline(always)]
    fn update_blocks(&self, xi: &mut Xi, input: AsChunks<'_, u8, BLOCK_LEN>, work: &mut Work) {
        let mut sum = number_of_block(xi.block);
        for block in input {
            sum = product::product(self.multiples, sum ^ number_of_block(*block));
            work.add_product();
        }
        xi.block = sum.to_be_bytes();
    }
}

/// <details><summary>Ghost items</summary>
///
/// ```text
/// ghost hash_subkey = { λ key. key };
/// ```
///
/// </details>
impl UpdateBlock for Key {
    #[inline(always)]
    fn update_block(&self, xi: &mut Xi, block: Block, work: &mut Work) {
        self.as_key_ref().update_block(xi, block, work);
    }
}

impl UpdateBlocks for Key {
    #[inline(always)]
    fn update_blocks(&self, xi: &mut Xi, input: AsChunks<'_, u8, BLOCK_LEN>, work: &mut Work) {
        self.as_key_ref().update_blocks(xi, input, work);
    }
}
