// Written by tools/rust from crates/aead_ciphers/src/gcm/context.rt. Don't edit.
//! The hash of the AAD, the ciphertext and their lengths (SP 800-38D section 7.1).

use super::{UpdateBlock, UpdateBlocks, Xi, absorb, fits, lengths};
use aead_ciphers_base::aes::{BLOCK_LEN, Block, Work};
use aead_ciphers_base::error::Unspecified;
use aead_ciphers_base::polyfill::slice::AsChunks;
use aead_ciphers_base::values::{Aad, Tag};

/// A hash of the AAD, which is updated with the ciphertext block by block (SP 800-38D section 7.1, steps 4 and 5).
///
/// <details><summary>Model</summary>
///
/// ```text
/// ghost Value = { HashState };
/// ghost view = { λ context. record {
///   hash_subkey = K.hash_subkey context.key.now;
///   aad_len = context.aad_len;
///   in_out_len = context.in_out_len;
///   xi = context.xi;
/// } };
/// ghost invariant = { λ context. Fits context.aad_len context.in_out_len };
/// ```
///
/// Definitions: [`HashState`](crate::specs::hash_of#HashState), [`Fits`](crate::specs::gcm#Fits).
///
/// </details>
pub struct Context<'key, K: UpdateBlock> {
    xi: Xi,
    key: &'key K,
    aad_len: usize,
    in_out_len: usize,
}

impl<'key, K: UpdateBlock> Context<'key, K> {
    /// Updates the hash with one block, by one field product.
    ///
    /// <details><summary>Contract</summary>
    ///
    /// ```text
    /// requires { CanAdd work.old 0 1 }
    /// ensures hashed { (done : List (List ℕ)) → IsHashOf self.old.hash_subkey done self.old.xi
    ///     → IsHashOf self.old.hash_subkey (done ++ block ∷ []) self.new.xi }
    /// ensures kept { self.new ≡ record self.old { xi = self.new.xi } }
    /// ensures worked { Adds work.old work.new 0 1 }
    /// ```
    ///
    /// Definitions: [`CanAdd`](aead_ciphers_base::specs::work#CanAdd), [`IsHashOf`](crate::specs::hash_of#IsHashOf),
    /// [`Adds`](aead_ciphers_base::specs::work#Adds).
    ///
    /// </details>
    #[inline(always)]
    pub fn update_block(&mut self, block: Block, work: &mut Work) {
        self.key.update_block(&mut self.xi, block, work);
    }

    /// Updates the hash with the block of the lengths of the AAD and the ciphertext, by one field product, and returns
    /// the tag that `f` computes from the 16-byte hash.
    ///
    /// <details><summary>Contract</summary>
    ///
    /// ```text
    /// requires sums { CanAdd work.old 0 1 }
    /// requires callable { (xi : List ℕ)
    ///     → ((done : List (List ℕ)) → IsHashOf self.hash_subkey done self.xi
    ///     → IsHashOf self.hash_subkey (done ++ length_block self.aad_len self.in_out_len ∷ []) xi)
    ///     → F.pre f xi }
    /// ensures hashed { (xi : List ℕ) × F.post f xi result
    ///     × ((done : List (List ℕ)) → IsHashOf self.entry.hash_subkey done self.entry.xi
    ///     → IsHashOf self.entry.hash_subkey
    ///     (done ++ length_block self.entry.aad_len self.entry.in_out_len ∷ []) xi) }
    /// ensures worked { Adds work.old work.new 0 1 }
    /// ```
    ///
    /// Definitions: [`CanAdd`](aead_ciphers_base::specs::work#CanAdd), [`IsHashOf`](crate::specs::hash_of#IsHashOf),
    /// [`length_block`](crate::specs::gcm#length_block), [`Adds`](aead_ciphers_base::specs::work#Adds).
    ///
    /// </details>
    #[inline(always)]
    pub fn pre_finish<F: FnOnce(Block) -> Tag>(self, work: &mut Work, f: F) -> Tag {
        let Context {
            mut xi,
            key,
            aad_len,
            in_out_len,
        } = self;
        let lengths = lengths(aad_len as u64, in_out_len as u64);
        key.update_block(&mut xi, lengths, work);
        f(*xi.as_ref())
    }
}

impl<'key, K: UpdateBlocks> Context<'key, K> {
    /// Starts a hash with `aad`, padded with zeros to whole blocks, by one field product per block. `in_out_len` is the
    /// length of the ciphertext in bytes.
    ///
    /// # Errors
    ///
    /// Fails with `Unspecified` if `in_out_len` is greater than 2^36 - 32 or `aad` is 2^61 bytes or longer (SP 800-38D
    /// section 5.2.1.1).
    ///
    /// <details><summary>Contract</summary>
    ///
    /// ```text
    /// requires { Fits (length (aad_bytes aad)) in_out_len
    ///     → CanAdd work.old 0 ((length (aad_bytes aad) + 15) / 16) }
    /// ensures accepted { IsOk result ↔ Fits (length (aad_bytes aad.entry)) in_out_len }
    /// ensures hash_subkey { IfOk result (λ context. context.hash_subkey ≡ K.hash_subkey key.now) }
    /// ensures aad_len { IfOk result (λ context. context.aad_len ≡ length (aad_bytes aad.entry)) }
    /// ensures in_out_len { IfOk result (λ context. context.in_out_len ≡ in_out_len) }
    /// ensures hashed { IfOk result
    ///     (λ context. IsHashOf context.hash_subkey (padded_blocks (aad_bytes aad.entry)) context.xi) }
    /// ensures worked { OnOk result
    ///     (Adds work.old work.new 0 ((length (aad_bytes aad.entry) + 15) / 16)) }
    /// ensures idle { OnErr result (work.new ≡ work.old) }
    /// ```
    ///
    /// Definitions: [`Fits`](crate::specs::gcm#Fits), [`aad_bytes`](aead_ciphers_base::specs::values#aad_bytes),
    /// [`CanAdd`](aead_ciphers_base::specs::work#CanAdd), [`IsHashOf`](crate::specs::hash_of#IsHashOf),
    /// [`padded_blocks`](crate::specs::gcm#padded_blocks), [`Adds`](aead_ciphers_base::specs::work#Adds).
    ///
    /// </details>
    #[inline(always)]
    pub fn new(
        key: &'key K,
        aad: Aad<'_>,
        in_out_len: usize,
        work: &mut Work,
    ) -> Result<Self, Unspecified> {
        if !fits(aad.as_ref().len(), in_out_len) {
            return Err(Unspecified);
        }
        Ok(Context::of_fitting(key, aad, in_out_len, work))
    }

    /// Starts the hash of `aad` and of `in_out_len` bytes of ciphertext, as `new` does. The caller has checked that both lengths
    /// are within the limits.
    // requires fits { Fits (length (aad_bytes aad)) in_out_len }
    // requires sums { CanAdd work.old 0 ((length (aad_bytes aad) + 15) / 16) }
    // ensures hash_subkey { result.hash_subkey ≡ K.hash_subkey key.now }
    // ensures aad_len { result.aad_len ≡ length (aad_bytes aad.entry) }
    // ensures in_out_len { result.in_out_len ≡ in_out_len }
    // ensures hashed { IsHashOf result.hash_subkey (padded_blocks (aad_bytes aad.entry)) result.xi }
    // ensures worked { Adds work.old work.new 0 ((length (aad_bytes aad.entry) + 15) / 16) }
    #[inline(always)]
    pub(crate) fn of_fitting(
        key: &'key K,
        aad: Aad<'_>,
        in_out_len: usize,
        work: &mut Work,
    ) -> Self {
        let aad = aad.as_ref();
        let mut context = Context {
            xi: Xi::zero(),
            key,
            aad_len: aad.len(),
            in_out_len,
        };
        context.absorb(aad, work);
        context
    }

    /// Updates the hash with the blocks of `input` in order, by one field product each.
    ///
    /// <details><summary>Contract</summary>
    ///
    /// ```text
    /// requires { CanAdd work.old 0 (length input.items.now / 16) }
    /// ensures hashed { (done : List (List ℕ)) → IsHashOf self.old.hash_subkey done self.old.xi
    ///     → IsHashOf self.old.hash_subkey (done ++ blocks 16 input.entry.items.now) self.new.xi }
    /// ensures kept { self.new ≡ record self.old { xi = self.new.xi } }
    /// ensures worked { Adds work.old work.new 0 (length input.entry.items.now / 16) }
    /// ```
    ///
    /// Definitions: [`CanAdd`](aead_ciphers_base::specs::work#CanAdd), [`IsHashOf`](crate::specs::hash_of#IsHashOf),
    /// [`blocks`](aead_ciphers_base::specs::blocks#blocks), [`Adds`](aead_ciphers_base::specs::work#Adds).
    ///
    /// </details>
    #[inline(always)]
    pub fn update_blocks(&mut self, input: AsChunks<'_, u8, BLOCK_LEN>, work: &mut Work) {
        self.key.update_blocks(&mut self.xi, input, work);
    }

    /// Updates the hash with `input` in blocks, the last of which is padded with zeros, by one field product per block.
    // requires { CanAdd work.old 0 ((length input.now + 15) / 16) }
    // ensures hashed { Absorbs self.old input.now self.new }
    // ensures worked { Adds work.old work.new 0 ((length input.now + 15) / 16) }
    #[inline(always)]
    pub(crate) fn absorb(&mut self, input: &[u8], work: &mut Work) {
        absorb(self.key, &mut self.xi, input, work);
    }
}
