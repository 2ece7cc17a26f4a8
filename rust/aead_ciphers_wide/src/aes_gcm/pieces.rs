// Written by tools/rust from crates/aead_ciphers_wide/src/aes_gcm/pieces.rt. Don't edit.
//! Sealing a message in pieces of any lengths, with any cipher and hash (SP 800-38D section 7.1).

use crate::aes::BATCH_LEN;
use aead_ciphers::gcm::{self, MAX_AAD_LEN, MAX_IN_OUT_LEN, UpdateBlocks, Xi, lengths};
use aead_ciphers_base::aes::{
    BLOCK_LEN, Block, Counter, EncryptCtr32, Iv, Overlapping, Work, ZERO_BLOCK,
};
use aead_ciphers_base::bb;
use aead_ciphers_base::error::Unspecified;
use aead_ciphers_base::values::{Aad, NONCE_LEN, Nonce, Tag};

/// What is kept of a message that is sealed in pieces, as plain data without padding. The keystream in `batch` is secret.
///
/// Change no field between two calls: the tag may then be wrong, and in Rust a call may panic.
///
/// # Examples
///
/// ```
/// use deerlapse::aead::{Aad, Nonce, Unspecified};
/// use deerlapse::aes_gcm::{ExpandedKey, GcmKey, KeyBytes, SealState, Work};
///
/// let bytes = [7; 16]; // not a real key
/// let mut key = ExpandedKey::zeros();
/// key.expand(KeyBytes::AES_128(&bytes), &mut Work::new());
///
/// let nonce = || Nonce::assume_unique_for_key([1; 12]); // another for each message
/// let mut state: SealState = key.begin(nonce(), Aad::empty())?;
/// let mut pieces = [*b"hel", *b"lo!"];
/// for piece in &mut pieces {
///     key.update(&mut state, piece)?;
/// }
/// let tag = key.finish(state);
///
/// // The bytes are those of one call.
/// let mut whole = *b"hello!";
/// let tag_of_whole = key.seal(nonce(), Aad::empty(), &mut whole, &mut Work::new())?;
/// assert_eq!(pieces.concat(), whole);
/// assert_eq!(tag.as_ref(), tag_of_whole.as_ref());
/// # Ok::<(), Unspecified>(())
/// ```
#[repr(C)]
pub struct SealState {
    /// The hash of the AAD and of the whole batches of ciphertext.
    pub xi: Block,
    /// The ciphertext after the whole batches, followed by the rest of its keystream. With both in one array, a piece
    /// within a batch takes one step. No `Work` counts a batch, which may reach past the end.
    pub batch: [u8; BATCH_LEN],
    /// The length of the AAD, in bytes.
    pub aad_len: usize,
    /// The length of the pieces that were sealed, in bytes.
    pub len: usize,
    /// The nonce of the message.
    pub nonce: [u8; NONCE_LEN],
    /// 1 in a message that has begun, and 0 in zeros.
    pub begun: u32,
}

/// Overwrites the secret fields with zeros.
impl Drop for SealState {
    fn drop(&mut self) {
        simd::wipe(&mut self.xi);
        simd::wipe(&mut self.batch);
    }
}

impl SealState {
    /// Returns a value whose fields are all zeros. It is not a message that has begun.
    ///
    /// <details><summary>Contract</summary>
    ///
    /// ```text
    /// ensures { result ≡ zero_state }
    /// ```
    ///
    /// Definitions: [`zero_state`](crate::specs::pieces#zero_state).
    ///
    /// </details>
    #[inline(always)]
    pub fn zeros() -> Self {
        SealState {
            xi: ZERO_BLOCK,
            batch: [0; BATCH_LEN],
            aad_len: 0,
            len: 0,
            nonce: [0; NONCE_LEN],
            begun: 0,
        }
    }

    /// Begins a message, of which no piece is sealed yet, for any cipher whose encryption of the zero block is the hash
    /// subkey.
    ///
    /// # Errors
    ///
    /// Fails with `Unspecified` if `aad` is 2^61 bytes or longer (SP 800-38D section 5.2.1.1).
    ///
    /// <details><summary>Contract</summary>
    ///
    /// ```text
    /// ensures accepted { IsOk result ↔ Fits (length (aad_bytes aad.entry)) 0 }
    /// ensures begun { IfOk result (λ s. (cipher : List ℕ → List ℕ)
    ///     → G.hash_subkey gcm.now ≡ cipher zero_block
    ///     → HasSealed cipher nonce (aad_bytes aad.entry) [] [] s) }
    /// ensures cleared { IfOk result (λ s. s.batch ≡ replicate BATCH_LEN 0) }
    /// ```
    ///
    /// Definitions: [`Fits`](aead_ciphers::specs::gcm#Fits), [`aad_bytes`](aead_ciphers_base::specs::values#aad_bytes),
    /// [`zero_block`](aead_ciphers_base::specs::bytes#zero_block), [`HasSealed`](crate::specs::pieces#HasSealed).
    ///
    /// </details>
    #[inline(always)]
    pub fn begin_with<G: UpdateBlocks>(
        gcm: &G,
        nonce: Nonce,
        aad: Aad<'_>,
    ) -> Result<SealState, Unspecified> {
        let aad = aad.as_ref();
        if aad.len() > MAX_AAD_LEN {
            return Err(Unspecified);
        }
        Ok(SealState {
            xi: absorb(gcm, ZERO_BLOCK, aad),
            batch: [0; BATCH_LEN],
            aad_len: aad.len(),
            len: 0,
            nonce: *nonce.as_ref(),
            begun: 1,
        })
    }

    /// Begins a message as `begin_with` does, with AAD that is given in parts, one after another.
    ///
    /// # Errors
    ///
    /// Fails with `Unspecified` if the parts together have 2^61 bytes or more (SP 800-38D section 5.2.1.1).
    ///
    /// <details><summary>Contract</summary>
    ///
    /// ```text
    /// ensures accepted { IsOk result ↔ Fits (length (joined aad.now)) 0 }
    /// ensures begun { IfOk result (λ s. (cipher : List ℕ → List ℕ)
    ///     → G.hash_subkey gcm.now ≡ cipher zero_block
    ///     → HasSealed cipher nonce (joined aad.now) [] [] s) }
    /// ensures cleared { IfOk result (λ s. s.batch ≡ replicate BATCH_LEN 0) }
    /// ```
    ///
    /// Definitions: [`Fits`](aead_ciphers::specs::gcm#Fits), [`joined`](crate::specs::pieces#joined),
    /// [`zero_block`](aead_ciphers_base::specs::bytes#zero_block), [`HasSealed`](crate::specs::pieces#HasSealed).
    ///
    /// </details>
    #[inline(always)]
    pub fn begin_with_parts<G: UpdateBlocks>(
        gcm: &G,
        nonce: Nonce,
        aad: &[&[u8]],
    ) -> Result<SealState, Unspecified> {
        let mut hash = PartialHash::new();
        for part in aad {
            hash.update(gcm, part);
        }
        if hash.total > MAX_AAD_LEN {
            return Err(Unspecified);
        }
        Ok(SealState {
            xi: hash.finish(gcm),
            batch: [0; BATCH_LEN],
            aad_len: hash.total,
            len: 0,
            nonce: *nonce.as_ref(),
            begun: 1,
        })
    }

    /// Encrypts the next piece of the message in place, under the key that the message began with.
    ///
    /// # Errors
    ///
    /// Fails with `Unspecified`, and changes nothing, if the message would be longer than 2^36 - 32 bytes.
    ///
    /// <details><summary>Contract</summary>
    ///
    /// ```text
    /// requires subkey { G.hash_subkey gcm.now ≡ A.cipher aes.now zero_block }
    /// requires fits { Fits self.old.aad_len self.old.len }
    /// ensures accepted { IsOk result ↔ Fits self.old.aad_len (self.old.len + length in_out.old) }
    /// ensures sealed { OnOk result
    ///     (SealsPiece (A.cipher aes.now) self.old in_out.old in_out.new self.new) }
    /// ensures refused { OnErr result ((self.new ≡ self.old) × (in_out.new ≡ in_out.old)) }
    /// ```
    ///
    /// Definitions: [`zero_block`](aead_ciphers_base::specs::bytes#zero_block),
    /// [`Fits`](aead_ciphers::specs::gcm#Fits), [`SealsPiece`](crate::specs::pieces#SealsPiece).
    ///
    /// </details>
    #[inline(always)]
    pub fn update_with<A: EncryptCtr32, G: UpdateBlocks>(
        &mut self,
        aes: &A,
        gcm: &G,
        in_out: &mut [u8],
    ) -> Result<(), Unspecified> {
        if in_out.len() > MAX_IN_OUT_LEN - self.len {
            return Err(Unspecified);
        }
        let mut done = 0;
        while done < in_out.len() {
            let count = (in_out.len() - done).min(BATCH_LEN - self.len % BATCH_LEN);
            self.seal_in_batch(aes, gcm, &mut in_out[done..done + count]);
            done += count;
        }
        Ok(())
    }

    /// Ends the message, and returns the tag of its AAD and of the ciphertexts of all its pieces in a row.
    ///
    /// <details><summary>Contract</summary>
    ///
    /// ```text
    /// requires subkey { G.hash_subkey gcm.now ≡ A.cipher aes.now zero_block }
    /// requires fits { Fits self.aad_len self.len }
    /// ensures { (nonce aad message ciphertext : List ℕ)
    ///     → HasSealed (A.cipher aes.now) nonce aad message ciphertext self
    ///     → result ≡ gcm_tag (A.cipher aes.now) nonce aad ciphertext }
    /// ```
    ///
    /// Definitions: [`zero_block`](aead_ciphers_base::specs::bytes#zero_block),
    /// [`Fits`](aead_ciphers::specs::gcm#Fits), [`HasSealed`](crate::specs::pieces#HasSealed),
    /// [`gcm_tag`](aead_ciphers::specs::gcm#gcm_tag).
    ///
    /// </details>
    #[inline(always)]
    pub fn finish_with<A: EncryptCtr32, G: UpdateBlocks>(self, aes: &A, gcm: &G) -> Tag {
        let xi = absorb(gcm, self.xi, &self.batch[..self.len % BATCH_LEN]);
        let pre_tag = absorb(gcm, xi, &lengths(self.aad_len as u64, self.len as u64));
        let tag_iv: Iv = Counter::one(Nonce::assume_unique_for_key(self.nonce)).into();
        Tag::from(aes.encrypt_iv_xor_block(tag_iv, pre_tag, &mut Work::new()))
    }

    /// Seals a piece that ends in the batch of its first byte.
    // requires subkey { G.hash_subkey gcm.now ≡ A.cipher aes.now zero_block }
    // requires room { self.old.len % BATCH_LEN + length in_out.old ≤ BATCH_LEN }
    // requires len { self.old.len + length in_out.old ≤ 2 ^ 36 - 32 }
    // ensures { SealsPiece (A.cipher aes.now) self.old in_out.old in_out.new self.new }
    #[inline(always)]
    fn seal_in_batch<A: EncryptCtr32, G: UpdateBlocks>(
        &mut self,
        aes: &A,
        gcm: &G,
        in_out: &mut [u8],
    ) {
        let start = self.len % BATCH_LEN;
        let end = start + in_out.len();
        self.batch = self.next_batch(aes);
        bb::xor_assign_at_start(in_out, &self.batch[start..end]);
        self.batch[start..end].copy_from_slice(in_out);
        self.len += in_out.len();
        if end == BATCH_LEN {
            self.xi = absorb(gcm, self.xi, &self.batch);
        }
    }

    /// Returns the batch of the next byte. At the start of a batch, it is new keystream.
    // requires { self.now.len ≤ 2 ^ 36 - 32 }
    // ensures made { self.now.len % BATCH_LEN ≡ 0
    //     → result ≡ keystream (A.cipher aes.now) self.now.nonce self.now.len }
    // ensures kept { 0 < self.now.len % BATCH_LEN → result ≡ self.now.batch }
    #[inline(always)]
    fn next_batch<A: EncryptCtr32>(&self, aes: &A) -> [u8; BATCH_LEN] {
        if self.len % BATCH_LEN != 0 {
            return self.batch;
        }
        let mut counter = Counter::one(Nonce::assume_unique_for_key(self.nonce));
        counter.increment_by_less_safe((1 + self.len / BLOCK_LEN) as u32);
        let mut batch = [0; BATCH_LEN];
        aes.ctr32_encrypt_within(
            Overlapping::within(&mut batch, 0),
            &mut counter,
            &mut Work::new(),
        );
        batch
    }
}

/// The hash of bytes that come in parts of any lengths.
struct PartialHash {
    /// The hash of the whole batches.
    xi: Block,
    /// The bytes after the whole batches, at the front of the array.
    batch: [u8; BATCH_LEN],
    /// The number of bytes after the whole batches.
    len: usize,
    /// The length of all parts in bytes, or the largest number if they are longer.
    total: usize,
}

impl PartialHash {
    // ensures taken { (h : List ℕ) → HasTaken h [] result }
    // ensures none { (result.len ≡ 0) × (result.total ≡ 0) }
    #[inline(always)]
    fn new() -> Self {
        PartialHash {
            xi: ZERO_BLOCK,
            batch: [0; BATCH_LEN],
            len: 0,
            total: 0,
        }
    }

    /// Hashes the next part.
    // requires { self.old.len < BATCH_LEN }
    // ensures short { self.new.len < BATCH_LEN }
    // ensures taken { (bytes : List ℕ) → HasTaken (G.hash_subkey gcm.now) bytes self.old
    //     → HasTaken (G.hash_subkey gcm.now) (bytes ++ part.now) self.new }
    // ensures total { self.new.total ≡ min (self.old.total + length part.now) (2 ^ 64 - 1) }
    #[inline(always)]
    fn update<G: UpdateBlocks>(&mut self, gcm: &G, part: &[u8]) {
        self.total = self.total.saturating_add(part.len());
        let mut done = 0;
        while done < part.len() {
            let count = (part.len() - done).min(BATCH_LEN - self.len);
            self.update_within_batch(gcm, &part[done..done + count]);
            done += count;
        }
    }

    /// Hashes bytes that end in the batch of their first byte.
    // requires short { self.old.len < BATCH_LEN }
    // requires room { self.old.len + length bytes.now ≤ BATCH_LEN }
    // ensures len { self.new.len ≡ (self.old.len + length bytes.now) % BATCH_LEN }
    // ensures taken { (before : List ℕ) → HasTaken (G.hash_subkey gcm.now) before self.old
    //     → HasTaken (G.hash_subkey gcm.now) (before ++ bytes.now) self.new }
    // ensures total { self.new.total ≡ self.old.total }
    #[inline(always)]
    fn update_within_batch<G: UpdateBlocks>(&mut self, gcm: &G, bytes: &[u8]) {
        let end = self.len + bytes.len();
        self.batch[self.len..end].copy_from_slice(bytes);
        self.len = end % BATCH_LEN;
        if end == BATCH_LEN {
            self.xi = absorb(gcm, self.xi, &self.batch);
        }
    }

    /// Returns the hash of all parts, whose last block is padded with zeros.
    // requires { self.now.len < BATCH_LEN }
    // ensures { (bytes : List ℕ) → HasTaken (G.hash_subkey gcm.now) bytes self.now
    //     → IsHashOf (G.hash_subkey gcm.now) (padded_blocks bytes) result }
    #[inline(always)]
    fn finish<G: UpdateBlocks>(&self, gcm: &G) -> Block {
        absorb(gcm, self.xi, &self.batch[..self.len])
    }
}

/// Returns the hash `xi` updated with the blocks of `input`, the last of which is padded with zeros.
// ensures { (done : List (List ℕ)) → IsHashOf (G.hash_subkey gcm.now) done xi
//     → IsHashOf (G.hash_subkey gcm.now) (done ++ padded_blocks input.now) result }
#[inline(always)]
fn absorb<G: UpdateBlocks>(gcm: &G, xi: Block, input: &[u8]) -> Block {
    let mut hash = Xi::zero();
    hash.set(xi);
    gcm::absorb(gcm, &mut hash, input, &mut Work::new());
    *hash.as_ref()
}
