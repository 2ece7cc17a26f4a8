// Written by tools/rust from crates/aead_ciphers_wide/src/aes/block_key.rt. Don't edit.
//! AES keys for one block or two at a time: round keys alone, which the cipher by byte permutes reads.

use super::expand;
use super::permuted::{add_round_key, last_round, round};
use super::round_keys::RoundKeys;
use aead_ciphers_base::aes::{Block, EncryptBlock, KeyBytes, Work};
use aead_ciphers_base::values::Sample;
use simd::u8x16;

/// An expanded AES key for one block at a time: its round keys (FIPS 197 section 5.2).
///
/// <details><summary>Model</summary>
///
/// ```text
/// ghost Value = { List ℕ };
/// ghost view = { λ key. key_of key.round_keys key.rounds };
/// ghost invariant = { λ key. IsSchedule key.round_keys key.rounds };
/// ```
///
/// Definitions: [`key_of`](crate::specs::wide_schedule#key_of),
/// [`IsSchedule`](crate::specs::wide_schedule#IsSchedule).
///
/// </details>
#[derive(Clone)]
pub struct BlockKey {
    round_keys: RoundKeys,
    rounds: usize,
}

/// Overwrites the secret fields with zeros.
impl Drop for BlockKey {
    fn drop(&mut self) {
        simd::wipe(&mut self.round_keys);
    }
}

impl BlockKey {
    /// Expands a key of 16 or 32 bytes (FIPS 197 section 5.2).
    ///
    /// <details><summary>Contract</summary>
    ///
    /// ```text
    /// ensures { result ≡ key_bytes bytes.entry }
    /// ```
    ///
    /// Definitions: [`key_bytes`](aead_ciphers_base::specs::key_bytes#key_bytes).
    ///
    /// </details>
    pub fn new(bytes: KeyBytes<'_>) -> Self {
        simd::run(BlockKeyNew { bytes })
    }

    #[inline(always)]
    fn new_at<V: simd::Level>(bytes: KeyBytes<'_>) -> Self {
        let mut round_keys = [[0; 16]; 15];
        let rounds = expand::<V>(&mut round_keys, bytes);
        BlockKey { round_keys, rounds }
    }

    /// Computes the header protection mask of a sample (RFC 9001 section 5.4.3): 16 bytes in, 5 bytes out.
    ///
    /// <details><summary>Contract</summary>
    ///
    /// ```text
    /// ensures { result ≡ aes_mask self.now sample }
    /// ```
    ///
    /// Definitions: [`aes_mask`](aead_ciphers_base::specs::mask#aes_mask).
    ///
    /// </details>
    pub fn new_mask(&self, sample: Sample) -> [u8; 5] {
        simd::run(BlockKeyNewMask { key: self, sample })
    }

    #[inline(always)]
    fn new_mask_at<V: simd::Level>(&self, sample: Sample) -> [u8; 5] {
        BlockKeyRef {
            round_keys: &self.round_keys,
            rounds: self.rounds,
            level: core::marker::PhantomData::<V>,
        }
        .new_mask(sample)
    }
}

/// `BlockKey::new` as a job.
struct BlockKeyNew<'a> {
    bytes: KeyBytes<'a>,
}

impl simd::Job for BlockKeyNew<'_> {
    type Output = BlockKey;

    #[inline(always)]
    fn run<V: simd::Level>(self) -> BlockKey {
        BlockKey::new_at::<V>(self.bytes)
    }
}

/// `BlockKey::new_mask` as a job.
struct BlockKeyNewMask<'a> {
    key: &'a BlockKey,
    sample: Sample,
}

impl simd::Job for BlockKeyNewMask<'_> {
    type Output = [u8; 5];

    #[inline(always)]
    fn run<V: simd::Level>(self) -> [u8; 5] {
        self.key.new_mask_at::<V>(self.sample)
    }
}

/// A `BlockKey` that borrows its round keys, for example from a key that encrypts eight blocks at a time.
///
/// <details><summary>Model</summary>
///
/// ```text
/// ghost Value = { List ℕ };
/// ghost view = { λ key. key_of key.round_keys.now key.rounds };
/// ghost invariant = { λ key. IsSchedule key.round_keys.now key.rounds };
/// ```
///
/// Definitions: [`key_of`](crate::specs::wide_schedule#key_of),
/// [`IsSchedule`](crate::specs::wide_schedule#IsSchedule).
///
/// </details>
pub struct BlockKeyRef<'k, V: simd::Level> {
    level: core::marker::PhantomData<V>,

    round_keys: &'k RoundKeys,
    rounds: usize,
}

impl<'k, V: simd::Level> BlockKeyRef<'k, V> {
    /// Creates a key from round keys and the number of rounds, as `expand` writes and returns them.
    ///
    /// <details><summary>Contract</summary>
    ///
    /// ```text
    /// requires { IsSchedule round_keys.now rounds }
    /// ensures { result ≡ key_of round_keys.now rounds }
    /// ```
    ///
    /// Definitions: [`IsSchedule`](crate::specs::wide_schedule#IsSchedule),
    /// [`key_of`](crate::specs::wide_schedule#key_of).
    ///
    /// </details>
    #[inline(always)]
    pub fn new(round_keys: &'k RoundKeys, rounds: usize) -> Self {
        BlockKeyRef {
            round_keys,
            rounds,
            level: core::marker::PhantomData::<V>,
        }
    }

    /// Computes the header protection mask of a sample (RFC 9001 section 5.4.3): 16 bytes in, 5 bytes out.
    ///
    /// <details><summary>Contract</summary>
    ///
    /// ```text
    /// ensures { result ≡ aes_mask self.now sample }
    /// ```
    ///
    /// Definitions: [`aes_mask`](aead_ciphers_base::specs::mask#aes_mask).
    ///
    /// </details>
    #[inline(always)]
    pub fn new_mask(&self, sample: Sample) -> [u8; 5] {
        let block = self.encrypt_one(sample);
        let mut mask = [0; 5];
        mask.copy_from_slice(&block[..5]);
        mask
    }

    /// Encrypts a block (FIPS 197 section 5.1). No `Work` counts it.
    // ensures { result ≡ aes self.now block }
    #[inline(always)]
    pub(crate) fn encrypt_one(&self, block: Block) -> Block {
        let round_keys = self.round_keys;
        let rounds = self.rounds;
        let mut state = add_round_key(u8x16::<V>::from_array(block), &round_keys[0]);
        for n in 1..rounds {
            state = round(state, &round_keys[n]);
        }
        last_round(state, &round_keys[rounds]).to_array()
    }

    /// Encrypts two blocks, with a round of each in turn, since a round waits for the one before it. No `Work` counts them.
    // ensures first { result.0 ≡ aes self.now first }
    // ensures second { result.1 ≡ aes self.now second }
    #[inline(always)]
    pub(crate) fn encrypt_two(&self, first: Block, second: Block) -> (Block, Block) {
        let round_keys = self.round_keys;
        let rounds = self.rounds;
        let mut one = add_round_key(u8x16::<V>::from_array(first), &round_keys[0]);
        let mut two = add_round_key(u8x16::<V>::from_array(second), &round_keys[0]);
        for n in 1..rounds {
            one = round(one, &round_keys[n]);
            two = round(two, &round_keys[n]);
        }
        let one = last_round(one, &round_keys[rounds]);
        let two = last_round(two, &round_keys[rounds]);
        (one.to_array(), two.to_array())
    }
}

/// <details><summary>Ghost items</summary>
///
/// ```text
/// ghost cipher = { λ key block. aes key block };
/// ```
///
/// Definitions: [`aes`](aead_ciphers_base::specs::aes#aes).
///
/// </details>
impl<'k, V: simd::Level> EncryptBlock for BlockKeyRef<'k, V> {
    #[inline(always)]
    fn encrypt_block(&self, block: Block, work: &mut Work) -> Block {
        work.add_block();
        self.encrypt_one(block)
    }
}
