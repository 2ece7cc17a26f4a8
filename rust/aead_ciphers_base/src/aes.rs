// Written by tools/rust from crates/aead_ciphers_base/src/aes.rt. Don't edit.
//! AES (FIPS 197), bit-sliced over four blocks, and its counter mode (SP 800-38D section 6.5).
//!
//! Eight planes of 64 bits hold four blocks: bit `16 * block + byte` of plane `b` is bit `b` of that
//! byte. No step branches on a byte or reads at an index that depends on one: the one table is that
//! of the round constants. Read `Key` and `EncryptBlock` first.

use crate::error::Unspecified;
use crate::values::Sample;
use crate::{bb, overlapping};

mod bit_sliced;
mod counter;
mod ctr32;
mod key_schedule;
mod pack;
mod plane;
mod planes;
mod round;
mod tower;
mod work;

pub use bit_sliced::{RoundKeyPlanes, first_rounds, last_round};
pub use counter::{Counter, Iv};
pub use key_schedule::expand as expand_words;
pub use pack::LOW;
pub use plane::Plane;
pub use planes::sub_planes;
pub use work::Work;

/// The length of an AES-128 key, in bytes.
pub const AES_128_KEY_LEN: usize = 16;

/// The length of an AES-256 key, in bytes.
pub const AES_256_KEY_LEN: usize = 32;

/// The length of a block, in bytes.
pub const BLOCK_LEN: usize = 16;

/// A block of 16 bytes.
pub type Block = [u8; BLOCK_LEN];

/// The block of 16 zero bytes.
pub const ZERO_BLOCK: Block = [0; BLOCK_LEN];

/// The bytes of an AES key, whose length selects AES-128 or AES-256.
///
/// # Examples
///
/// ```
/// use deerlapse::aead::Unspecified;
/// use deerlapse::aes_gcm::KeyBytes;
///
/// let bytes = [7; 32]; // not a real key
/// assert!(matches!(KeyBytes::from_slice(&bytes)?, KeyBytes::AES_256(_)));
/// assert!(matches!(KeyBytes::from_slice(&bytes[..16])?, KeyBytes::AES_128(_)));
/// assert!(KeyBytes::from_slice(&bytes[..24]).is_err());
/// # Ok::<(), Unspecified>(())
/// ```
#[allow(non_camel_case_types)]
#[derive(Clone, Copy)]
pub enum KeyBytes<'a> {
    /// The 16 bytes of an AES-128 key.
    AES_128(&'a [u8; AES_128_KEY_LEN]),
    /// The 32 bytes of an AES-256 key.
    AES_256(&'a [u8; AES_256_KEY_LEN]),
}

impl<'a> KeyBytes<'a> {
    /// Borrows the bytes of a key, whose length selects AES-128 or AES-256. Fails with `Unspecified` if `bytes` does not have 16 or
    /// 32 bytes.
    ///
    /// <details><summary>Contract</summary>
    ///
    /// ```text
    /// ensures accepted { IsOk result ↔ ((length bytes.now ≡ 16) ⊎ (length bytes.now ≡ 32)) }
    /// ensures bytes { IfOk result (λ key. key_bytes key ≡ bytes.now) }
    /// ```
    ///
    /// Definitions: [`key_bytes`](crate::specs::key_bytes#key_bytes).
    ///
    /// </details>
    #[inline(always)]
    pub fn from_slice(bytes: &'a [u8]) -> Result<Self, Unspecified> {
        match bytes.len() {
            AES_256_KEY_LEN => Ok(KeyBytes::AES_256(simd::array_of(bytes).ok_or(Unspecified)?)),
            _ => Ok(KeyBytes::AES_128(simd::array_of(bytes).ok_or(Unspecified)?)),
        }
    }

    /// Returns the 16 or 32 bytes of the key.
    ///
    /// <details><summary>Contract</summary>
    ///
    /// ```text
    /// ensures bytes { result.now ≡ key_bytes self.entry }
    /// ensures len { (length result.now ≡ 16) ⊎ (length result.now ≡ 32) }
    /// ```
    ///
    /// Definitions: [`key_bytes`](crate::specs::key_bytes#key_bytes).
    ///
    /// </details>
    #[inline(always)]
    pub fn as_slice(self) -> &'a [u8] {
        match self {
            KeyBytes::AES_128(bytes) => bytes,
            KeyBytes::AES_256(bytes) => bytes,
        }
    }
}

/// A block cipher under a key, which encrypts one block at a time.
///
/// # Examples
///
/// The example of FIPS 197 appendix B:
///
/// ```
/// use aead_ciphers_base::aes::{EncryptBlock, Key, KeyBytes, Work};
/// use aead_ciphers_base::error::Unspecified;
///
/// let bytes = 0x2b7e151628aed2a6abf7158809cf4f3c_u128.to_be_bytes();
/// let key = Key::new(KeyBytes::AES_128(&bytes))?;
///
/// let block = 0x3243f6a8885a308d313198a2e0370734_u128.to_be_bytes();
/// let encrypted = key.encrypt_block(block, &mut Work::new());
/// assert_eq!(encrypted, 0x3925841d02dc09fbdc118597196a0b32_u128.to_be_bytes());
/// # Ok::<(), Unspecified>(())
/// ```
///
/// <details><summary>Ghost items</summary>
///
/// ```text
/// // The block cipher: from the key and a block to the encrypted block.
/// ghost cipher: { Self → List ℕ → List ℕ };
/// // An encrypted block has 16 bytes.
/// ghost length_cipher: { (key : Self) (block : List ℕ) → length block ≡ 16 → length (cipher key block) ≡ 16 };
/// ```
///
/// </details>
pub trait EncryptBlock {
    /// Encrypts a block: 16 bytes in, 16 bytes out. Counts one block in `work`.
    ///
    /// <details><summary>Contract</summary>
    ///
    /// ```text
    /// requires { CanAdd work.old 1 0 }
    /// ensures value { result ≡ cipher self.now block }
    /// ensures worked { Adds work.old work.new 1 0 }
    /// ```
    ///
    /// Definitions: [`CanAdd`](crate::specs::work#CanAdd), [`Adds`](crate::specs::work#Adds).
    ///
    /// </details>
    fn encrypt_block(&self, block: Block, work: &mut Work) -> Block;

    /// Encrypts the counter block `iv`, and returns `block` XORed with it: 16 bytes in, 16 bytes out.
    /// Counts one block in `work`.
    ///
    /// <details><summary>Contract</summary>
    ///
    /// ```text
    /// requires { CanAdd work.old 1 0 }
    /// ensures value { result ≡ block ⊕ cipher self.now iv }
    /// ensures worked { Adds work.old work.new 1 0 }
    /// ```
    ///
    /// Definitions: [`CanAdd`](crate::specs::work#CanAdd), [`⊕`](crate::specs::bytes#⊕),
    /// [`Adds`](crate::specs::work#Adds).
    ///
    /// </details>
    #[inline(always)]
    fn encrypt_iv_xor_block(&self, iv: Iv, block: Block, work: &mut Work) -> Block {
        bb::xor_16(block, self.encrypt_block(iv.into_block_less_safe(), work))
    }
}

/// A slice of bytes that is read from `start` on and written from the front on. [`overlapping::Overlapping`] has the methods.
pub type Overlapping<'o> = overlapping::Overlapping<'o, u8>;

/// An `Overlapping` whose input is shorter than a block of 16 bytes. [`overlapping::PartialBlock`] has the methods.
pub type OverlappingPartialBlock<'o> = overlapping::PartialBlock<'o, u8, BLOCK_LEN>;

/// Counter mode over a block cipher under a key (GCTR, SP 800-38D section 6.5).
pub trait EncryptCtr32: EncryptBlock {
    /// Encrypts or decrypts an input of whole blocks, and writes the output to the front of the slice.
    ///
    /// Output block `j` is the original input block `j` XORed with the encryption of the counter block
    /// plus `j`. The bytes after the output are unchanged. The counter is incremented by the number of
    /// blocks, and `work` counts them.
    ///
    /// <details><summary>Contract</summary>
    ///
    /// ```text
    /// requires whole { input_len in_out % 16 ≡ 0 }
    /// requires sums { CanAdd work.old (input_len in_out / 16) 0 }
    /// ensures output { EncryptsToFront (Self.cipher self.now) counter.old in_out.entry.start
    ///     in_out.entry.in_out.now in_out.exit.0.now }
    /// ensures counter { Advances counter.old counter.new (input_len in_out.entry / 16) }
    /// ensures worked { Adds work.old work.new (input_len in_out.entry / 16) 0 }
    /// ```
    ///
    /// Definitions: [`input_len`](crate::specs::overlapping#input_len), [`CanAdd`](crate::specs::work#CanAdd),
    /// [`EncryptsToFront`](crate::specs::counter_mode#EncryptsToFront),
    /// [`Advances`](crate::specs::counter_mode#Advances), [`Adds`](crate::specs::work#Adds).
    ///
    /// </details>
    fn ctr32_encrypt_within(&self, in_out: Overlapping<'_>, counter: &mut Counter, work: &mut Work);
}

/// An expanded AES key: its round keys (FIPS 197 section 5.2), each in all four blocks of eight planes.
///
/// # Examples
///
/// The mask of RFC 9001 appendix A.2:
///
/// ```
/// use aead_ciphers_base::aes::{Key, KeyBytes};
/// use aead_ciphers_base::error::Unspecified;
///
/// let bytes = 0x9f50449e04a0e810283a1e9933adedd2_u128.to_be_bytes();
/// let sample = 0xd1b1c98dd7689fb8ec11d242b123dc9b_u128.to_be_bytes();
/// let key = Key::new(KeyBytes::from_slice(&bytes)?)?;
/// assert_eq!(key.new_mask(sample), [0x43, 0x7b, 0x9a, 0xec, 0x36]);
/// # Ok::<(), Unspecified>(())
/// ```
///
/// <details><summary>Model</summary>
///
/// ```text
/// ghost Value = { List ℕ };
/// ghost view = { λ key. key_of key.round_keys key.rounds };
/// ghost invariant = { λ key. IsSchedule key.round_keys key.rounds };
/// ```
///
/// Definitions: [`key_of`](crate::specs::key_schedule#key_of),
/// [`IsSchedule`](crate::specs::key_schedule#IsSchedule).
///
/// </details>
#[derive(Clone)]
pub struct Key {
    round_keys: [[u64; 8]; 15],
    rounds: usize,
}

/// Overwrites the secret fields with zeros.
impl Drop for Key {
    fn drop(&mut self) {
        simd::wipe(&mut self.round_keys);
    }
}

impl Key {
    /// Expands a key of 16 or 32 bytes (FIPS 197 section 5.2). Never fails.
    ///
    /// <details><summary>Contract</summary>
    ///
    /// ```text
    /// ensures accepted { IsOk result }
    /// ensures made { IfOk result (λ key. key ≡ key_bytes bytes.entry) }
    /// ```
    ///
    /// Definitions: [`key_bytes`](crate::specs::key_bytes#key_bytes).
    ///
    /// </details>
    #[inline(always)]
    pub fn new(bytes: KeyBytes<'_>) -> Result<Key, Unspecified> {
        let mut round_keys = [[0; 8]; 15];
        let rounds = expand(&mut round_keys, bytes);
        Ok(Key { round_keys, rounds })
    }

    /// Borrows the key as a `KeyRef`.
    // ensures { result ≡ self.now }
    #[inline(always)]
    fn as_key_ref(&self) -> KeyRef<'_> {
        KeyRef {
            round_keys: &self.round_keys,
            rounds: self.rounds,
        }
    }

    /// Encrypts each of four blocks (FIPS 197 section 5.1), in one pass over the planes. No `Work`
    /// counts them.
    ///
    /// <details><summary>Contract</summary>
    ///
    /// ```text
    /// ensures { (k : ℕ) → k < 4
    ///     → slice_index_or result k [] ≡ aes self.now (slice_index_or blocks k []) }
    /// ```
    ///
    /// Definitions: [`aes`](crate::specs::aes#aes).
    ///
    /// </details>
    #[inline(always)]
    pub fn encrypt_four(&self, blocks: [Block; 4]) -> [Block; 4] {
        self.as_key_ref().encrypt_four(blocks)
    }

    /// Computes the header protection mask of a sample (RFC 9001 section 5.4.3): 16 bytes in, 5 bytes out.
    ///
    /// <details><summary>Contract</summary>
    ///
    /// ```text
    /// ensures { result ≡ aes_mask self.now sample }
    /// ```
    ///
    /// Definitions: [`aes_mask`](crate::specs::mask#aes_mask).
    ///
    /// </details>
    #[inline(always)]
    pub fn new_mask(&self, sample: Sample) -> [u8; 5] {
        let block = self.encrypt_block(sample, &mut Work::new());
        let mut mask = [0; 5];
        mask.copy_from_slice(&block[..5]);
        mask
    }
}

/// Expands a key of 16 or 32 bytes (FIPS 197 section 5.2): writes its round keys to `round_keys`, and
/// returns the number of its rounds, 10 or 14.
///
/// <details><summary>Contract</summary>
///
/// ```text
/// ensures schedule { IsSchedule round_keys.new result }
/// ensures bytes { key_of round_keys.new result ≡ key_bytes bytes.entry }
/// ```
///
/// Definitions: [`IsSchedule`](crate::specs::key_schedule#IsSchedule),
/// [`key_of`](crate::specs::key_schedule#key_of), [`key_bytes`](crate::specs::key_bytes#key_bytes).
///
/// </details>
#[inline(always)]
pub fn expand(round_keys: &mut [[u64; 8]; 15], bytes: KeyBytes<'_>) -> usize {
    let key = bytes.as_slice();
    let rounds = key.len() / 4 + 6;
    let words = key_schedule::expand(key);
    key_schedule::write_round_keys(round_keys, &words[..4 * (rounds + 1)]);
    rounds
}

/// An expanded AES key that borrows its round keys, for example from memory that the caller owns.
///
/// <details><summary>Model</summary>
///
/// ```text
/// ghost Value = { List ℕ };
/// ghost view = { λ key. key_of key.round_keys.now key.rounds };
/// ghost invariant = { λ key. IsSchedule key.round_keys.now key.rounds };
/// ```
///
/// Definitions: [`key_of`](crate::specs::key_schedule#key_of),
/// [`IsSchedule`](crate::specs::key_schedule#IsSchedule).
///
/// </details>
pub struct KeyRef<'k> {
    round_keys: &'k [[u64; 8]; 15],
    rounds: usize,
}

impl<'k> KeyRef<'k> {
    /// Creates a key from round keys and the number of rounds, as `expand` writes and returns them.
    ///
    /// <details><summary>Contract</summary>
    ///
    /// ```text
    /// requires { IsSchedule round_keys.now rounds }
    /// ensures { result ≡ key_of round_keys.now rounds }
    /// ```
    ///
    /// Definitions: [`IsSchedule`](crate::specs::key_schedule#IsSchedule),
    /// [`key_of`](crate::specs::key_schedule#key_of).
    ///
    /// </details>
    #[inline(always)]
    pub fn new(round_keys: &'k [[u64; 8]; 15], rounds: usize) -> Self {
        KeyRef { round_keys, rounds }
    }

    /// Encrypts one block, as the first of four.
    // ensures { result ≡ aes self.now block }
    #[inline(always)]
    fn cipher_block(&self, block: Block) -> Block {
        let [first, _, _, _] = self.encrypt_four([block, ZERO_BLOCK, ZERO_BLOCK, ZERO_BLOCK]);
        first
    }
}

/// <details><summary>Ghost items</summary>
///
/// ```text
/// ghost cipher = { λ key block. aes key block };
/// ```
///
/// Definitions: [`aes`](crate::specs::aes#aes).
///
/// </details>
impl<'k> EncryptBlock for KeyRef<'k> {
    #[inline(always)]
    fn encrypt_block(&self, block: Block, work: &mut Work) -> Block {
        work.add_block();
        self.cipher_block(block)
    }
}

/// <details><summary>Ghost items</summary>
///
/// ```text
/// ghost cipher = { λ key block. aes key block };
/// ```
///
/// Definitions: [`aes`](crate::specs::aes#aes).
///
/// </details>
impl EncryptBlock for Key {
    #[inline(always)]
    fn encrypt_block(&self, block: Block, work: &mut Work) -> Block {
        self.as_key_ref().encrypt_block(block, work)
    }
}

impl EncryptCtr32 for Key {
    #[inline(always)]
    fn ctr32_encrypt_within(
        &self,
        in_out: Overlapping<'_>,
        counter: &mut Counter,
        work: &mut Work,
    ) {
        let Overlapping { in_out, start } = in_out;
        let in_out = Overlapping::within(in_out, start);
        self.as_key_ref()
            .ctr32_encrypt_within(in_out, counter, work);
    }
}
