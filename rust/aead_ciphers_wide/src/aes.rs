// Written by tools/rust from crates/aead_ciphers_wide/src/aes.rt. Don't edit.
//! AES (FIPS 197), of eight or sixteen blocks on bit planes, and of one block or two by byte permutes, and its counter mode
//! (SP 800-38D section 6.5).
//!
//! Eight planes of 128 bits hold eight blocks: bit `8 * byte + block` of plane `b` is bit `b` of that byte. Eight planes of 256
//! bits hold sixteen: their halves are planes of 128 bits, of the blocks with even numbers and of those with odd ones.

use aead_ciphers_base::aes::{Block, EncryptBlock, KeyBytes, Work};
use aead_ciphers_base::values::Sample;

mod bit_sliced;
mod block_key;
mod counters;
mod ctr32;
mod key_schedule;
mod pack_eight;
mod pack_sixteen;
mod permuted;
mod round_keys;
mod transpose;

pub use block_key::{BlockKey, BlockKeyRef};
pub(crate) use ctr32::BATCH_LEN;
pub(crate) use round_keys::joined;
pub use round_keys::{RoundKeys, RoundPlanes, write_planes};

/// The width of the planes on which a key encrypts batches of blocks. A plane holds one bit of every byte of these blocks. No
/// result depends on the width, so no contract says which width a key has, except that of `ExpandedKey::expand_with_width`: a key
/// of another width would only be slower.
///
/// # Examples
///
/// ```
/// use deerlapse::aes_gcm::{ExpandedKey, GcmKey, KeyBytes, Width, Work};
///
/// let bytes = [7; 16]; // not a real key
/// let mut key = ExpandedKey::zeros();
/// key.expand_with_width(KeyBytes::AES_128(&bytes), Width::Bits256, &mut Work::new());
/// assert_eq!(key.width, Width::Bits256.bits());
/// ```
#[derive(Clone, Copy)]
pub enum Width {
    /// Eight blocks on planes of 128 bits. The faster where vectors have 128 bits, such as SSE2 and NEON.
    Bits128,
    /// Sixteen blocks on planes of 256 bits. The faster where vectors have 256 bits, such as AVX2.
    Bits256,
}

/// The number of bits for planes of 256 bits. Any other number means planes of 128 bits.
const PLANES_OF_256_BITS: u32 = 256;

impl Width {
    /// Returns the width of the planes that are the faster on the running processor.
    pub fn of_processor() -> Self {
        if simd::has_256_bits() {
            Width::Bits256
        } else {
            Width::Bits128
        }
    }

    /// Returns the number of bits.
    ///
    /// <details><summary>Contract</summary>
    ///
    /// ```text
    /// ensures { result ≡ width_bits self }
    /// ```
    ///
    /// Definitions: [`width_bits`](crate::specs::width#width_bits).
    ///
    /// </details>
    #[inline(always)]
    pub fn bits(self) -> u32 {
        match self {
            Width::Bits128 => 128,
            Width::Bits256 => PLANES_OF_256_BITS,
        }
    }
}

/// Expands a key of 16 or 32 bytes (FIPS 197 section 5.2): writes its round keys to `round_keys`, and zeros after them, and
/// returns the number of its rounds, 10 or 14.
///
/// <details><summary>Contract</summary>
///
/// ```text
/// ensures schedule { IsSchedule round_keys.new result }
/// ensures bytes { key_of round_keys.new result ≡ key_bytes bytes.entry }
/// ensures unused { AreZerosAfter round_keys.new result }
/// ```
///
/// Definitions: [`IsSchedule`](crate::specs::wide_schedule#IsSchedule),
/// [`key_of`](crate::specs::wide_schedule#key_of), [`key_bytes`](aead_ciphers_base::specs::key_bytes#key_bytes),
/// [`AreZerosAfter`](crate::specs::wide_schedule#AreZerosAfter).
///
/// </details>
#[inline(always)]
pub fn expand<V: simd::Level>(round_keys: &mut RoundKeys, bytes: KeyBytes<'_>) -> usize {
    let key = bytes.as_slice();
    let rounds = key.len() / 4 + 6;
    key_schedule::expand::<V>(round_keys, key);
    rounds
}

/// An expanded AES key that borrows its round keys, for example from memory that the caller owns.
///
/// <details><summary>Model</summary>
///
/// ```text
/// ghost Value = { List ℕ };
/// ghost view = { λ key. key_of key.round_keys.now key.rounds };
/// ghost invariant = { λ key. IsSchedule key.round_keys.now key.rounds
///     × HoldsPlanes key.planes.now key.round_keys.now (key.rounds + 1) };
/// ```
///
/// Definitions: [`key_of`](crate::specs::wide_schedule#key_of),
/// [`IsSchedule`](crate::specs::wide_schedule#IsSchedule),
/// [`HoldsPlanes`](crate::specs::wide_schedule#HoldsPlanes).
///
/// </details>
pub struct KeyRef<'k, V: simd::Level> {
    level: core::marker::PhantomData<V>,

    planes: &'k RoundPlanes,
    round_keys: &'k RoundKeys,
    rounds: usize,
    width: u32,
}

impl<'k, V: simd::Level> KeyRef<'k, V> {
    /// Creates a key from round keys and the number of rounds, as `expand` writes and returns them, and their planes, as
    /// `write_planes` writes them. Batches take planes of 256 bits if `width` is 256, else planes of 128 bits.
    ///
    /// <details><summary>Contract</summary>
    ///
    /// ```text
    /// requires schedule { IsSchedule round_keys.now rounds }
    /// requires planes { HoldsPlanes planes.now round_keys.now (rounds + 1) }
    /// ensures { result ≡ key_of round_keys.now rounds }
    /// ```
    ///
    /// Definitions: [`IsSchedule`](crate::specs::wide_schedule#IsSchedule),
    /// [`HoldsPlanes`](crate::specs::wide_schedule#HoldsPlanes), [`key_of`](crate::specs::wide_schedule#key_of).
    ///
    /// </details>
    #[inline(always)]
    pub fn new(
        planes: &'k RoundPlanes,
        round_keys: &'k RoundKeys,
        rounds: usize,
        width: u32,
    ) -> Self {
        KeyRef {
            planes,
            round_keys,
            rounds,
            width,
            level: core::marker::PhantomData::<V>,
        }
    }

    /// Borrows the round keys, for one block at a time.
    // ensures { result ≡ self.now }
    #[inline(always)]
    fn as_block_key_ref(&self) -> BlockKeyRef<'k, V> {
        BlockKeyRef::<V>::new(self.round_keys, self.rounds)
    }

    /// Computes the header protection mask of a sample (RFC 9001 section 5.4.3): 16 bytes in, 5 bytes out.
    ///
    /// <details><summary>Contract</summary>
    ///
    /// ```text
    /// ensures { result ≡ aes_mask self.now sample }
    /// ```
    ///
    /// Definitions: [`aes_mask`](aead_ciphers_base::specs::mask#aes_mask).
    ///
    /// </details>
    #[inline(always)]
    pub fn new_mask(&self, sample: Sample) -> [u8; 5] {
        self.as_block_key_ref().new_mask(sample)
    }
}

/// <details><summary>Ghost items</summary>
///
/// ```text
/// ghost cipher = { λ key block. aes key block };
/// ```
///
/// Definitions: [`aes`](aead_ciphers_base::specs::aes#aes).
///
/// </details>
impl<'k, V: simd::Level> EncryptBlock for KeyRef<'k, V> {
    #[inline(always)]
    fn encrypt_block(&self, block: Block, work: &mut Work) -> Block {
        self.as_block_key_ref().encrypt_block(block, work)
    }
}
