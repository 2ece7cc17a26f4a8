// Written by tools/rust from crates/aead_ciphers/src/aes_gcm/expanded.rt. Don't edit.
//! The expanded AES-GCM key of these libraries: round keys for `aes`, and multiples of the hash subkey for `gcm`.

use super::{GcmKey, opening, sealing};
use crate::gcm;
use aead_ciphers_base::aes::{self, EncryptBlock, KeyBytes, Work, ZERO_BLOCK};
use aead_ciphers_base::error::Unspecified;
use aead_ciphers_base::values::{Aad, Nonce, Tag};
use core::ops::RangeFrom;

/// An expanded AES-GCM key, without an invariant, so that it can be expanded in place.
///
/// Sealing and opening require the fields to be as `expand` left them.
#[derive(Clone)]
pub struct ExpandedKey {
    /// The round keys, as eight planes each (FIPS 197 section 5.2).
    round_keys: [[u64; 8]; 15],
    /// The number of rounds: 10 for AES-128, 14 for AES-256.
    rounds: usize,
    /// The multiples of the hash subkey (SP 800-38D section 6.3).
    multiples: [u32; 512],
}

/// Overwrites the secret fields with zeros.
impl Drop for ExpandedKey {
    fn drop(&mut self) {
        simd::wipe(&mut self.round_keys);
        simd::wipe(&mut self.multiples);
    }
}

/// <details><summary>Ghost items</summary>
///
/// ```text
/// ghost bytes_of = { specs.bytes_of };
/// ghost is_expanded = { specs.IsExpanded };
/// ghost zero_key = { specs.zero_key };
/// ```
///
/// Definitions: [`bytes_of`](crate::specs::expanded_key#bytes_of),
/// [`IsExpanded`](crate::specs::expanded_key#IsExpanded), [`zero_key`](crate::specs::expanded_key#zero_key).
///
/// </details>
impl GcmKey for ExpandedKey {
    #[inline(always)]
    fn zeros() -> Self {
        ExpandedKey {
            round_keys: [[0; 8]; 15],
            rounds: 0,
            multiples: [0; 512],
        }
    }

    #[inline(always)]
    fn expand(&mut self, bytes: KeyBytes<'_>, work: &mut Work) {
        // Clears the rows that a longer key, which was here before, may have left. No clause says so.
        self.round_keys = [[0; 8]; 15];
        self.rounds = aes::expand(&mut self.round_keys, bytes);
        let aes = aes::KeyRef::new(&self.round_keys, self.rounds);
        let subkey = aes.encrypt_block(ZERO_BLOCK, work);
        gcm::expand(&mut self.multiples, gcm::KeyValue::new(subkey));
    }

    #[inline(always)]
    fn seal(
        &self,
        nonce: Nonce,
        aad: Aad<'_>,
        in_out: &mut [u8],
        work: &mut Work,
    ) -> Result<Tag, Unspecified> {
        let aes = aes::KeyRef::new(&self.round_keys, self.rounds);
        let gcm = gcm::KeyRef::new(&self.multiples);
        sealing::seal_with(&aes, &gcm, nonce, aad, in_out, work)
    }

    #[inline(always)]
    fn open(
        &self,
        nonce: Nonce,
        aad: Aad<'_>,
        received_tag: Tag,
        in_out: &mut [u8],
        src: RangeFrom<usize>,
        work: &mut Work,
    ) -> Result<usize, Unspecified> {
        let aes = aes::KeyRef::new(&self.round_keys, self.rounds);
        let gcm = gcm::KeyRef::new(&self.multiples);
        opening::open_with(&aes, &gcm, nonce, aad, received_tag, in_out, src, work)
    }

    #[inline(always)]
    fn open_to(
        &self,
        nonce: Nonce,
        aad: Aad<'_>,
        received_tag: Tag,
        ciphertext: &[u8],
        out: &mut [u8],
        work: &mut Work,
    ) -> Result<(), Unspecified> {
        let aes = aes::KeyRef::new(&self.round_keys, self.rounds);
        let gcm = gcm::KeyRef::new(&self.multiples);
        opening::open_to_with(&aes, &gcm, nonce, aad, received_tag, ciphertext, out, work)
    }
}
