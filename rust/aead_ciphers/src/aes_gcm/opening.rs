// Written by tools/rust from crates/aead_ciphers/src/aes_gcm/opening.rt. Don't edit.
//! Opening AES-GCM messages with any cipher and hash (SP 800-38D section 7.2).

use super::counter_mode::encrypt_within;
use super::hash::finish;
use crate::gcm::{Context, UpdateBlocks, fits};
use aead_ciphers_base::aes::{Counter, EncryptCtr32, Work};
use aead_ciphers_base::bb;
use aead_ciphers_base::error::Unspecified;
use aead_ciphers_base::values::{Aad, Nonce, Tag};
use core::ops::RangeFrom;

/// Opens as `aes_gcm::open` does, with any cipher of 16-byte blocks (SP 800-38D section 7.2). The hash subkey of `gcm` must be
/// the encryption of the zero block.
///
/// Compares the tag of the ciphertext `in_out[src]` with `received_tag`, then decrypts it to the front of `in_out`, and returns
/// the length of the plaintext in bytes.
/// Fails if the start is out of range, if the lengths exceed the limits of `aes_gcm::seal`, or if the tags differ.
///
/// <details><summary>Contract</summary>
///
/// ```text
/// requires sums { CanOpen work.old (length (aad_bytes aad)) src.start (length in_out.old) }
/// requires subkey { G.hash_subkey gcm.now ≡ A.cipher aes.now zero_block }
/// ensures opened { Opened (A.cipher aes.now) nonce (aad_bytes aad.entry) received_tag src.start
///     in_out.old (is_ok result) in_out.new }
/// ensures count { IfOk result (λ n. n ≡ length in_out.old - src.start) }
/// ensures worked { OpenWork (length (aad_bytes aad.entry)) src.start (length in_out.old) result
///     work.old work.new }
/// ```
///
/// Definitions: [`CanOpen`](crate::specs::gcm#CanOpen), [`aad_bytes`](aead_ciphers_base::specs::values#aad_bytes),
/// [`zero_block`](aead_ciphers_base::specs::bytes#zero_block), [`Opened`](crate::specs::gcm#Opened),
/// [`OpenWork`](crate::specs::gcm#OpenWork).
///
/// </details>
#[inline(always)]
pub fn open_with<A: EncryptCtr32, G: UpdateBlocks>(
    aes: &A,
    gcm: &G,
    nonce: Nonce,
    aad: Aad<'_>,
    received_tag: Tag,
    in_out: &mut [u8],
    src: RangeFrom<usize>,
    work: &mut Work,
) -> Result<usize, Unspecified> {
    let start = src.start;
    if start > in_out.len() {
        return Err(Unspecified);
    }
    if !fits(aad.as_ref().len(), in_out.len() - start) {
        return Err(Unspecified);
    }
    open_fitting_with(aes, gcm, nonce, aad, received_tag, in_out, start, work)
}

/// Opens the ciphertext from `start` on, as `open_with` does. The caller has checked that `start` is within `in_out` and that the
/// lengths are within the limits, so the only error is that the tags differ.
///
/// <details><summary>Contract</summary>
///
/// ```text
/// requires within { start ≤ length in_out.old }
/// requires fits { Fits (length (aad_bytes aad)) (length in_out.old - start) }
/// requires sums { CanOpen work.old (length (aad_bytes aad)) start (length in_out.old) }
/// requires subkey { G.hash_subkey gcm.now ≡ A.cipher aes.now zero_block }
/// ensures opened { Opened (A.cipher aes.now) nonce (aad_bytes aad.entry) received_tag start
///     in_out.old (is_ok result) in_out.new }
/// ensures count { IfOk result (λ n. n ≡ length in_out.old - start) }
/// ensures worked { OpenWork (length (aad_bytes aad.entry)) start (length in_out.old) result work.old work.new }
/// ```
///
/// Definitions: [`Fits`](crate::specs::gcm#Fits), [`aad_bytes`](aead_ciphers_base::specs::values#aad_bytes),
/// [`CanOpen`](crate::specs::gcm#CanOpen), [`zero_block`](aead_ciphers_base::specs::bytes#zero_block),
/// [`Opened`](crate::specs::gcm#Opened), [`OpenWork`](crate::specs::gcm#OpenWork).
///
/// </details>
#[inline(always)]
pub fn open_fitting_with<A: EncryptCtr32, G: UpdateBlocks>(
    aes: &A,
    gcm: &G,
    nonce: Nonce,
    aad: Aad<'_>,
    received_tag: Tag,
    in_out: &mut [u8],
    start: usize,
    work: &mut Work,
) -> Result<usize, Unspecified> {
    let counter = authenticate(aes, gcm, nonce, aad, received_tag, &in_out[start..], work)?;
    Ok(encrypt_within(aes, counter, in_out, start, work))
}

/// Compares the tag of `ciphertext` with `received_tag`, and then decrypts it to `out`, which is equally long. Fails if
/// the lengths exceed the limits of `aes_gcm::seal`, or if the tags differ.
///
/// <details><summary>Contract</summary>
///
/// ```text
/// requires sums { CanSeal work.old (length (aad_bytes aad)) (length ciphertext.now) }
/// requires subkey { G.hash_subkey gcm.now ≡ A.cipher aes.now zero_block }
/// requires lengths { length out.old ≡ length ciphertext.now }
/// ensures accepted { IsOk result ↔ (Fits (length (aad_bytes aad.entry)) (length ciphertext.now)
///     × (received_tag ≡ gcm_tag (A.cipher aes.now) nonce (aad_bytes aad.entry) ciphertext.now)) }
/// ensures plaintext { OnOk result
///     (out.new ≡ gcm_decrypted (A.cipher aes.now) nonce ciphertext.now) }
/// ensures refused { OnErr result (out.new ≡ out.old) }
/// ensures worked { OpenWork (length (aad_bytes aad.entry)) 0 (length ciphertext.now) result work.old work.new }
/// ```
///
/// Definitions: [`CanSeal`](crate::specs::gcm#CanSeal), [`aad_bytes`](aead_ciphers_base::specs::values#aad_bytes),
/// [`zero_block`](aead_ciphers_base::specs::bytes#zero_block), [`Fits`](crate::specs::gcm#Fits),
/// [`gcm_tag`](crate::specs::gcm#gcm_tag), [`gcm_decrypted`](crate::specs::gcm#gcm_decrypted),
/// [`OpenWork`](crate::specs::gcm#OpenWork).
///
/// </details>
#[inline(always)]
pub fn open_to_with<A: EncryptCtr32, G: UpdateBlocks>(
    aes: &A,
    gcm: &G,
    nonce: Nonce,
    aad: Aad<'_>,
    received_tag: Tag,
    ciphertext: &[u8],
    out: &mut [u8],
    work: &mut Work,
) -> Result<(), Unspecified> {
    if !fits(aad.as_ref().len(), ciphertext.len()) {
        return Err(Unspecified);
    }
    let counter = authenticate(aes, gcm, nonce, aad, received_tag, ciphertext, work)?;
    out.copy_from_slice(ciphertext);
    encrypt_within(aes, counter, out, 0, work);
    Ok(())
}

/// Compares the tag of `ciphertext` with `received_tag`, and returns the counter block of its first block. Fails if the tags
/// differ.
// requires fits { Fits (length (aad_bytes aad)) (length ciphertext.now) }
// requires sums { CanSeal work.old (length (aad_bytes aad)) (length ciphertext.now) }
// requires subkey { G.hash_subkey gcm.now ≡ A.cipher aes.now zero_block }
// ensures accepted { IsOk result
//     ↔ (received_tag ≡ gcm_tag (A.cipher aes.now) nonce (aad_bytes aad.entry) ciphertext.now) }
// ensures counter { IfOk result (λ counter. IsCounter counter nonce 2) }
// ensures worked { Adds work.old work.new 1
//     (sealing_products (length (aad_bytes aad.entry)) (length ciphertext.now)) }
#[inline(always)]
fn authenticate<A: EncryptCtr32, G: UpdateBlocks>(
    aes: &A,
    gcm: &G,
    nonce: Nonce,
    aad: Aad<'_>,
    received_tag: Tag,
    ciphertext: &[u8],
    work: &mut Work,
) -> Result<Counter, Unspecified> {
    let mut auth = Context::of_fitting(gcm, aad, ciphertext.len(), work);
    let mut counter = Counter::one(nonce);
    let tag_iv = counter.increment();
    auth.absorb(ciphertext, work);
    let mask = aes.encrypt_block(tag_iv.into_block_less_safe(), work);
    let tag = finish(auth, mask, work);
    bb::verify_slices_are_equal(tag.as_ref(), received_tag.as_ref())?;
    Ok(counter)
}
