// Written by tools/rust from crates/aead_ciphers/src/aes_gcm/sealing.rt. Don't edit.
//! Sealing AES-GCM messages with any cipher and hash (SP 800-38D section 7.1).

use super::counter_mode::{BATCH_LEN, CHUNK_LEN, FEW_LEN, encrypt_blocks, encrypt_rest, whole_len};
use super::hash::finish;
use crate::gcm::{Context, UpdateBlocks, fits};
use aead_ciphers_base::aes::{BLOCK_LEN, Block, Counter, EncryptCtr32, Work, ZERO_BLOCK};
use aead_ciphers_base::error::Unspecified;
use aead_ciphers_base::values::{Aad, Nonce, Tag};

/// The length of the longest plaintext that is encrypted together with the mask of the tag, in bytes: fifteen blocks.
const SHORT_LEN: usize = BATCH_LEN - BLOCK_LEN;

/// Seals as `aes_gcm::seal` does, with any cipher of 16-byte blocks (SP 800-38D section 7.1). The hash subkey of `gcm` must be
/// the encryption of the zero block.
///
/// Encrypts `in_out` in place, and returns the tag. Fails if the lengths exceed the limits of `aes_gcm::seal`.
///
/// <details><summary>Contract</summary>
///
/// ```text
/// requires sums { CanSeal work.old (length (aad_bytes aad)) (length in_out.old) }
/// requires subkey { G.hash_subkey gcm.now ≡ A.cipher aes.now zero_block }
/// ensures accepted { IsOk result ↔ Fits (length (aad_bytes aad.entry)) (length in_out.old) }
/// ensures ciphertext { OnOk result (in_out.new ≡ gcm_encrypted (A.cipher aes.now) nonce in_out.old) }
/// ensures tag { IfOk result (λ t. t ≡ gcm_tag (A.cipher aes.now) nonce (aad_bytes aad.entry) in_out.new) }
/// ensures refused { OnErr result (in_out.new ≡ in_out.old) }
/// ensures worked { SealWork (length (aad_bytes aad.entry)) (length in_out.old) result work.old work.new }
/// ```
///
/// Definitions: [`CanSeal`](crate::specs::gcm#CanSeal), [`aad_bytes`](aead_ciphers_base::specs::values#aad_bytes),
/// [`zero_block`](aead_ciphers_base::specs::bytes#zero_block), [`Fits`](crate::specs::gcm#Fits),
/// [`gcm_encrypted`](crate::specs::gcm#gcm_encrypted), [`gcm_tag`](crate::specs::gcm#gcm_tag),
/// [`SealWork`](crate::specs::gcm#SealWork).
///
/// </details>
#[inline(always)]
pub fn seal_with<A: EncryptCtr32, G: UpdateBlocks>(
    aes: &A,
    gcm: &G,
    nonce: Nonce,
    aad: Aad<'_>,
    in_out: &mut [u8],
    work: &mut Work,
) -> Result<Tag, Unspecified> {
    if !fits(aad.as_ref().len(), in_out.len()) {
        return Err(Unspecified);
    }
    let mut auth = Context::of_fitting(gcm, aad, in_out.len(), work);
    if !in_out.is_empty() && in_out.len() <= SHORT_LEN {
        let mask = encrypt_short(aes, nonce, in_out, work);
        auth.absorb(in_out, work);
        return Ok(finish(auth, mask, work));
    }
    let mut counter = Counter::one(nonce);
    let tag_iv = counter.increment();
    let whole = whole_len(in_out.len());
    let mut done = 0;
    while done < whole {
        let count = (whole - done).min(CHUNK_LEN);
        let chunk = &mut in_out[done..done + count];
        encrypt_blocks(aes, &mut counter, chunk, 0, work);
        auth.absorb(chunk, work);
        done += count;
    }
    if whole < in_out.len() {
        let rest = &mut in_out[whole..];
        encrypt_rest(aes, counter, rest, 0, work);
        auth.absorb(rest, work);
    }
    let mask = aes.encrypt_block(tag_iv.into_block_less_safe(), work);
    Ok(finish(auth, mask, work))
}

/// Encrypts a plaintext of at most `SHORT_LEN` bytes in place, and returns the mask of the tag, which is the encrypted first
/// counter block. The counter blocks of the plaintext follow that one, so counter mode of a zero block followed by the
/// plaintext, at most sixteen blocks in all, computes both at once. That saves a pass over four blocks. The caller handles an
/// empty plaintext itself, which is 4 % faster.
// requires short { length in_out.old ≤ SHORT_LEN }
// requires sums { CanAdd work.old (sealing_blocks (length in_out.old)) 0 }
// ensures ciphertext { in_out.new ≡ gcm_encrypted (A.cipher aes.now) nonce in_out.old }
// ensures mask { result ≡ A.cipher aes.now (counter_block nonce 1) }
// ensures worked { Adds work.old work.new (sealing_blocks (length in_out.old)) 0 }
#[inline(always)]
fn encrypt_short<A: EncryptCtr32>(
    aes: &A,
    nonce: Nonce,
    in_out: &mut [u8],
    work: &mut Work,
) -> Block {
    let whole = (BLOCK_LEN + in_out.len()).div_ceil(BLOCK_LEN) * BLOCK_LEN;
    if whole <= FEW_LEN {
        let mut text = [0; FEW_LEN];
        encrypt_after_zeros(aes, nonce, in_out, &mut text[..whole], work)
    } else {
        let mut text = [0; BATCH_LEN];
        encrypt_after_zeros(aes, nonce, in_out, &mut text[..whole], work)
    }
}

/// Encrypts the plaintext in place and returns the mask of the tag, as `encrypt_short` does. The work is done in `text`, which
/// starts with a block of zeros and has room for the plaintext when it is padded to whole blocks.
// requires room { length text.old ≡ sealing_blocks (length in_out.old) * 16 }
// requires zeros { take 16 text.old ≡ zero_block }
// requires sums { CanAdd work.old (sealing_blocks (length in_out.old)) 0 }
// ensures ciphertext { in_out.new ≡ gcm_encrypted (A.cipher aes.now) nonce in_out.old }
// ensures mask { result ≡ A.cipher aes.now (counter_block nonce 1) }
// ensures worked { Adds work.old work.new (sealing_blocks (length in_out.old)) 0 }
#[inline(always)]
fn encrypt_after_zeros<A: EncryptCtr32>(
    aes: &A,
    nonce: Nonce,
    in_out: &mut [u8],
    text: &mut [u8],
    work: &mut Work,
) -> Block {
    let end = BLOCK_LEN + in_out.len();
    text[BLOCK_LEN..end].copy_from_slice(in_out);
    encrypt_blocks(aes, &mut Counter::one(nonce), text, 0, work);
    in_out.copy_from_slice(&text[BLOCK_LEN..end]);
    let mut mask = ZERO_BLOCK;
    mask.copy_from_slice(&text[..BLOCK_LEN]);
    mask
}
