// Written by tools/rust from crates/aead_ciphers/src/gcm/padding.rt. Don't edit.
//! Bytes that are padded to whole blocks, and the block of their lengths (SP 800-38D section 7.1 steps 4 and 5).

use super::{UpdateBlocks, Xi};
use aead_ciphers_base::aes::{BLOCK_LEN, Block, Work, ZERO_BLOCK};
use aead_ciphers_base::polyfill::slice::as_chunks;

/// Updates the hash `xi` with the blocks of `input`, the last of which is padded with zeros, by one field product per block.
///
/// <details><summary>Contract</summary>
///
/// ```text
/// requires { CanAdd work.old 0 ((length input.now + 15) / 16) }
/// ensures hashed { (done : List (List ℕ)) → IsHashOf (G.hash_subkey gcm.now) done xi.old
///     → IsHashOf (G.hash_subkey gcm.now) (done ++ padded_blocks input.now) xi.new }
/// ensures worked { Adds work.old work.new 0 ((length input.now + 15) / 16) }
/// ```
///
/// Definitions: [`CanAdd`](aead_ciphers_base::specs::work#CanAdd), [`IsHashOf`](crate::specs::hash_of#IsHashOf),
/// [`padded_blocks`](crate::specs::gcm#padded_blocks), [`Adds`](aead_ciphers_base::specs::work#Adds).
///
/// </details>
#[inline(always)]
pub fn absorb<G: UpdateBlocks>(gcm: &G, xi: &mut Xi, input: &[u8], work: &mut Work) {
    let (whole, rest) = as_chunks::<u8, BLOCK_LEN>(input);
    gcm.update_blocks(xi, whole, work);
    if !rest.is_empty() {
        gcm.update_block(xi, padded(rest), work);
    }
}

/// Returns a block that begins with `bytes`, at most 16 of them, and ends in zeros.
// requires { length bytes.now ≤ 16 }
// ensures { result ≡ padded_block bytes.now 0 }
#[inline(always)]
fn padded(bytes: &[u8]) -> Block {
    let mut block = ZERO_BLOCK;
    block[..bytes.len()].copy_from_slice(bytes);
    block
}

/// Returns the block of two lengths, which are passed in bytes and written in bits (SP 800-38D section 7.1 step 5).
///
/// <details><summary>Contract</summary>
///
/// ```text
/// requires { Fits aad_len in_out_len }
/// ensures { result ≡ length_block aad_len in_out_len }
/// ```
///
/// Definitions: [`Fits`](crate::specs::gcm#Fits), [`length_block`](crate::specs::gcm#length_block).
///
/// </details>
#[inline(always)]
pub fn lengths(aad_len: u64, in_out_len: u64) -> Block {
    let mut block = ZERO_BLOCK;
    block[..8].copy_from_slice(&(8 * aad_len).to_be_bytes());
    block[8..].copy_from_slice(&(8 * in_out_len).to_be_bytes());
    block
}
