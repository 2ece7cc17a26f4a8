// Written by tools/rust from crates/aead_ciphers/src/aes_gcm/hash.rt. Don't edit.
//! The tag of a message, from the hash of its AAD and ciphertext (SP 800-38D section 7.1, steps 4 to 6).

use crate::gcm::{Context, UpdateBlock};
use aead_ciphers_base::aes::{Block, Work};
use aead_ciphers_base::bb;
use aead_ciphers_base::values::Tag;

/// Ends the hash with the block of the lengths, and returns the tag: the hash XORed with `mask`, the encrypted first counter block.
// requires { CanAdd work.old 0 1 }
// ensures tag { (done : List (List ℕ)) → IsHashOf auth.entry.hash_subkey done auth.entry.xi →
//     let last = length_block auth.entry.aad_len auth.entry.in_out_len in
//     result ≡ ghash auth.entry.hash_subkey (done ++ last ∷ []) ⊕ mask }
// ensures worked { Adds work.old work.new 0 1 }
#[inline(always)]
pub(super) fn finish<G: UpdateBlock>(auth: Context<'_, G>, mask: Block, work: &mut Work) -> Tag {
    auth.pre_finish(work, |pre_tag: Block| -> Tag {
        Tag::from(bb::xor_16(pre_tag, mask))
    })
}
