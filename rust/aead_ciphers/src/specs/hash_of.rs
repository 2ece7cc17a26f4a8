// Written by tools/rust from crates/aead_ciphers/specs/HashOf.antt. Don't edit.
//! What a contract says of a GHASH that is computed over a list of blocks.
//!
//! The definitions of `crates/aead_ciphers/specs/HashOf.antt` of the repository.
//!
//! <div id="IsHashOf"></div>
//!
//! ```text
//! -- xi is the GHASH of the blocks, of 16 bytes each, under the hash subkey h
//! pub record IsHashOf (h : List ℕ) (blocks : List (List ℕ)) (xi : List ℕ) : Type 0 where
//!   pub sized : AllSized blocks
//!   pub value : ghash h blocks ≡ xi
//! ```
//!
//! Definitions: [`AllSized`](crate::specs::ghash#AllSized), [`ghash`](crate::specs::ghash#ghash).
//!
//! <div id="HashState"></div>
//!
//! ```text
//! -- what a contract sees of a `Context`: its hash subkey, the two lengths in its last block in bytes, and the hash so far
//! pub record HashState : Type 0 where
//!   pub hash_subkey : List ℕ
//!   pub aad_len : ℕ
//!   pub in_out_len : ℕ
//!   pub xi : List ℕ
//! ```
//!
//! <div id="Absorbs"></div>
//!
//! ```text
//! -- the hash absorbed bytes in blocks, the last of which is padded with zeros, and nothing else of it changed
//! pub record Absorbs (was : HashState) (input : List ℕ) (now : HashState) : Type 0 where
//!   pub kept : now ≡ record was { xi = now.xi }
//!   pub hashed : (done : List (List ℕ)) → IsHashOf was.hash_subkey done was.xi
//!       → IsHashOf was.hash_subkey (done ++ padded_blocks input) now.xi
//! ```
//!
//! Definitions: [`HashState`](crate::specs::hash_of#HashState), [`IsHashOf`](crate::specs::hash_of#IsHashOf),
//! [`padded_blocks`](crate::specs::gcm#padded_blocks).
