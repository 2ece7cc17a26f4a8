// Written by tools/rust from crates/aead_ciphers/specs/BoundState.antt. Don't edit.
//! What a contract sees of a key that is bound to a nonce sequence.
//!
//! The definitions of `crates/aead_ciphers/specs/BoundState.antt` of the repository.
//!
//! <div id="BoundState"></div>
//!
//! ```text
//! -- the key and its sequence
//! pub record BoundState (N : Type 0) : Type 0 where
//!   pub key : AeadKey
//!   pub sequence : N
//! ```
//!
//! Definitions: [`AeadKey`](crate::specs::aead_key#AeadKey).
//!
//! <div id="Keeps"></div>
//!
//! ```text
//! -- the key, with its algorithm, is unchanged, and so is the origin of the sequence: numbers that no call changes
//! pub record Keeps {N : Type 0} (origin : N → List ℕ) (was now : BoundState N) : Type 0 where
//!   pub key_kept : now.key ≡ was.key
//!   pub origin_kept : origin now.sequence ≡ origin was.sequence
//! ```
//!
//! Definitions: [`BoundState`](crate::specs::bound_state#BoundState).
