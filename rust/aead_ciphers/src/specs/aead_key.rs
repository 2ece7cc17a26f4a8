// Written by tools/rust from crates/aead_ciphers/specs/AeadKey.antt. Don't edit.
//! What a contract sees of a key: its algorithm and its bytes.
//!
//! The definitions of `crates/aead_ciphers/specs/AeadKey.antt` of the repository.
//!
//! <div id="AeadKey"></div>
//!
//! ```text
//! pub record AeadKey : Type 0 where
//!   pub algorithm : Algorithm
//!   pub bytes : List ℕ
//! ```
//!
//! <div id="key_debug_text"></div>
//!
//! ```text
//! -- what `{:?}` prints of a key whose type has this name: its algorithm, and none of its bytes
//! abbrev pub key_debug_text : List ℕ → AeadKey → List ℕ
//! key_debug_text name key = name ++ (codes " { algorithm: " ++ (debug_text key.algorithm ++ codes " }"))
//! ```
//!
//! Definitions: [`AeadKey`](crate::specs::aead_key#AeadKey), [`debug_text`](crate::specs::algorithm#debug_text).
