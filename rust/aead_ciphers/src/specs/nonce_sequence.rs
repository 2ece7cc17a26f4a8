// Written by tools/rust from crates/aead_ciphers/specs/NonceSequence.antt. Don't edit.
//! What a call does to a nonce sequence: its list of used nonces, and whether it is closed, before and after.
//!
//! The definitions of `crates/aead_ciphers/specs/NonceSequence.antt` of the repository.
//!
//! <div id="Appends"></div>
//!
//! ```text
//! -- the sequence was open, and uses a nonce that it had not used before: 12 bytes, each below 256
//! pub record Appends (was now : List (List ℕ)) (was_closed : Bool) (nonce : List ℕ) : Type 0 where
//!   pub size : length nonce ≡ 12
//!   pub bytes : (k : ℕ) → slice_index nonce k < 256
//!   pub open_before : was_closed ≡ false
//!   pub fresh : ¬ Contains was nonce
//!   pub appended : now ≡ was ++ nonce ∷ []
//! ```
//!
//! <div id="Closes"></div>
//!
//! ```text
//! -- no nonce is used, and the sequence is closed
//! pub record Closes (was now : List (List ℕ)) (is_closed : Bool) : Type 0 where
//!   pub kept : now ≡ was
//!   pub closed : is_closed ≡ true
//! ```
//!
//! <div id="UnderNext"></div>
//!
//! ```text
//! -- P holds of the next nonce, if the sequence says which it is
//! abbrev pub UnderNext : (List ℕ → Type 0) → (List ℕ → Type 0) → Type 0
//! UnderNext is_next P = (nonce : List ℕ) → is_next nonce → P nonce
//! ```
