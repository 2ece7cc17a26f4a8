// Written by tools/rust from crates/key_derivation/specs/HmacState.antt. Don't edit.
//! What contracts say of a kept key of HMAC or of HKDF-Expand: the key's hashers have absorbed its two blocks.
//!
//! The definitions of `crates/key_derivation/specs/HmacState.antt` of the repository.
//!
//! <div id="IsKey"></div>
//!
//! ```text
//! -- `made` is the kept key: its two hashers have absorbed the two blocks of `key`; `holds` says which message a hasher has absorbed
//! pub record IsKey {S : Type 0} (h : HashFunction) (holds : S → List ℕ → Type 0) (key : List ℕ) (made : HmacKey S) : Type 0 where
//!   pub inner : holds made.inner (inner_block h key)
//!   pub outer : holds made.outer (outer_block h key)
//! ```
//!
//! Definitions: [`HashFunction`](crate::specs::hash#HashFunction), [`inner_block`](crate::specs::hmac#inner_block),
//! [`outer_block`](crate::specs::hmac#outer_block).
//!
//! <div id="IsExpander"></div>
//!
//! ```text
//! -- the expander's HMAC key was made of this pseudorandom key
//! abbrev pub IsExpander : {S : Type 0} → HashFunction → (S → List ℕ → Type 0) → (prk : List ℕ) → Expander S → Type 0
//! IsExpander h holds prk made = IsKey h holds prk made.key
//! ```
//!
//! Definitions: [`HashFunction`](crate::specs::hash#HashFunction), [`IsKey`](crate::specs::hmac_state#IsKey).
//!
//! <div id="joined_pieces"></div>
//!
//! ```text
//! -- the pieces, one after another
//! abbrev pub joined_pieces : List (Bor (List ℕ)) → List ℕ
//! joined_pieces pieces = concat (map (λ piece. piece.now) pieces)
//! ```
