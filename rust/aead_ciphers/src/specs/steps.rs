// Written by tools/rust from crates/aead_ciphers/specs/Steps.antt. Don't edit.
//! What one call of a bound key does, by cases: the key, its sequence and the buffer, before and after. What is before the
//! last arrow of a case is what holds in that case.
//!
//! The definitions of `crates/aead_ciphers/specs/Steps.antt` of the repository.
//!
//! <div id="Spends"></div>
//!
//! ```text
//! module _ {N : Type 0} (spent : N → List (List ℕ)) (is_closed : N → Bool) where
//!   -- the sequence uses this nonce
//!   abbrev pub Spends : BoundState N → BoundState N → List ℕ → Type 0
//!   Spends was now nonce = Appends (spent was.sequence) (spent now.sequence) (is_closed was.sequence) nonce
//! ```
//!
//! Definitions: [`BoundState`](crate::specs::bound_state#BoundState),
//! [`Appends`](crate::specs::nonce_sequence#Appends).
//!
//! <div id="Refuses"></div>
//!
//! ```text
//! module _ {N : Type 0} (spent : N → List (List ℕ)) (is_closed : N → Bool) where
//!   -- the sequence returns no nonce
//!   abbrev pub Refuses : BoundState N → BoundState N → Type 0
//!   Refuses was now = Closes (spent was.sequence) (spent now.sequence) (is_closed now.sequence)
//! ```
//!
//! Definitions: [`BoundState`](crate::specs::bound_state#BoundState),
//! [`Closes`](crate::specs::nonce_sequence#Closes).
//!
//! <div id="SealStep"></div>
//!
//! ```text
//! module _ {N : Type 0} (spent : N → List (List ℕ)) (is_closed : N → Bool) where
//!   -- Sealing with the tag appended, and whether it succeeds. Room for the tag is reserved first: `may_refuse` holds if there
//!   -- is none, and `may_grant` if there is.
//!   pub data SealStep (may_refuse may_grant : Type 0) (was now : BoundState N) (aad old new : List ℕ) : Bool → Type 0 where
//!     no_room : may_refuse → now ≡ was → new ≡ old → SealStep may_refuse may_grant was now aad old new false
//!     no_nonce : may_grant → Refuses was now → new ≡ old → SealStep may_refuse may_grant was now aad old new false
//!     too_long : may_grant → (nonce : List ℕ) → Spends was now nonce → ¬ Fits (length aad) (length old) → new ≡ old
//!         → SealStep may_refuse may_grant was now aad old new false
//!     sealed : may_grant → (nonce : List ℕ) → Spends was now nonce → Fits (length aad) (length old)
//!         → new ≡ gcm_sealed (aes was.key.bytes) nonce aad old → SealStep may_refuse may_grant was now aad old new true
//! ```
//!
//! Definitions: [`BoundState`](crate::specs::bound_state#BoundState), [`Refuses`](crate::specs::steps#Refuses),
//! [`Spends`](crate::specs::steps#Spends), [`Fits`](crate::specs::gcm#Fits),
//! [`gcm_sealed`](crate::specs::gcm#gcm_sealed), [`aes`](aead_ciphers_base::specs::aes#aes).
//!
//! <div id="OpenStep"></div>
//!
//! ```text
//! module _ {N : Type 0} (spent : N → List (List ℕ)) (is_closed : N → Bool) where
//!   -- Opening with the tag attached, and whether it succeeds. A nonce is spent even if the tag is false.
//!   pub data OpenStep (was now : BoundState N) (aad : List ℕ) (start : ℕ) (old new : List ℕ) : Bool → Type 0 where
//!     no_nonce : Refuses was now → new ≡ old → OpenStep was now aad start old new false
//!     opened : (nonce : List ℕ) (accepts : Bool) → Spends was now nonce
//!         → OpenedAttached (aes was.key.bytes) nonce aad start old accepts new → OpenStep was now aad start old new accepts
//! ```
//!
//! Definitions: [`BoundState`](crate::specs::bound_state#BoundState), [`Refuses`](crate::specs::steps#Refuses),
//! [`Spends`](crate::specs::steps#Spends), [`OpenedAttached`](crate::specs::gcm#OpenedAttached),
//! [`aes`](aead_ciphers_base::specs::aes#aes).
//!
//! <div id="with_tag"></div>
//!
//! ```text
//! -- the bytes, followed by the tag if there is one
//! abbrev pub with_tag : {E : Type 0} → List ℕ → Result (List ℕ) E → List ℕ
//! with_tag bytes (Ok tag) = bytes ++ tag
//! with_tag bytes (Err e) = bytes
//! ```
