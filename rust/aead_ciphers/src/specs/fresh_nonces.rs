// Written by tools/rust from crates/aead_ciphers/specs/FreshNonces.antt. Don't edit.
//! No nonce is used twice.
//!
//! The definitions of `crates/aead_ciphers/specs/FreshNonces.antt` of the repository.
//!
//! <div id="GrewFresh"></div>
//!
//! ```text
//! -- a list of nonces grew by nonces that differ from each other and from those before them
//! pub record GrewFresh (was now : List (List ℕ)) : Type 0 where
//!   pub kept : take (length was) now ≡ was
//!   pub fresh : (i j : ℕ) → i < j → length was ≤ j → j < length now → slice_get now i ≢ slice_get now j
//! ```
//!
//! <div id="SealCalls"></div>
//!
//! ```text
//! -- Sealing calls in order, whether or not there is room for the tag: the AAD and plaintext of each, then its buffer and
//! -- whether it succeeded.
//! abbrev pub SealCalls : {N : Type 0} → (N → List (List ℕ)) → (N → Bool)
//!     → (first last : BoundState N) → List (List ℕ × List ℕ) → List (List ℕ × Bool) → Type 0
//! SealCalls spent is_closed first last calls answers =
//!     Runs (λ was now call answer. SealStep spent is_closed ⊤ ⊤ was now call.0 call.1 answer.0 answer.1) first last calls answers
//! ```
//!
//! Definitions: [`BoundState`](crate::specs::bound_state#BoundState), [`Runs`](crate::specs::runs#Runs),
//! [`SealStep`](crate::specs::steps#SealStep).
