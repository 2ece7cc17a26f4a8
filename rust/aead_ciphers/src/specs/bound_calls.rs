// Written by tools/rust from crates/aead_ciphers/specs/BoundCalls.antt. Don't edit.
//! What one call of a bound key does to the key, its sequence and the buffer, and what the sequence says of its nonce.
//!
//! The definitions of `crates/aead_ciphers/specs/BoundCalls.antt` of the repository.
//!
//! <div id="SealingCall"></div>
//!
//! ```text
//! module _ {N : Type 0} (spent : N → List (List ℕ)) (is_closed : N → Bool) (origin : N → List ℕ) (Gives Refuses : N → N → Type 0) where
//!   -- Sealing with the tag appended: it fails only for lengths, for want of room or where the sequence refuses. `Gives` and
//!   -- `Refuses` are the ghost items `gives` and `refuses` of the sequence, and not the `Refuses` of Steps.antt.
//!   -- kept: the key and the origin of the sequence are unchanged
//!   -- step: one of the cases of `SealStep`
//!   -- granted: if it succeeds, `may_grant` holds
//!   -- fits: if it succeeds, the lengths are within the limits
//!   -- gives: if it succeeds, the sequence has returned a nonce
//!   -- refuses: if it fails although the lengths are within the limits and `may_refuse` doesn't hold, the sequence has returned none
//!   -- after_error: if it fails, the key and its sequence are unchanged for want of room, or the sequence has returned no nonce, or
//!   --   it has returned one
//!   pub record SealingCall (may_refuse may_grant : Type 0) (was now : BoundState N) (aad old new : List ℕ)
//!       {X E : Type 0} (result : Result X E) : Type 0 where
//!     pub kept : Keeps origin was now
//!     pub step : SealStep spent is_closed may_refuse may_grant was now aad old new (is_ok result)
//!     pub granted : IsOk result → may_grant
//!     pub fits : IsOk result → Fits (length aad) (length old)
//!     pub gives : OnOk result (Gives was.sequence now.sequence)
//!     pub refuses : Fits (length aad) (length old) → ¬ may_refuse → OnErr result (Refuses was.sequence now.sequence)
//!     pub after_error : OnErr result ((may_refuse × (now ≡ was)) ⊎ Refuses was.sequence now.sequence ⊎ Gives was.sequence now.sequence)
//! ```
//!
//! Definitions: [`BoundState`](crate::specs::bound_state#BoundState), [`Keeps`](crate::specs::bound_state#Keeps),
//! [`SealStep`](crate::specs::steps#SealStep), [`Fits`](crate::specs::gcm#Fits).
//!
//! <div id="OpeningCall"></div>
//!
//! ```text
//! module _ {N : Type 0} (spent : N → List (List ℕ)) (is_closed : N → Bool) (origin : N → List ℕ) (Gives Refuses : N → N → Type 0) where
//!   -- Opening with the tag attached: unless the sequence refuses, under its next nonce.
//!   -- kept: the key and the origin of the sequence are unchanged
//!   -- step: one of the cases of `OpenStep`
//!   -- opened: unless the sequence has refused, the buffer is opened under the nonce that is next by `is_next`
//!   -- plaintext: if it succeeds, the buffer begins with the plaintext under that nonce
//!   -- refused: if it fails, the buffer is unchanged
//!   -- gives: if it succeeds, the sequence has returned a nonce
//!   -- after_error: if it fails, the sequence has returned no nonce, or it has returned one
//!   pub record OpeningCall (is_next : N → List ℕ → Type 0) (was now : BoundState N) (aad : List ℕ) (start : ℕ) (old new : List ℕ)
//!       {X E : Type 0} (result : Result X E) : Type 0 where
//!     pub kept : Keeps origin was now
//!     pub step : OpenStep spent is_closed was now aad start old new (is_ok result)
//!     pub opened : ¬ Refuses was.sequence now.sequence → UnderNext (is_next was.sequence) (λ nonce.
//!         OpenedAttached (aes was.key.bytes) nonce aad start old (is_ok result) new)
//!     pub plaintext : OnOk result (UnderNext (is_next was.sequence) (λ nonce. take (length old - tag_len - start) new
//!         ≡ gcm_decrypted (aes was.key.bytes) nonce (drop start (take (length old - tag_len) old))))
//!     pub refused : OnErr result (new ≡ old)
//!     pub gives : OnOk result (Gives was.sequence now.sequence)
//!     pub after_error : OnErr result (Refuses was.sequence now.sequence ⊎ Gives was.sequence now.sequence)
//! ```
//!
//! Definitions: [`BoundState`](crate::specs::bound_state#BoundState), [`Keeps`](crate::specs::bound_state#Keeps),
//! [`OpenStep`](crate::specs::steps#OpenStep), [`UnderNext`](crate::specs::nonce_sequence#UnderNext),
//! [`OpenedAttached`](crate::specs::gcm#OpenedAttached), [`aes`](aead_ciphers_base::specs::aes#aes),
//! [`tag_len`](crate::specs::gcm#tag_len), [`gcm_decrypted`](crate::specs::gcm#gcm_decrypted).
