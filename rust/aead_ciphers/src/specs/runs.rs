// Written by tools/rust from crates/aead_ciphers/specs/Runs.antt. Don't edit.
//! Runs, which take one step for each item of a list, in order.
//!
//! The definitions of `crates/aead_ciphers/specs/Runs.antt` of the repository.
//!
//! <div id="Runs"></div>
//!
//! ```text
//! -- Each old item became the new one by a step, in order, while the state that the steps share went from `first` to `last`.
//! -- `middle` is the state after the first step.
//! abbrev pub Runs : {K X Y : Type 0} → (K → K → X → Y → Type 0) → K → K → List X → List Y → Type 0
//! Runs Step first last [] [] = last ≡ first
//! Runs {K} Step first last (old ∷ olds) (new ∷ news) =
//!     (middle : K) × Step first middle old new × Runs Step middle last olds news
//! Runs Step first last olds news = ⊥
//! ```
//!
//! <div id="Performs"></div>
//!
//! ```text
//! -- the ghost members of the two nonce sequences: first those of the sealing key's, then those of the opening key's
//! module _ {S O : Type 0} (s_spent : S → List (List ℕ)) (s_closed : S → Bool) (s_origin : S → List ℕ)
//!     (o_spent : O → List (List ℕ)) (o_closed : O → Bool) (o_origin : O → List ℕ) where
//!   -- What a job does, by its operation, to the sealing key and the opening key (`was.0` and `was.1`), and its outcome. `Seal`
//!   -- appends the tag to the buffer of the job, for which a `Vec` may be refused memory only if it has no room for the tag.
//!   -- `Open` opens the buffer from `start` on. The other key is unchanged.
//!   abbrev pub Performs : Operation → (was now : BoundState S × BoundState O) (old new : Job) → Type 0
//!   Performs Seal was now old new = (now.1 ≡ was.1) × Keeps s_origin was.0 now.0 × ((accepts : Bool)
//!       × SealStep s_spent s_closed (vec_capacity old.buffer < vec_len old.buffer + tag_len) ⊤ was.0 now.0
//!       old.aad.items old.buffer.items new.buffer.items accepts
//!       × (new.outcome ≡ (if accepts then Sealed else Refused)))
//!   Performs (Open start) was now old new = (now.0 ≡ was.0) × Keeps o_origin was.1 now.1 × ((accepts : Bool)
//!       × OpenStep o_spent o_closed was.1 now.1 old.aad.items start old.buffer.items new.buffer.items accepts
//!       × (new.outcome ≡ (if accepts then Opened (length old.buffer.items - tag_len - start) else Refused)))
//! ```
//!
//! Definitions: [`BoundState`](crate::specs::bound_state#BoundState), [`Keeps`](crate::specs::bound_state#Keeps),
//! [`SealStep`](crate::specs::steps#SealStep), [`tag_len`](crate::specs::gcm#tag_len),
//! [`OpenStep`](crate::specs::steps#OpenStep).
//!
//! <div id="JobStep"></div>
//!
//! ```text
//! module _ {S O : Type 0} (s_spent : S → List (List ℕ)) (s_closed : S → Bool) (s_origin : S → List ℕ)
//!     (o_spent : O → List (List ℕ)) (o_closed : O → Bool) (o_origin : O → List ℕ) where
//!   -- one job; its operation and its AAD are unchanged
//!   pub record JobStep (was now : BoundState S × BoundState O) (old new : Job) : Type 0 where
//!     pub operation_kept : new.operation ≡ old.operation
//!     pub aad_kept : new.aad ≡ old.aad
//!     pub performs : Performs old.operation was now old new
//! ```
//!
//! Definitions: [`BoundState`](crate::specs::bound_state#BoundState), [`Performs`](crate::specs::runs#Performs).
