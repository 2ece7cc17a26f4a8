// Written by tools/rust from crates/aead_ciphers_base/specs/AsChunksMut.antt. Don't edit.
//! Lending the items of a mutable view. The final value of a mutable reference is what it points to when its borrow ends.
//!
//! The definitions of `crates/aead_ciphers_base/specs/AsChunksMut.antt` of the repository.
//!
//! <div id="with_items"></div>
//!
//! ```text
//! -- v with the items ws. If ws has another length, it is cut or filled up from the items of v, so that v keeps its length
//! abbrev pub with_items : {T : Type 0} {N : ℕ} → AsChunksMut T N → List T → AsChunksMut T N
//! with_items {T} {N} v ws = record {
//!   items = record v.items { now = take (length v.items.now) (ws ++ drop (length ws) v.items.now) };
//!   whole = ap (λ (k : ℕ). k % N) (sym (length_refill (length v.items.now) v.items.now ws refl)) ∙ v.whole;
//! }
//! ```
//!
//! <div id="LendsItems"></div>
//!
//! ```text
//! -- the final value of v has the final value of r as its items
//! abbrev pub LendsItems : (T N : RattleType) → MutBor (AsChunksMut T.Denot (value_of N)) → MutBor (List T.Denot) → Fml
//! LendsItems T N v r = Lends (the_row (record { mir = named 1; lft = [] }) T N) (Array T 0) v r (with_items v.now)
//! ```
//!
//! Definitions: [`with_items`](crate::specs::as_chunks_mut#with_items).
//!
//! <div id="LendsParts"></div>
//!
//! ```text
//! -- the final value of v has the final values of r and q, one after the other, as its items
//! abbrev pub LendsParts : (T N : RattleType) → MutBor (AsChunksMut T.Denot (value_of N)) → MutBor (List T.Denot) → MutBor (List T.Denot) → Fml
//! LendsParts T N v r q = LendsBoth (the_row (record { mir = named 1; lft = [] }) T N) (Array T 0) (Array T 0) v (r, q)
//!     (λ front back. with_items v.now (front ++ back))
//! ```
//!
//! Definitions: [`with_items`](crate::specs::as_chunks_mut#with_items).
//!
//! <div id="KeepsCount"></div>
//!
//! ```text
//! -- the final value of v has as many items as v has now: those that some loan of them leaves
//! abbrev pub KeepsCount : (T N : RattleType) → MutBor (AsChunksMut T.Denot (value_of N)) → Fml
//! KeepsCount T N v = fex GName (λ loan. follows (the_row (record { mir = named 1; lft = [] }) T N) (Array T 0) v.ghost_name loan (with_items v.now))
//! ```
//!
//! Definitions: [`with_items`](crate::specs::as_chunks_mut#with_items).
