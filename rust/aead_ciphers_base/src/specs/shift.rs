// Written by tools/rust from crates/aead_ciphers_base/specs/Shift.antt. Don't edit.
//! Transforming the blocks of an overlapping buffer.
//!
//! The definitions of `crates/aead_ciphers_base/specs/Shift.antt` of the repository.
//!
//! <div id="Answers"></div>
//!
//! ```text
//! -- f was called with the first value of each pair in `calls`, in order, and returned the second; after that f is `last`
//! abbrev pub Answers : {C F : Type 0} → Mut F (Bor C × Unit {0}) C → F → List (C × C) → F → Type 0
//! Answers g f calls last = FoldsTo (λ p c q. CalledAt g p c.0 c.1 q) f calls last
//! ```
//!
//! <div id="TakesBlocks"></div>
//!
//! ```text
//! -- f may be called with each block of n items of xs, in order
//! abbrev pub TakesBlocks : {T C F : Type 0} → (C → List T) → Mut F (Bor C × Unit {0}) C → ℕ → F → List T → Type 0
//! TakesBlocks {T} {C} {F} items g n f xs = (calls : List (C × C)) (p : F) (c : C) (rest : List (List T))
//!     → Answers g f calls p → blocks n xs ≡ map (λ x. items x.0) calls ++ (items c ∷ rest) → TakesAt g p c
//! ```
//!
//! Definitions: [`Answers`](crate::specs::shift#Answers), [`blocks`](crate::specs::blocks#blocks).
//!
//! <div id="ShiftsBlocks"></div>
//!
//! ```text
//! -- f was called with each block of n items of `old` from `start` on, in order; `new` begins with what it returned, in the
//! -- same order, and is unchanged after that
//! pub record ShiftsBlocks {T C F : Type 0} (items : C → List T) (g : Mut F (Bor C × Unit {0}) C) (n : ℕ) (f : F)
//!     (old : List T) (start : ℕ) (new : List T) : Type 0 where
//!   pub calls : List (C × C)
//!   pub last : F
//!   pub ran : Answers g f calls last
//!   pub taken : map (λ x. items x.0) calls ≡ blocks n (drop start old)
//!   pub written : new ≡ joined (map (λ x. items x.1) calls) ++ drop (length old - start) old
//! ```
//!
//! Definitions: [`Answers`](crate::specs::shift#Answers), [`blocks`](crate::specs::blocks#blocks),
//! [`joined`](crate::specs::blocks#joined).
