// Written by tools/rust from crates/aead_ciphers_base/specs/Overlapping.antt. Don't edit.
//! Overlapping buffers: lending the front of a slice, and mapping its chunks. The final value of a mutable reference is
//! what it points to when its borrow ends.
//!
//! The definitions of `crates/aead_ciphers_base/specs/Overlapping.antt` of the repository.
//!
//! <div id="input_of"></div>
//!
//! ```text
//! -- the input: the items from the start on
//! abbrev pub input_of : {T : Type 0} → Overlapping T → List T
//! input_of o = drop o.start o.in_out.now
//! ```
//!
//! <div id="input_len"></div>
//!
//! ```text
//! -- the number of items in the input
//! abbrev pub input_len : {T : Type 0} → Overlapping T → ℕ
//! input_len o = length o.in_out.now - o.start
//! ```
//!
//! <div id="after_output"></div>
//!
//! ```text
//! -- the items after the output, which is as long as the input
//! abbrev pub after_output : {T : Type 0} → Overlapping T → List T
//! after_output o = drop (input_len o) o.in_out.now
//! ```
//!
//! Definitions: [`input_len`](crate::specs::overlapping#input_len).
//!
//! <div id="LendsOutput"></div>
//!
//! ```text
//! -- the final value of s is that of r, and then the items of s from n on
//! abbrev pub LendsOutput : (T : RattleType) → MutBor (List T.Denot) → MutBor (List T.Denot) → ℕ → Fml
//! LendsOutput T s r n = follows (Array T 0) (Array T 0) s.ghost_name r.ghost_name (λ w. w ++ drop n s.now)
//! ```
//!
//! <div id="EndsAs"></div>
//!
//! ```text
//! -- the final value of s is xs
//! abbrev pub EndsAs : (T : RattleType) → MutBor (List T.Denot) → List T.Denot → Fml
//! EndsAs T s xs = fres s.ghost_name ((Array T 0).coded.code xs)
//! ```
//!
//! <div id="LendsBehind"></div>
//!
//! ```text
//! -- the final value of s is `front`, and then the final value of r
//! abbrev pub LendsBehind : (T : RattleType) → MutBor (List T.Denot) → List T.Denot → MutBor (List T.Denot) → Fml
//! LendsBehind T s front r = follows (Array T 0) (Array T 0) s.ghost_name r.ghost_name (λ w. front ++ w)
//! ```
//!
//! <div id="KeptIfErr"></div>
//!
//! ```text
//! -- an Ok result holds s itself, under the ghost name `name` of its value; after an error, s is unchanged
//! abbrev pub KeptIfErr : (T : RattleType) {A E : Type 0} → MutBor (List T.Denot) → (A → GName) → Result A E → Fml
//! KeptIfErr T s name r = RestsIfErr (Array T 0) s name r (λ xs. xs ≡ s.now)
//! ```
//!
//! <div id="TakesChunk"></div>
//!
//! ```text
//! -- f may be called with the first n items of xs
//! abbrev pub TakesChunk : {T C F : Type 0} → (C → List T) → Once F (Bor C × Unit {0}) C → ℕ → F → List T → Type 0
//! TakesChunk {C = C} items g n f xs = (c : C) → items c ≡ take n xs → FnOnceTakesAt g f c
//! ```
//!
//! <div id="AnswersChunk"></div>
//!
//! ```text
//! -- f, called with the first n items of xs, returned `answer`
//! pub record AnswersChunk {T C F : Type 0} (items : C → List T) (g : Once F (Bor C × Unit {0}) C) (n : ℕ) (f : F) (xs : List T) : Type 0 where
//!   pub chunk : C
//!   pub answer : C
//!   pub taken : items chunk ≡ take n xs
//!   pub called : FnOnceReturnsAt g f chunk answer
//! ```
//!
//! <div id="MapsChunk"></div>
//!
//! ```text
//! -- f was called with the n items of `old` from `start` on; `new` is what it returned, and then the items of `old` from n on
//! pub record MapsChunk {T C F : Type 0} (items : C → List T) (g : Once F (Bor C × Unit {0}) C) (n : ℕ) (f : F)
//!     (old : List T) (start : ℕ) (new : List T) : Type 0 where
//!   pub answers : AnswersChunk items g n f (drop start old)
//!   pub written : new ≡ items answers.answer ++ drop n old
//! ```
//!
//! Definitions: [`AnswersChunk`](crate::specs::overlapping#AnswersChunk).
//!
//! <div id="LendsRest"></div>
//!
//! ```text
//! -- the final value of the slice of b is what f returned for the first n items of the input, and then the final value of
//! -- the rest; after an error, the slice is unchanged
//! abbrev pub LendsRest : (T : RattleType) {C F E : Type 0} → (C → List T.Denot) → Once F (Bor C × Unit {0}) C → ℕ → F
//!     → Overlapping T.Denot → Result (Overlapping T.Denot) E → Fml
//! LendsRest T items g n f b (Ok rest) =
//!     fex (AnswersChunk items g n f (drop b.start b.in_out.now)) (λ a. LendsBehind T b.in_out (items a.answer) rest.in_out)
//! LendsRest T items g n f b (Err e) = EndsAs T b.in_out b.in_out.now
//! ```
//!
//! Definitions: [`AnswersChunk`](crate::specs::overlapping#AnswersChunk),
//! [`LendsBehind`](crate::specs::overlapping#LendsBehind), [`EndsAs`](crate::specs::overlapping#EndsAs).
