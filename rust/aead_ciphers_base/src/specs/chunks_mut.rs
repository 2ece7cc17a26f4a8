// Written by tools/rust from crates/aead_ciphers_base/specs/ChunksMut.antt. Don't edit.
//! Dividing a mutable slice into parts. The final value of a mutable reference is what it points to when its borrow ends.
//!
//! The definitions of `crates/aead_ciphers_base/specs/ChunksMut.antt` of the repository.
//!
//! <div id="LendsInTwo"></div>
//!
//! ```text
//! -- the final value of s consists of the final values of the two parts, one after the other
//! abbrev pub LendsInTwo : (T : RattleType) → MutBor (List T.Denot) → MutBor (List T.Denot) × MutBor (List T.Denot) → Fml
//! LendsInTwo T s parts = LendsBoth (Array T 0) (Array T 0) (Array T 0) s parts ◌++◌
//! ```
//!
//! <div id="IsNextPart"></div>
//!
//! ```text
//! -- the items are the next part and then the rest. The next part has `size` items, or all items if they are fewer
//! pub record IsNextPart {T : Type 0} (size : ℕ) (items next rest : List T) : Type 0 where
//!   pub joined : items ≡ next ++ rest
//!   pub long : length next ≡ min size (length items)
//! ```
//!
//! <div id="parts_left"></div>
//!
//! ```text
//! -- the number of parts that an iterator has left
//! abbrev pub parts_left : {T : Type 0} → ChunksMut T → ℕ
//! parts_left chunks = chunk_count (length (chunks_mut_rest chunks)) (chunks_mut_size chunks)
//! ```
