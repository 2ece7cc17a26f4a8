// Written by tools/rust from crates/aead_ciphers_base/specs/Blocks.antt. Don't edit.
//! Lists as whole blocks.
//!
//! The definitions of `crates/aead_ciphers_base/specs/Blocks.antt` of the repository.
//!
//! <div id="blocks"></div>
//!
//! ```text
//! -- the whole blocks of n items in xs, in order; none if n is zero
//! unfoldable pub blocks : {T : Type 0} → ℕ → List T → List (List T)
//! blocks n xs = first_chunks n (length xs / n) xs
//! ```
//!
//! <div id="joined"></div>
//!
//! ```text
//! -- the blocks, joined in order
//! abbrev pub joined : {T : Type 0} → List (List T) → List T
//! joined [] = []
//! joined (x ∷ xs) = x ++ joined xs
//! ```
