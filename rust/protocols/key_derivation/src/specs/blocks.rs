// Written by tools/rust from crates/key_derivation/specs/Blocks.antt. Don't edit.
//! Bytes made block by block.
//!
//! The definitions of `crates/key_derivation/specs/Blocks.antt` of the repository.
//!
//! <div id="joined_blocks"></div>
//!
//! ```text
//! -- f 1 | f 2 | .. | f n
//! unfoldable pub joined_blocks : (ℕ → List ℕ) → ℕ → List ℕ
//! joined_blocks f zero = []
//! joined_blocks f (suc n) = joined_blocks f n ++ f (suc n)
//! ```
//!
//! <div id="first_bytes"></div>
//!
//! ```text
//! -- the first `len` bytes of f 1 | f 2 | .., where each block has `block_len` bytes
//! unfoldable pub first_bytes : (ℕ → List ℕ) → (block_len len : ℕ) → List ℕ
//! first_bytes f block_len len = take len (joined_blocks f ((len + block_len - 1) / block_len))
//! ```
//!
//! Definitions: [`joined_blocks`](crate::specs::blocks#joined_blocks).
