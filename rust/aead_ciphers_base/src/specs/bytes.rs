// Written by tools/rust from crates/aead_ciphers_base/specs/Bytes.antt. Don't edit.
//! Lists of bytes.
//!
//! The definitions of `crates/aead_ciphers_base/specs/Bytes.antt` of the repository.
//!
//! <div id="each_below"></div>
//!
//! ```text
//! -- the list f 0, f 1, .., f (n - 1)
//! abbrev pub each_below : {X : Type 0} → ℕ → (ℕ → X) → List X
//! each_below n f = map f (range_with_len 0 n)
//! ```
//!
//! <div id="⊕"></div>
//!
//! ```text
//! infixl 60 ◌⊕◌
//! -- the XOR of two lists, byte by byte, as long as the shorter list (SP 800-38D section 4.2.2)
//! abbrev pub ◌⊕◌ : List ℕ → List ℕ → List ℕ
//! xs ⊕ ys = zip2 bit_xor xs ys
//! ```
//!
//! <div id="xored"></div>
//!
//! ```text
//! -- the text XORed with as many bytes of a keystream (SP 800-38D section 6.5, RFC 8439 section 2.4)
//! unfoldable pub xored : (ℕ → ℕ) → List ℕ → List ℕ
//! xored stream text = text ⊕ each_below (length text) stream
//! ```
//!
//! Definitions: [`⊕`](crate::specs::bytes#⊕), [`each_below`](crate::specs::bytes#each_below).
//!
//! <div id="zero_block"></div>
//!
//! ```text
//! -- the block of 128 zero bits (SP 800-38D section 4.2.2)
//! abbrev pub zero_block : List ℕ
//! zero_block = replicate 16 0
//! ```
