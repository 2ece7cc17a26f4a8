// Written by tools/rust from crates/key_derivation/specs/Pbkdf2.antt. Don't edit.
//! PBKDF2 with HMAC (RFC 8018 section 5.2).
//!
//! The definitions of `crates/key_derivation/specs/Pbkdf2.antt` of the repository.
//!
//! <div id="⊕"></div>
//!
//! ```text
//! infixl 60 ◌⊕◌
//! -- the XOR of two lists, byte by byte
//! abbrev pub ◌⊕◌ : List ℕ → List ℕ → List ℕ
//! [] ⊕ ys = []
//! (x ∷ xs) ⊕ [] = []
//! (x ∷ xs) ⊕ (y ∷ ys) = bit_xor x y ∷ (xs ⊕ ys)
//! ```
//!
//! <div id="pbkdf2_u"></div>
//!
//! ```text
//! -- U n of the block with this index, where U 0 is S || INT (i): U 1 = PRF (P, S || INT (i)), U 2 = PRF (P, U 1)
//! unfoldable pub pbkdf2_u : HashFunction → (password salt : List ℕ) → (index : ℕ) → ℕ → List ℕ
//! pbkdf2_u h password salt index zero = salt ++ to_be_bytes w32 index
//! pbkdf2_u h password salt index (suc n) = hmac h password (pbkdf2_u h password salt index n)
//! ```
//!
//! Definitions: [`HashFunction`](crate::specs::hash#HashFunction), [`hmac`](crate::specs::hmac#hmac).
//!
//! <div id="pbkdf2_sum"></div>
//!
//! ```text
//! -- U 1 ⊕ .. ⊕ U n
//! unfoldable pub pbkdf2_sum : HashFunction → (password salt : List ℕ) → (index : ℕ) → ℕ → List ℕ
//! pbkdf2_sum h password salt index zero = replicate h.output_len 0
//! pbkdf2_sum h password salt index (suc n) = pbkdf2_sum h password salt index n ⊕ pbkdf2_u h password salt index (suc n)
//! ```
//!
//! Definitions: [`HashFunction`](crate::specs::hash#HashFunction), [`⊕`](crate::specs::pbkdf2#⊕),
//! [`pbkdf2_u`](crate::specs::pbkdf2#pbkdf2_u).
//!
//! <div id="pbkdf2"></div>
//!
//! ```text
//! -- T_1 | T_2 | .., where T_i = F (P, S, c, i), cut to `len` bytes
//! abbrev pub pbkdf2 : HashFunction → (password salt : List ℕ) → (count len : ℕ) → List ℕ
//! pbkdf2 h password salt count len = first_bytes (λ index. pbkdf2_sum h password salt index count) h.output_len len
//! ```
//!
//! Definitions: [`HashFunction`](crate::specs::hash#HashFunction),
//! [`first_bytes`](crate::specs::blocks#first_bytes), [`pbkdf2_sum`](crate::specs::pbkdf2#pbkdf2_sum).
