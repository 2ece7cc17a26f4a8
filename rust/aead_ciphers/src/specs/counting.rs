// Written by tools/rust from crates/aead_ciphers/specs/Counting.antt. Don't edit.
//! What a contract sees of a `CounterSequence` and of an `XoredSequence`.
//!
//! The definitions of `crates/aead_ciphers/specs/Counting.antt` of the repository.
//!
//! <div id="Counting"></div>
//!
//! ```text
//! -- the bytes that are in each nonce (the prefix or the IV), the first number, how many nonces there are in all, and how
//! -- many of them are used
//! pub record Counting : Type 0 where
//!   pub fixed : List ℕ
//!   pub first : ℕ
//!   pub count : ℕ
//!   pub used : ℕ
//! ```
//!
//! <div id="prefixed_nonce"></div>
//!
//! ```text
//! -- the nonce of a prefix and a number: the prefix, then the number in eight big-endian bytes (SP 800-38D section 8.2.1)
//! unfoldable pub prefixed_nonce : List ℕ → ℕ → List ℕ
//! prefixed_nonce prefix number = prefix ++ to_be_bytes w64 number
//! ```
//!
//! <div id="xored_nonce"></div>
//!
//! ```text
//! -- the nonce of an IV and a number: the number in eight big-endian bytes, padded with four zeros on the left, XOR the IV
//! -- (RFC 8446 section 5.3, RFC 9001 section 5.3)
//! unfoldable pub xored_nonce : List ℕ → ℕ → List ℕ
//! xored_nonce iv number = (0 ∷ 0 ∷ 0 ∷ 0 ∷ to_be_bytes w64 number) ⊕ iv
//! ```
//!
//! Definitions: [`⊕`](aead_ciphers_base::specs::bytes#⊕).
//!
//! <div id="spent_nonces"></div>
//!
//! ```text
//! -- the nonces that are used, in order from the first number on
//! unfoldable pub spent_nonces : (List ℕ → ℕ → List ℕ) → Counting → List (List ℕ)
//! spent_nonces nonce s = each_below s.used (λ k. nonce s.fixed (s.first + k))
//! ```
//!
//! Definitions: [`Counting`](crate::specs::counting#Counting),
//! [`each_below`](aead_ciphers_base::specs::bytes#each_below).
//!
//! <div id="next_nonce"></div>
//!
//! ```text
//! -- the nonce after those that are used
//! abbrev pub next_nonce : (List ℕ → ℕ → List ℕ) → Counting → List ℕ
//! next_nonce nonce s = nonce s.fixed (s.first + s.used)
//! ```
//!
//! Definitions: [`Counting`](crate::specs::counting#Counting).
//!
//! <div id="is_used_up"></div>
//!
//! ```text
//! -- whether all nonces are used
//! abbrev pub is_used_up : Counting → Bool
//! is_used_up s = nat_eq s.used s.count
//! ```
//!
//! Definitions: [`Counting`](crate::specs::counting#Counting).
//!
//! <div id="origin_of"></div>
//!
//! ```text
//! -- what no call changes: the fixed bytes, the first number and the count
//! abbrev pub origin_of : Counting → List ℕ
//! origin_of s = s.fixed ++ s.first ∷ s.count ∷ []
//! ```
//!
//! Definitions: [`Counting`](crate::specs::counting#Counting).
