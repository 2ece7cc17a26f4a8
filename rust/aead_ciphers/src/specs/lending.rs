// Written by tools/rust from crates/aead_ciphers/specs/Lending.antt. Don't edit.
//! What a call that opens a buffer lends: the plaintext, at the front of the buffer.
//!
//! The definitions of `crates/aead_ciphers/specs/Lending.antt` of the repository.
//!
//! <div id="count_of"></div>
//!
//! ```text
//! -- the number in a result, or 0 if the result is an error
//! abbrev pub count_of : {E : Type 0} → Result ℕ E → ℕ
//! count_of (Ok n) = n
//! count_of (Err e) = 0
//! ```
//!
//! <div id="LendsFront"></div>
//!
//! ```text
//! -- When the loan ends, the buffer s holds what the lent bytes, those of the result r, are then, and after them its own bytes
//! -- from n on. After an error it is unchanged.
//! abbrev pub LendsFront : {E : Type 0} → MutBor (List ℕ) → Result (MutBor (List ℕ)) E → ℕ → Fml
//! LendsFront s r n = LendsIfOk (Array u8 0) (Array u8 0) s r (λ w. w ++ drop n s.now) s.now
//! ```
//!
//! <div id="lent_buffer"></div>
//!
//! ```text
//! -- the buffer at the return: the lent bytes, then the bytes after them; after an error, the old buffer
//! abbrev pub lent_buffer : {E : Type 0} → Result (MutBor (List ℕ)) E → List ℕ → List ℕ
//! lent_buffer (Ok front) old = front.now ++ drop (length front.now) old
//! lent_buffer (Err e) old = old
//! ```
//!
//! <div id="Stands"></div>
//!
//! ```text
//! -- The result is the length of a plaintext at the front, and the bytes after it are unchanged. After an error all are.
//! abbrev pub Stands : {E : Type 0} → ℕ → List ℕ → List ℕ → Result ℕ E → Type 0
//! Stands m old new (Ok n) = (n ≡ m) × (n ≤ length new) × (drop n new ≡ drop m old)
//! Stands m old new (Err e) = new ≡ old
//! ```
