// Written by tools/rust from crates/aead_ciphers_base/specs/KeySchedule.antt. Don't edit.
//! Round keys as planes (FIPS 197 section 5.2).
//!
//! The definitions of `crates/aead_ciphers_base/specs/KeySchedule.antt` of the repository.
//!
//! <div id="HoldsWords"></div>
//!
//! ```text
//! -- the first n round keys hold the words, four words each, in each of the four blocks
//! abbrev pub HoldsWords : List (List ℕ) → List (List ℕ) → ℕ → Type 0
//! HoldsWords round_keys words n = (j p : ℕ) → j < n → p < 64
//!     → plane_byte (slice_index_or round_keys j []) p ≡ slice_index (word_at words (4 * j + p % 16 / 4)) (p % 4)
//! ```
//!
//! Definitions: [`plane_byte`](crate::specs::planes#plane_byte), [`word_at`](crate::specs::aes#word_at).
//!
//! <div id="key_of"></div>
//!
//! ```text
//! -- the key of 4 (rounds - 6) bytes that the round keys begin with
//! unfoldable pub key_of : List (List ℕ) → ℕ → List ℕ
//! key_of round_keys rounds =
//!     each_below (4 * (rounds - 6)) (λ j. plane_byte (slice_index_or round_keys (j / 16) []) (j % 16))
//! ```
//!
//! Definitions: [`each_below`](crate::specs::bytes#each_below), [`plane_byte`](crate::specs::planes#plane_byte).
//!
//! <div id="IsSchedule"></div>
//!
//! ```text
//! -- the round keys are the expansion of the key that they begin with
//! pub record IsSchedule (round_keys : List (List ℕ)) (rounds : ℕ) : Type 0 where
//!   pub enough : 10 ≤ rounds
//!   pub in_range : rounds ≤ 14
//!   pub expanded : let nk = rounds - 6 in
//!       HoldsWords round_keys (key_words nk (key_of round_keys rounds) (4 * (rounds + 1) - nk)) (rounds + 1)
//! ```
//!
//! Definitions: [`HoldsWords`](crate::specs::key_schedule#HoldsWords), [`key_words`](crate::specs::aes#key_words),
//! [`key_of`](crate::specs::key_schedule#key_of).
