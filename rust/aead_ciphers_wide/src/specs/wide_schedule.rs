// Written by tools/rust from crates/aead_ciphers_wide/specs/WideSchedule.antt. Don't edit.
//! Round keys as blocks, and as the planes that a pass over eight blocks adds (FIPS 197 section 5.2).
//!
//! The definitions of `crates/aead_ciphers_wide/specs/WideSchedule.antt` of the repository.
//!
//! <div id="key_at"></div>
//!
//! ```text
//! -- round key j of a list of them
//! abbrev pub key_at : List (List ℕ) → ℕ → List ℕ
//! key_at round_keys j = slice_index_or round_keys j []
//! ```
//!
//! <div id="column"></div>
//!
//! ```text
//! -- column c of a block, as a word (section 3.5)
//! abbrev pub column : List ℕ → ℕ → List ℕ
//! column block c = each_below 4 (λ r. at block r c)
//! ```
//!
//! Definitions: [`each_below`](aead_ciphers_base::specs::bytes#each_below),
//! [`at`](aead_ciphers_base::specs::aes#at).
//!
//! <div id="HoldsWords"></div>
//!
//! ```text
//! -- the columns of the first n round keys are the words, in order (section 5.1.4)
//! abbrev pub HoldsWords : List (List ℕ) → List (List ℕ) → ℕ → Type 0
//! HoldsWords round_keys words n = (j c : ℕ) → j < n → c < 4 → column (key_at round_keys j) c ≡ word_at words (4 * j + c)
//! ```
//!
//! Definitions: [`column`](crate::specs::wide_schedule#column), [`key_at`](crate::specs::wide_schedule#key_at),
//! [`word_at`](aead_ciphers_base::specs::aes#word_at).
//!
//! <div id="key_of"></div>
//!
//! ```text
//! -- the key of 4 (rounds - 6) bytes that the round keys begin with
//! unfoldable pub key_of : List (List ℕ) → ℕ → List ℕ
//! key_of round_keys rounds = each_below (4 * (rounds - 6)) (λ j. slice_index (key_at round_keys (j / 16)) (j % 16))
//! ```
//!
//! Definitions: [`each_below`](aead_ciphers_base::specs::bytes#each_below),
//! [`key_at`](crate::specs::wide_schedule#key_at).
//!
//! <div id="schedule_words"></div>
//!
//! ```text
//! -- the words of the key schedule of that key
//! abbrev pub schedule_words : List (List ℕ) → ℕ → List (List ℕ)
//! schedule_words round_keys rounds = key_words (rounds - 6) (key_of round_keys rounds) (4 * (rounds + 1) - (rounds - 6))
//! ```
//!
//! Definitions: [`key_words`](aead_ciphers_base::specs::aes#key_words),
//! [`key_of`](crate::specs::wide_schedule#key_of).
//!
//! <div id="IsSchedule"></div>
//!
//! ```text
//! -- the round keys are the expansion of the key that they begin with
//! pub record IsSchedule (round_keys : List (List ℕ)) (rounds : ℕ) : Type 0 where
//!   pub enough : 10 ≤ rounds
//!   pub in_range : rounds ≤ 14
//!   pub expanded : HoldsWords round_keys (schedule_words round_keys rounds) (rounds + 1)
//! ```
//!
//! Definitions: [`HoldsWords`](crate::specs::wide_schedule#HoldsWords),
//! [`schedule_words`](crate::specs::wide_schedule#schedule_words).
//!
//! <div id="AreZerosAfter"></div>
//!
//! ```text
//! -- the places after the last round key of so many rounds, of 15 for round keys or for their planes, are zeros
//! abbrev pub AreZerosAfter : List (List ℕ) → ℕ → Type 0
//! AreZerosAfter rows rounds = (j : ℕ) → rounds < j → j < 15 → slice_index_or rows j [] ≡ replicate 16 0
//! ```
//!
//! <div id="plane_of"></div>
//!
//! ```text
//! -- plane b of a round key: the number of 128 bits in two of its words, the lower word first
//! abbrev pub plane_of : List ℕ → ℕ → ℕ
//! plane_of planes b = slice_index planes (2 * b + 1) * 2 ^ 64 + slice_index planes (2 * b)
//! ```
//!
//! <div id="planes_of"></div>
//!
//! ```text
//! -- the eight planes of a round key
//! abbrev pub planes_of : List ℕ → List ℕ
//! planes_of planes = each_below 8 (plane_of planes)
//! ```
//!
//! Definitions: [`each_below`](aead_ciphers_base::specs::bytes#each_below),
//! [`plane_of`](crate::specs::wide_schedule#plane_of).
//!
//! <div id="HoldsPlanes"></div>
//!
//! ```text
//! -- the planes of the first n round keys hold each of them eight times, once for each block
//! abbrev pub HoldsPlanes : List (List ℕ) → List (List ℕ) → ℕ → Type 0
//! HoldsPlanes planes round_keys n = (j p : ℕ) → j < n → p < 128
//!     → plane_byte (planes_of (slice_index_or planes j [])) p ≡ slice_index (key_at round_keys j) (p / 8)
//! ```
//!
//! Definitions: [`plane_byte`](aead_ciphers_base::specs::planes#plane_byte),
//! [`planes_of`](crate::specs::wide_schedule#planes_of), [`key_at`](crate::specs::wide_schedule#key_at).
