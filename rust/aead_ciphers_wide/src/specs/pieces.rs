// Written by tools/rust from crates/aead_ciphers_wide/specs/Pieces.antt. Don't edit.
//! A message that is sealed in pieces (SP 800-38D section 7.1).
//!
//! The definitions of `crates/aead_ciphers_wide/specs/Pieces.antt` of the repository.
//!
//! <div id="keystream"></div>
//!
//! ```text
//! -- the keystream of the batch after n bytes of plaintext, which are whole blocks (section 6.5)
//! abbrev pub keystream : (List ℕ → List ℕ) → List ℕ → ℕ → List ℕ
//! keystream cipher nonce n = counter_mode cipher nonce (2 + n / 16) (replicate BATCH_LEN 0)
//! ```
//!
//! Definitions: [`counter_mode`](aead_ciphers_base::specs::counter_mode#counter_mode).
//!
//! <div id="HasSealed"></div>
//!
//! ```text
//! -- The state after pieces were sealed with `aad`: `message` is all of them in a row, and `ciphertext` what they became in a
//! -- row. That is whole batches, which are hashed, and then less than a batch, which is kept before the rest of its keystream.
//! pub record HasSealed (cipher : List ℕ → List ℕ) (nonce aad message ciphertext : List ℕ) (s : SealState) : Type 0 where
//!   pub encrypted : ciphertext ≡ gcm_encrypted cipher nonce message
//!   pub begun : 0 < s.begun
//!   pub fits : Fits s.aad_len s.len
//!   pub nonce_is : s.nonce ≡ nonce
//!   pub aad_len : s.aad_len ≡ length aad
//!   pub len : s.len ≡ length message
//!   pub whole : List ℕ
//!   pub rest : List ℕ
//!   pub parts : ciphertext ≡ whole ++ rest
//!   pub aligned : length whole % BATCH_LEN ≡ 0
//!   pub short : length rest < BATCH_LEN
//!   pub hashed : IsHashOf (cipher zero_block) (padded_blocks aad ++ padded_blocks whole) s.xi
//!   pub kept : 0 < length rest → s.batch ≡ rest ++ drop (length rest) (keystream cipher nonce (length whole))
//! ```
//!
//! Definitions: [`gcm_encrypted`](aead_ciphers::specs::gcm#gcm_encrypted), [`Fits`](aead_ciphers::specs::gcm#Fits),
//! [`IsHashOf`](aead_ciphers::specs::hash_of#IsHashOf), [`zero_block`](aead_ciphers_base::specs::bytes#zero_block),
//! [`padded_blocks`](aead_ciphers::specs::gcm#padded_blocks), [`keystream`](crate::specs::pieces#keystream).
//!
//! <div id="SealsPiece"></div>
//!
//! ```text
//! -- One more piece was sealed, whose ciphertext is `out`. The nonce and the length of the AAD stay.
//! pub record SealsPiece (cipher : List ℕ → List ℕ) (was : SealState) (piece out : List ℕ) (now : SealState) : Type 0 where
//!   pub kept : now ≡ record was { xi = now.xi; batch = now.batch; len = was.len + length piece }
//!   pub sealed : (nonce aad message ciphertext : List ℕ) → HasSealed cipher nonce aad message ciphertext was
//!       → HasSealed cipher nonce aad (message ++ piece) (ciphertext ++ out) now
//! ```
//!
//! Definitions: [`HasSealed`](crate::specs::pieces#HasSealed).
//!
//! <div id="zero_state"></div>
//!
//! ```text
//! -- the fields of a message that has not begun, or that is finished: all zeros
//! abbrev pub zero_state : SealState
//! zero_state = record { xi = replicate 16 0; batch = replicate BATCH_LEN 0; aad_len = 0; len = 0; nonce = replicate 12 0; begun = 0 }
//! ```
//!
//! <div id="joined"></div>
//!
//! ```text
//! -- the parts, one after another
//! abbrev pub joined : List (Bor (List ℕ)) → List ℕ
//! joined parts = concat (map (λ part. part.now) parts)
//! ```
//!
//! <div id="HasTaken"></div>
//!
//! ```text
//! -- The hash of bytes that came in parts, under the subkey h: those in whole batches are hashed, and those after them are kept.
//! pub record HasTaken (h bytes : List ℕ) (s : PartialHash) : Type 0 where
//!   pub whole : List ℕ
//!   pub parts : bytes ≡ whole ++ take s.len s.batch
//!   pub aligned : length whole % BATCH_LEN ≡ 0
//!   pub short : s.len < BATCH_LEN
//!   pub hashed : IsHashOf h (padded_blocks whole) s.xi
//! ```
//!
//! Definitions: [`IsHashOf`](aead_ciphers::specs::hash_of#IsHashOf),
//! [`padded_blocks`](aead_ciphers::specs::gcm#padded_blocks).
