// Written by tools/rust from crates/aead_ciphers_base/specs/Aes.antt. Don't edit.
//! The cipher AES and its key schedule (FIPS 197).
//!
//! The definitions of `crates/aead_ciphers_base/specs/Aes.antt` of the repository.
//!
//! <div id="⊻"></div>
//!
//! ```text
//! -- the sum of two bytes: the XOR of their bits (section 4.1)
//! infixl 40 ◌⊻◌
//! abbrev pub ◌⊻◌ : ℕ → ℕ → ℕ
//! x ⊻ y = bit_xor x y
//! ```
//!
//! <div id="at"></div>
//!
//! ```text
//! -- the byte in row r and column c of the state: byte r + 4c of the block (section 3.4)
//! abbrev pub at : List ℕ → ℕ → ℕ → ℕ
//! at s r c = slice_index s (r + 4 * c)
//! ```
//!
//! <div id="state"></div>
//!
//! ```text
//! -- the state whose byte in row r and column c is f r c (section 3.4)
//! abbrev pub state : (ℕ → ℕ → ℕ) → List ℕ
//! state f = each_below 16 (λ k. f (k % 4) (k / 4))
//! ```
//!
//! Definitions: [`each_below`](crate::specs::bytes#each_below).
//!
//! <div id="sub_bytes"></div>
//!
//! ```text
//! -- SubBytes: the S-box is applied to each byte (section 5.1.1)
//! unfoldable pub sub_bytes : List ℕ → List ℕ
//! sub_bytes s = state (λ r c. sbox (at s r c))
//! ```
//!
//! Definitions: [`state`](crate::specs::aes#state), [`sbox`](crate::specs::byte_field#sbox),
//! [`at`](crate::specs::aes#at).
//!
//! <div id="shift_rows"></div>
//!
//! ```text
//! -- ShiftRows: row r is shifted cyclically to the left by r bytes (section 5.1.2)
//! unfoldable pub shift_rows : List ℕ → List ℕ
//! shift_rows s = state (λ r c. at s r ((c + r) % 4))
//! ```
//!
//! Definitions: [`state`](crate::specs::aes#state), [`at`](crate::specs::aes#at).
//!
//! <div id="mixed"></div>
//!
//! ```text
//! -- a byte of a mixed column, from the bytes in its row and the three rows below: {02} a + {03} b + c + d
//! -- (section 5.1.3)
//! abbrev pub mixed : ℕ → ℕ → ℕ → ℕ → ℕ
//! mixed a b c d = mul8 2 a ⊻ mul8 3 b ⊻ c ⊻ d
//! ```
//!
//! Definitions: [`mul8`](crate::specs::byte_field#mul8), [`⊻`](crate::specs::aes#⊻).
//!
//! <div id="mix_columns"></div>
//!
//! ```text
//! -- MixColumns: each column is mixed, with row numbers modulo 4 (section 5.1.3)
//! unfoldable pub mix_columns : List ℕ → List ℕ
//! mix_columns s = state (λ r c. mixed (at s r c) (at s ((r + 1) % 4) c) (at s ((r + 2) % 4) c) (at s ((r + 3) % 4) c))
//! ```
//!
//! Definitions: [`state`](crate::specs::aes#state), [`mixed`](crate::specs::aes#mixed),
//! [`at`](crate::specs::aes#at).
//!
//! <div id="word_at"></div>
//!
//! ```text
//! -- word i of the key schedule, a list of four bytes (section 5.2)
//! abbrev pub word_at : List (List ℕ) → ℕ → List ℕ
//! word_at w i = slice_index_or w i []
//! ```
//!
//! <div id="rot_word"></div>
//!
//! ```text
//! -- RotWord: [a0, a1, a2, a3] becomes [a1, a2, a3, a0] (section 5.2)
//! unfoldable pub rot_word : List ℕ → List ℕ
//! rot_word a = each_below 4 (λ k. slice_index a ((k + 1) % 4))
//! ```
//!
//! Definitions: [`each_below`](crate::specs::bytes#each_below).
//!
//! <div id="sub_word"></div>
//!
//! ```text
//! -- SubWord: the S-box is applied to each byte of a word (section 5.2)
//! unfoldable pub sub_word : List ℕ → List ℕ
//! sub_word a = each_below 4 (λ k. sbox (slice_index a k))
//! ```
//!
//! Definitions: [`each_below`](crate::specs::bytes#each_below), [`sbox`](crate::specs::byte_field#sbox).
//!
//! <div id="power_of_x"></div>
//!
//! ```text
//! -- x^n as a byte, the first byte of the round constant Rcon[n + 1] (section 5.2)
//! unfoldable pub power_of_x : ℕ → ℕ
//! power_of_x n = iterate (mul8 2) n 1
//! ```
//!
//! Definitions: [`mul8`](crate::specs::byte_field#mul8).
//!
//! <div id="next_word"></div>
//!
//! ```text
//! -- word i of the key schedule of a key of nk words, from the words w before it: the sum of word i - nk and of word i - 1, which
//! -- is transformed if i is a multiple of nk and, for nk = 8, if i - 4 is a multiple of 8 (section 5.2)
//! unfoldable pub next_word : ℕ → List (List ℕ) → ℕ → List ℕ
//! next_word nk w i =
//!     let t = word_at w (i - 1) in
//!     word_at w (i - nk)
//!     ⊕ (if i % nk == 0 then sub_word (rot_word t) ⊕ (power_of_x (i / nk - 1) ∷ 0 ∷ 0 ∷ 0 ∷ [])
//!     else (if nat_lt 6 nk && (i % nk == 4) then sub_word t else t))
//! ```
//!
//! Definitions: [`word_at`](crate::specs::aes#word_at), [`⊕`](crate::specs::bytes#⊕),
//! [`sub_word`](crate::specs::aes#sub_word), [`rot_word`](crate::specs::aes#rot_word),
//! [`power_of_x`](crate::specs::aes#power_of_x).
//!
//! <div id="key_words"></div>
//!
//! ```text
//! -- KeyExpansion: the nk words of the key, then n further words, each from those before it (section 5.2)
//! unfoldable pub key_words : ℕ → List ℕ → ℕ → List (List ℕ)
//! key_words nk key zero = each_below nk (λ i. each_below 4 (λ k. slice_index key (4 * i + k)))
//! key_words nk key (suc n) = let w = key_words nk key n in w ++ next_word nk w (nk + n) ∷ []
//! ```
//!
//! Definitions: [`each_below`](crate::specs::bytes#each_below), [`next_word`](crate::specs::aes#next_word).
//!
//! <div id="add_round_key"></div>
//!
//! ```text
//! -- AddRoundKey of round j: word 4j + c of the key schedule is added to column c (section 5.1.4)
//! unfoldable pub add_round_key : List (List ℕ) → ℕ → List ℕ → List ℕ
//! add_round_key w j s = state (λ r c. at s r c ⊻ slice_index (word_at w (4 * j + c)) r)
//! ```
//!
//! Definitions: [`state`](crate::specs::aes#state), [`at`](crate::specs::aes#at), [`⊻`](crate::specs::aes#⊻),
//! [`word_at`](crate::specs::aes#word_at).
//!
//! <div id="rounds"></div>
//!
//! ```text
//! -- the state after the first AddRoundKey and n rounds (section 5.1)
//! unfoldable pub rounds : List (List ℕ) → List ℕ → ℕ → List ℕ
//! rounds w b zero = add_round_key w 0 b
//! rounds w b (suc n) = add_round_key w (suc n) (mix_columns (shift_rows (sub_bytes (rounds w b n))))
//! ```
//!
//! Definitions: [`add_round_key`](crate::specs::aes#add_round_key), [`mix_columns`](crate::specs::aes#mix_columns),
//! [`shift_rows`](crate::specs::aes#shift_rows), [`sub_bytes`](crate::specs::aes#sub_bytes).
//!
//! <div id="cipher"></div>
//!
//! ```text
//! -- Cipher: nr rounds, the last without MixColumns (section 5.1)
//! unfoldable pub cipher : List (List ℕ) → ℕ → List ℕ → List ℕ
//! cipher w nr b = add_round_key w nr (shift_rows (sub_bytes (rounds w b (nr - 1))))
//! ```
//!
//! Definitions: [`add_round_key`](crate::specs::aes#add_round_key), [`shift_rows`](crate::specs::aes#shift_rows),
//! [`sub_bytes`](crate::specs::aes#sub_bytes), [`rounds`](crate::specs::aes#rounds).
//!
//! <div id="aes"></div>
//!
//! ```text
//! -- AES: the block b is encrypted under a key of nk words, 4 or 8, in nr rounds with 4 (nr + 1) words, the nk of the key
//! -- included (section 5)
//! unfoldable pub aes : List ℕ → List ℕ → List ℕ
//! aes key b =
//!     let nk = length key / 4 in
//!     let nr = nk + 6 in
//!     cipher (key_words nk key (4 * (nr + 1) - nk)) nr b
//! ```
//!
//! Definitions: [`cipher`](crate::specs::aes#cipher), [`key_words`](crate::specs::aes#key_words).
//!
//! <div id="length_aes"></div>
//!
//! ```text
//! -- an encrypted block has 16 bytes (section 3.4)
//! pub length_aes : (key b : List ℕ) → length (aes key b) ≡ 16
//! unfolding aes cipher add_round_key
//! length_aes key b = refl
//! ```
//!
//! Definitions: [`aes`](crate::specs::aes#aes), [`cipher`](crate::specs::aes#cipher),
//! [`add_round_key`](crate::specs::aes#add_round_key).
