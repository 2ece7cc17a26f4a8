// Written by tools/rust from crates/aead_ciphers_base/specs/Planes.antt. Don't edit.
//! Blocks in eight planes, and four of them in planes of 64 bits: bit 16 block + byte of plane b is bit b of that byte.
//!
//! The definitions of `crates/aead_ciphers_base/specs/Planes.antt` of the repository.
//!
//! <div id="plane_byte"></div>
//!
//! ```text
//! -- byte p: its bit b is bit p of plane b
//! unfoldable pub plane_byte : List ℕ → ℕ → ℕ
//! plane_byte planes p = value_of (each_below 8 (λ b. bit_at (slice_index planes b) p == 1))
//! ```
//!
//! Definitions: [`value_of`](crate::specs::byte_field#value_of), [`each_below`](crate::specs::bytes#each_below).
//!
//! <div id="plane_polynomial"></div>
//!
//! ```text
//! -- for n planes, the polynomial whose coefficient of x^b is bit p of plane b
//! unfoldable pub plane_polynomial : ℕ → List ℕ → ℕ → List Bool
//! plane_polynomial n planes p = each_below n (λ b. bit_at (slice_index planes b) p == 1)
//! ```
//!
//! Definitions: [`each_below`](crate::specs::bytes#each_below).
//!
//! <div id="block_at"></div>
//!
//! ```text
//! -- block k of planes that hold byte j of block k at place k j
//! unfoldable pub block_at : (ℕ → ℕ → ℕ) → List ℕ → ℕ → List ℕ
//! block_at place planes k = state (λ r c. plane_byte planes (place k (r + 4 * c)))
//! ```
//!
//! Definitions: [`state`](crate::specs::aes#state), [`plane_byte`](crate::specs::planes#plane_byte).
//!
//! <div id="place_of_four"></div>
//!
//! ```text
//! -- where planes of 64 bits hold byte j of block k
//! abbrev pub place_of_four : ℕ → ℕ → ℕ
//! place_of_four k j = 16 * k + j
//! ```
//!
//! <div id="place_of_four_within"></div>
//!
//! ```text
//! pub place_of_four_within : (k j : ℕ) → k < 64 / 16 → j < 16 → place_of_four k j < 64
//! place_of_four_within k j hk hj = omega arith
//! ```
//!
//! Definitions: [`place_of_four`](crate::specs::planes#place_of_four).
//!
//! <div id="plane_block"></div>
//!
//! ```text
//! -- block k: its byte j is byte 16 k + j of the planes
//! abbrev pub plane_block : List ℕ → ℕ → List ℕ
//! plane_block = block_at place_of_four
//! ```
//!
//! Definitions: [`block_at`](crate::specs::planes#block_at), [`place_of_four`](crate::specs::planes#place_of_four).
//!
//! <div id="below"></div>
//!
//! ```text
//! -- byte j of a block that is i rows below that in row r and column c, with row numbers modulo 4
//! abbrev pub below : ℕ → ℕ → ℕ → ℕ
//! below i r c = (r + i) % 4 + 4 * c
//! ```
//!
//! <div id="shifted_from"></div>
//!
//! ```text
//! -- the byte that ShiftRows moves to row r and column c (FIPS 197 section 5.1.2)
//! abbrev pub shifted_from : ℕ → ℕ → ℕ
//! shifted_from r c = r + 4 * ((c + r) % 4)
//! ```
//!
//! <div id="Moves"></div>
//!
//! ```text
//! -- for each of n blocks: the bit of its byte in row r and column c of the plane `new` is that of its byte `from r c` of the plane `old`
//! abbrev pub Moves : (ℕ → ℕ → ℕ) → ℕ → (ℕ → ℕ → ℕ) → ℕ → ℕ → Type 0
//! Moves place n from old new =
//!     (k r c : ℕ) → k < n → r < 4 → c < 4 → bit_at new (place k (r + 4 * c)) ≡ bit_at old (place k (from r c))
//! ```
//!
//! <div id="MovesBytes"></div>
//!
//! ```text
//! -- for each of n blocks: its byte in row r and column c of the planes `new` is its byte `from r c` of the planes `old`
//! abbrev pub MovesBytes : (ℕ → ℕ → ℕ) → ℕ → (ℕ → ℕ → ℕ) → List ℕ → List ℕ → Type 0
//! MovesBytes place n from old new =
//!     (k r c : ℕ) → k < n → r < 4 → c < 4 → plane_byte new (place k (r + 4 * c)) ≡ plane_byte old (place k (from r c))
//! ```
//!
//! Definitions: [`plane_byte`](crate::specs::planes#plane_byte).
//!
//! <div id="HoldsRound"></div>
//!
//! ```text
//! -- block k of the planes is round key j of the words w
//! abbrev pub HoldsRound : (ℕ → ℕ → ℕ) → ℕ → List (List ℕ) → ℕ → List ℕ → Type 0
//! HoldsRound place k w j planes =
//!     (r c : ℕ) → r < 4 → c < 4 → plane_byte planes (place k (r + 4 * c)) ≡ slice_index (word_at w (4 * j + c)) r
//! ```
//!
//! Definitions: [`plane_byte`](crate::specs::planes#plane_byte), [`word_at`](crate::specs::aes#word_at).
//!
//! <div id="word_bit"></div>
//!
//! ```text
//! -- bit n of 64-bit words, the least significant bit of word 0 first
//! unfoldable pub word_bit : List ℕ → ℕ → ℕ
//! word_bit words n = bit_at (slice_index words (n / 64)) (n % 64)
//! ```
//!
//! <div id="exchanged_from"></div>
//!
//! ```text
//! -- the bit of eight words that moves to bit n when digit k of each bit's place in its word is exchanged with the highest digit
//! -- of the word's index, and the digits of the index are then rotated: the highest becomes the lowest
//! abbrev pub exchanged_from : ℕ → ℕ → ℕ
//! exchanged_from k n = 64 * (n / 128 + 4 * bit_at n k) + (n % 64 + n / 64 % 2 * 2 ^ k - bit_at n k * 2 ^ k)
//! ```
