// Written by tools/rust from crates/aead_ciphers/specs/Multiples.antt. Don't edit.
//! The multiples of a hash subkey; a product of blocks is a sum of them (SP 800-38D section 6.3).
//!
//! The definitions of `crates/aead_ciphers/specs/Multiples.antt` of the repository.
//!
//! <div id="monomial_block"></div>
//!
//! ```text
//! -- section 6.3: the block of the polynomial u^k, in which only bit k is one, where bit 0 is the leftmost
//! abbrev pub monomial_block : ℕ → List ℕ
//! monomial_block k = block_of (replicate k false ++ true ∷ replicate (127 - k) false)
//! ```
//!
//! Definitions: [`block_of`](crate::specs::ghash#block_of).
//!
//! <div id="number_of_words"></div>
//!
//! ```text
//! -- the number with these 32-bit words, the most significant first
//! abbrev pub number_of_words : List ℕ → ℕ
//! number_of_words words = fold (λ n word. n * 2 ^ 32 + word) 0 words
//! ```
//!
//! <div id="place"></div>
//!
//! ```text
//! -- where a table of 128 entries has the first word of entry k: corresponding words of the entries i, 32 + i, 64 + i and 96 + i
//! -- are adjacent
//! abbrev pub place : ℕ → ℕ
//! place k = 4 * (k % 32) + k / 32
//! ```
//!
//! <div id="entry"></div>
//!
//! ```text
//! -- entry k of a table of 128, whose four words are 128 places apart
//! abbrev pub entry : List ℕ → ℕ → ℕ
//! entry table k = number_of_words (map (λ word. slice_index table (128 * word + place k)) (0 ∷ 1 ∷ 2 ∷ 3 ∷ []))
//! ```
//!
//! Definitions: [`number_of_words`](crate::specs::multiples#number_of_words),
//! [`place`](crate::specs::multiples#place).
//!
//! <div id="AreMultiples"></div>
//!
//! ```text
//! -- the bytes of each entry k of the table are the product of u^k and the block h
//! abbrev pub AreMultiples : List ℕ → List ℕ → Type 0
//! AreMultiples h table = (k : ℕ) → k < 128 → to_be_bytes w128 (entry table k) ≡ monomial_block k • h
//! ```
//!
//! Definitions: [`entry`](crate::specs::multiples#entry),
//! [`monomial_block`](crate::specs::multiples#monomial_block), [`•`](crate::specs::ghash#•).
