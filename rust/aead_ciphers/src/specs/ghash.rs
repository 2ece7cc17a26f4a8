// Written by tools/rust from crates/aead_ciphers/specs/Ghash.antt. Don't edit.
//! The product of blocks, and GHASH (SP 800-38D section 6).
//!
//! The definitions of `crates/aead_ciphers/specs/Ghash.antt` of the repository.
//!
//! <div id="IsBlock"></div>
//!
//! ```text
//! -- a block: 16 bytes, each below 256
//! pub record IsBlock (block : List ℕ) : Type 0 where
//!   pub size : length block ≡ 16
//!   pub bytes : All (λ byte. byte < 256) block
//! ```
//!
//! <div id="AllSized"></div>
//!
//! ```text
//! -- each block in the list has 16 bytes (section 6.4)
//! abbrev pub AllSized : List (List ℕ) → Type 0
//! AllSized [] = Unit {0}
//! AllSized (x ∷ xs) = (length x ≡ 16) × AllSized xs
//! ```
//!
//! <div id="block_bits"></div>
//!
//! ```text
//! -- section 6.3: the block x_0 x_1 .. x_127, leftmost bit first, is the polynomial x_0 + x_1 u + .. + x_127 u^127
//! unfoldable pub block_bits : List ℕ → List Bool
//! block_bits block = flat_map (λ byte. reverse (bits_of 8 byte)) block
//! ```
//!
//! Definitions: [`bits_of`](aead_ciphers_base::specs::byte_field#bits_of).
//!
//! <div id="block_of"></div>
//!
//! ```text
//! -- the block with these bits, the leftmost first (section 4.2.2)
//! unfoldable pub block_of : List Bool → List ℕ
//! block_of bits = to_be_bytes w128 (value_of (reverse bits))
//! ```
//!
//! Definitions: [`value_of`](aead_ciphers_base::specs::byte_field#value_of).
//!
//! <div id="block_taps"></div>
//!
//! ```text
//! -- section 6.3: the modulus is 1 + u + u^2 + u^7 + u^128, and these are its exponents below 128
//! abbrev pub block_taps : List ℕ
//! block_taps = 0 ∷ 1 ∷ 2 ∷ 7 ∷ []
//! ```
//!
//! <div id="•"></div>
//!
//! ```text
//! infixl 70 ◌•◌
//! -- section 6.3: the product of two blocks
//! unfoldable pub ◌•◌ : List ℕ → List ℕ → List ℕ
//! x • y = block_of (field_product block_taps 128 (block_bits x) (block_bits y))
//! ```
//!
//! Definitions: [`block_of`](crate::specs::ghash#block_of),
//! [`field_product`](aead_ciphers_base::specs::polynomial#field_product),
//! [`block_taps`](crate::specs::ghash#block_taps), [`block_bits`](crate::specs::ghash#block_bits).
//!
//! <div id="product_of_test_case_2"></div>
//!
//! ```text
//! -- the ciphertext and the hash subkey of test case 2 of the GCM specification, and their product, computed by this definition
//! pub product_of_test_case_2 : to_be_bytes w128 0x0388dace60b6a392f328c2b971b2fe78 • to_be_bytes w128 0x66e94bd4ef8a2c3b884cfa59ca342b2e
//!     ≡ to_be_bytes w128 0x5e2ec746917062882c85b0685353deb7
//! unfolding ◌•◌ block_bits block_of field_product remainder polynomial_product
//! product_of_test_case_2 = refl
//! ```
//!
//! Definitions: [`•`](crate::specs::ghash#•), [`block_bits`](crate::specs::ghash#block_bits),
//! [`block_of`](crate::specs::ghash#block_of),
//! [`field_product`](aead_ciphers_base::specs::polynomial#field_product),
//! [`remainder`](aead_ciphers_base::specs::polynomial#remainder),
//! [`polynomial_product`](aead_ciphers_base::specs::polynomial#polynomial_product).
//!
//! <div id="unit_block"></div>
//!
//! ```text
//! -- section 6.3: the block of the polynomial 1, whose product with any block is that block
//! abbrev pub unit_block : List ℕ
//! unit_block = 0x80 ∷ replicate 15 0
//! ```
//!
//! <div id="power"></div>
//!
//! ```text
//! -- section 4.2.2: the power h^k for k above 0, which is h multiplied k - 1 times by h
//! abbrev pub power : List ℕ → ℕ → List ℕ
//! power h k = iterate (λ p. p • h) (k - 1) h
//! ```
//!
//! Definitions: [`•`](crate::specs::ghash#•).
//!
//! <div id="ghash"></div>
//!
//! ```text
//! -- section 6.4: GHASH of the blocks X_1, .., X_m is X_1 • H^m ⊕ X_2 • H^(m - 1) ⊕ .. ⊕ X_m • H
//! unfoldable pub ghash : List ℕ → List (List ℕ) → List ℕ
//! ghash h [] = zero_block
//! ghash h (x ∷ xs) = x • power h (length xs + 1) ⊕ ghash h xs
//! ```
//!
//! Definitions: [`zero_block`](aead_ciphers_base::specs::bytes#zero_block), [`•`](crate::specs::ghash#•),
//! [`power`](crate::specs::ghash#power), [`⊕`](aead_ciphers_base::specs::bytes#⊕).
//!
//! <div id="xor_blocks"></div>
//!
//! ```text
//! -- the XOR of two lists of blocks, block by block (section 4.2.2)
//! abbrev pub xor_blocks : List (List ℕ) → List (List ℕ) → List (List ℕ)
//! xor_blocks xs ys = zip2 ◌⊕◌ xs ys
//! ```
//!
//! Definitions: [`⊕`](aead_ciphers_base::specs::bytes#⊕).
