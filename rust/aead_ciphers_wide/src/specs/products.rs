// Written by tools/rust from crates/aead_ciphers_wide/specs/Products.antt. Don't edit.
//! The products of a hash subkey and the digits of a byte; a product of blocks is a sum of them (SP 800-38D section 6.3).
//!
//! The definitions of `crates/aead_ciphers_wide/specs/Products.antt` of the repository.
//!
//! <div id="stepped"></div>
//!
//! ```text
//! -- u^(8 n) times a block
//! abbrev pub stepped : ℕ → List ℕ → List ℕ
//! stepped zero block = block
//! stepped (suc n) block = monomial_block 8 • stepped n block
//! ```
//!
//! Definitions: [`monomial_block`](aead_ciphers::specs::multiples#monomial_block),
//! [`•`](aead_ciphers::specs::ghash#•).
//!
//! <div id="u128_times"></div>
//!
//! ```text
//! -- u^128 times a block
//! unfoldable pub u128_times : List ℕ → List ℕ
//! u128_times block = stepped 16 block
//! ```
//!
//! Definitions: [`stepped`](crate::specs::products#stepped).
//!
//! <div id="shifted_byte"></div>
//!
//! ```text
//! -- the product of a byte and u^n: it is shifted to the right by n bits, into which those of the byte before it come
//! abbrev pub shifted_byte : ℕ → ℕ → ℕ → ℕ
//! shifted_byte n before b = (before * 2 ^ 8 + b) / 2 ^ n % 2 ^ 8
//! ```
//!
//! <div id="folded_byte"></div>
//!
//! ```text
//! -- the product of a byte and 1 + u + u^2 + u^7, with the bits that come from the byte before it (SP 800-38D section 6.3)
//! abbrev pub folded_byte : ℕ → ℕ → ℕ
//! folded_byte before b =
//!     bit_xor (bit_xor (bit_xor b (shifted_byte 1 before b)) (shifted_byte 2 before b)) (shifted_byte 7 before b)
//! ```
//!
//! Definitions: [`shifted_byte`](crate::specs::products#shifted_byte).
//!
//! <div id="first_byte"></div>
//!
//! ```text
//! -- the block whose first byte is b, and whose other bytes are zero
//! abbrev pub first_byte : ℕ → List ℕ
//! first_byte b = b ∷ replicate 15 0
//! ```
//!
//! <div id="column"></div>
//!
//! ```text
//! -- the bytes of a table at the places n, 16 + n, .., 240 + n
//! abbrev pub column : List ℕ → ℕ → List ℕ
//! column table n = each_below 16 (λ r. slice_index table (16 * r + n))
//! ```
//!
//! Definitions: [`each_below`](aead_ciphers_base::specs::bytes#each_below).
//!
//! <div id="AreProducts"></div>
//!
//! ```text
//! -- column n of the first half of a table is the product of h and the block whose first byte is 16 n, and column n of the second half
//! -- is the product of h and the block whose first byte is n
//! pub record AreProducts (h table : List ℕ) : Type 0 where
//!   pub high : (n : ℕ) → n < 16 → column table n ≡ first_byte (16 * n) • h
//!   pub low : (n : ℕ) → n < 16 → column table (256 + n) ≡ first_byte n • h
//! ```
//!
//! Definitions: [`column`](crate::specs::products#column), [`first_byte`](crate::specs::products#first_byte),
//! [`•`](aead_ciphers::specs::ghash#•).
//!
//! <div id="subkey"></div>
//!
//! ```text
//! -- the block whose products are in a table: its product with the polynomial 1
//! unfoldable pub subkey : List ℕ → List ℕ
//! subkey table = column table 8
//! ```
//!
//! Definitions: [`column`](crate::specs::products#column).
//!
//! <div id="chosen_sum"></div>
//!
//! ```text
//! -- of the four numbers from a place on, the sum of those for which n has a one, where the highest of its four bits is for the first
//! abbrev pub chosen_sum : ℕ → ℕ → List ℕ → ℕ
//! chosen_sum n from numbers =
//!     let part = λ (k p : ℕ). if n / p % 2 == 1 then slice_index numbers (from + k) else 0 in
//!     bit_xor (bit_xor (bit_xor (part 0 8) (part 1 4)) (part 2 2)) (part 3 1)
//! ```
//!
//! <div id="chosen_of_two"></div>
//!
//! ```text
//! -- of two numbers, the sum of those for which n has a one, where the higher of its two bits is for the first
//! abbrev pub chosen_of_two : ℕ → ℕ → ℕ → ℕ
//! chosen_of_two n x y = bit_xor (if n / 2 % 2 == 1 then x else 0) (if n % 2 == 1 then y else 0)
//! ```
//!
//! <div id="ArePowers"></div>
//!
//! ```text
//! -- one table has the products of a block, and the other those of its square
//! pub record ArePowers (products squares : List ℕ) : Type 0 where
//!   pub first : AreProducts (subkey products) products
//!   pub second : AreProducts (subkey products • subkey products) squares
//! ```
//!
//! Definitions: [`AreProducts`](crate::specs::products#AreProducts), [`subkey`](crate::specs::products#subkey),
//! [`•`](aead_ciphers::specs::ghash#•).
