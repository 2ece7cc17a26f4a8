// Written by tools/rust from crates/aead_ciphers_base/specs/ByteField.antt. Don't edit.
//! Bytes as elements of GF(2^8), and the S-box (FIPS 197 sections 4 and 5.1.1).
//!
//! The definitions of `crates/aead_ciphers_base/specs/ByteField.antt` of the repository.
//!
//! <div id="bits_of"></div>
//!
//! ```text
//! -- the k lowest bits of n as coefficients, the least significant first (section 4: the byte {b7 .. b0} is the
//! -- polynomial b7 x^7 + .. + b0)
//! abbrev pub bits_of : ℕ → ℕ → List Bool
//! bits_of zero n = []
//! bits_of (suc k) n = (n % 2 == 1) ∷ bits_of k (n / 2)
//! ```
//!
//! <div id="value_of"></div>
//!
//! ```text
//! -- the number with these bits, the least significant first (section 3.2)
//! abbrev pub value_of : List Bool → ℕ
//! value_of [] = 0
//! value_of (b ∷ bs) = (if b then 1 else 0) + 2 * value_of bs
//! ```
//!
//! <div id="mul8"></div>
//!
//! ```text
//! -- the product of two bytes: the product of their polynomials modulo x^8 + x^4 + x^3 + x + 1 (section 4.2)
//! unfoldable pub mul8 : ℕ → ℕ → ℕ
//! mul8 x y = value_of (field_product (0 ∷ 1 ∷ 3 ∷ 4 ∷ []) 8 (bits_of 8 x) (bits_of 8 y))
//! ```
//!
//! Definitions: [`value_of`](crate::specs::byte_field#value_of),
//! [`field_product`](crate::specs::polynomial#field_product), [`bits_of`](crate::specs::byte_field#bits_of).
//!
//! <div id="product_of_57_and_83"></div>
//!
//! ```text
//! -- {57} • {83} = {c1}, the example of section 4.2, computed by this definition
//! pub product_of_57_and_83 : mul8 0x57 0x83 ≡ 0xc1
//! unfolding mul8 field_product remainder polynomial_product
//! product_of_57_and_83 = refl
//! ```
//!
//! Definitions: [`mul8`](crate::specs::byte_field#mul8), [`field_product`](crate::specs::polynomial#field_product),
//! [`remainder`](crate::specs::polynomial#remainder),
//! [`polynomial_product`](crate::specs::polynomial#polynomial_product).
//!
//! <div id="inv"></div>
//!
//! ```text
//! -- the multiplicative inverse: the least y with x y = 1; 0, which has none, is mapped to itself (section 5.1.1)
//! unfoldable pub inv : ℕ → ℕ
//! inv x = unwrap_or (find (λ y. mul8 x y == 1) (range_with_len 0 256)) 0
//! ```
//!
//! Definitions: [`mul8`](crate::specs::byte_field#mul8).
//!
//! <div id="affine_bit"></div>
//!
//! ```text
//! -- bit i of the affine transformation: b_i + b_(i+4) + b_(i+5) + b_(i+6) + b_(i+7) + c_i, with indexes modulo 8
//! -- (section 5.1.1)
//! abbrev pub affine_bit : List Bool → List Bool → ℕ → Bool
//! affine_bit b c i =
//!     coefficient b i xor coefficient b ((i + 4) % 8) xor coefficient b ((i + 5) % 8)
//!     xor coefficient b ((i + 6) % 8) xor coefficient b ((i + 7) % 8) xor coefficient c i
//! ```
//!
//! Definitions: [`coefficient`](crate::specs::polynomial#coefficient), [`xor`](crate::specs::polynomial#xor).
//!
//! <div id="affine"></div>
//!
//! ```text
//! -- the affine transformation, with c = {63} (section 5.1.1)
//! unfoldable pub affine : ℕ → ℕ
//! affine x = value_of (each_below 8 (affine_bit (bits_of 8 x) (bits_of 8 0x63)))
//! ```
//!
//! Definitions: [`value_of`](crate::specs::byte_field#value_of), [`each_below`](crate::specs::bytes#each_below),
//! [`affine_bit`](crate::specs::byte_field#affine_bit), [`bits_of`](crate::specs::byte_field#bits_of).
//!
//! <div id="sbox"></div>
//!
//! ```text
//! -- the S-box: the affine transformation of the multiplicative inverse (section 5.1.1)
//! unfoldable pub sbox : ℕ → ℕ
//! sbox x = affine (inv x)
//! ```
//!
//! Definitions: [`affine`](crate::specs::byte_field#affine), [`inv`](crate::specs::byte_field#inv).
