// Written by tools/rust from crates/aead_ciphers_base/specs/Polynomial.antt. Don't edit.
//! Polynomials over the field of two elements, and their products modulo a polynomial (FIPS 197 section 4.2,
//! SP 800-38D section 6.3). A polynomial is the list of its coefficients, which are bits, that of x^0 first.
//!
//! The definitions of `crates/aead_ciphers_base/specs/Polynomial.antt` of the repository.
//!
//! <div id="xor"></div>
//!
//! ```text
//! -- the sum of two bits (FIPS 197 section 4.1)
//! infixl 40 ◌xor◌
//! abbrev pub ◌xor◌ : Bool → Bool → Bool
//! true xor b = not b
//! false xor b = b
//! ```
//!
//! <div id="xor_sum"></div>
//!
//! ```text
//! -- the sum of the bits f 0, .., f (n - 1) (FIPS 197 section 4.1)
//! abbrev pub xor_sum : ℕ → (ℕ → Bool) → Bool
//! xor_sum zero f = false
//! xor_sum (suc n) f = xor_sum n f xor f n
//! ```
//!
//! Definitions: [`xor`](crate::specs::polynomial#xor).
//!
//! <div id="coefficient"></div>
//!
//! ```text
//! -- the coefficient of x^i; zero beyond the end of the list (FIPS 197 section 4)
//! abbrev pub coefficient : List Bool → ℕ → Bool
//! coefficient p i = slice_index_or p i false
//! ```
//!
//! <div id="polynomial_product"></div>
//!
//! ```text
//! -- the product: coefficient k is the sum of `a_i and b_j` over all i + j = k (FIPS 197 section 4.2)
//! unfoldable pub polynomial_product : List Bool → List Bool → List Bool
//! polynomial_product a b = each_below (length a + length b - 1)
//!     (λ k. xor_sum (suc k) (λ i. coefficient a i && coefficient b (k - i)))
//! ```
//!
//! Definitions: [`each_below`](crate::specs::bytes#each_below), [`xor_sum`](crate::specs::polynomial#xor_sum),
//! [`coefficient`](crate::specs::polynomial#coefficient).
//!
//! <div id="remainder"></div>
//!
//! ```text
//! -- The remainder of p modulo x^d plus the sum of x^t over the numbers t in `taps`, which differ: for bytes d is 8 and the taps
//! -- are 0, 1, 3, 4, for blocks 128 and 0, 1, 2, 7 (FIPS 197 section 4.2, SP 800-38D section 6.3). p has d coefficients and n
//! -- more, which are removed, the highest first. In the last clause that is the coefficient of x^m: if it is one, the coefficient
//! -- of x^(n + t) is flipped for each tap t, since x^m is x^n times x^d, and x^d has the same remainder as the sum of the x^t.
//! unfoldable pub remainder : List ℕ → ℕ → ℕ → List Bool → List Bool
//! remainder taps d zero p = p
//! remainder taps d (suc n) p =
//!     let m = d + n in
//!     remainder taps d n (each_below m (λ j. coefficient p j xor (coefficient p m && list_any (λ t. n + t == j) taps)))
//! ```
//!
//! Definitions: [`each_below`](crate::specs::bytes#each_below),
//! [`coefficient`](crate::specs::polynomial#coefficient), [`xor`](crate::specs::polynomial#xor).
//!
//! <div id="field_product"></div>
//!
//! ```text
//! -- the product of two polynomials modulo x^d plus the sum of x^t over the taps t (FIPS 197 section 4.2, SP 800-38D
//! -- section 6.3)
//! unfoldable pub field_product : List ℕ → ℕ → List Bool → List Bool → List Bool
//! field_product taps d a b = let p = polynomial_product a b in remainder taps d (length p - d) p
//! ```
//!
//! Definitions: [`polynomial_product`](crate::specs::polynomial#polynomial_product),
//! [`remainder`](crate::specs::polynomial#remainder).
