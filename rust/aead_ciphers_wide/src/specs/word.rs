// Written by tools/rust from crates/aead_ciphers_wide/specs/Word.antt. Don't edit.
//! Numbers as lanes of 64 bits, and those of 256 bits as two halves.
//!
//! The definitions of `crates/aead_ciphers_wide/specs/Word.antt` of the repository.
//!
//! <div id="lane_of"></div>
//!
//! ```text
//! -- lane j of a number
//! abbrev pub lane_of : ℕ → ℕ → ℕ
//! lane_of j x = x / 2 ^ (64 * j) % 2 ^ 64
//! ```
//!
//! <div id="lanes_of"></div>
//!
//! ```text
//! -- lane j of each number
//! abbrev pub lanes_of : ℕ → List ℕ → List ℕ
//! lanes_of j xs = map (lane_of j) xs
//! ```
//!
//! Definitions: [`lane_of`](crate::specs::word#lane_of).
//!
//! <div id="half_of"></div>
//!
//! ```text
//! -- half h of a number of 256 bits
//! abbrev pub half_of : ℕ → ℕ → ℕ
//! half_of h x = x / 2 ^ (128 * h) % 2 ^ 128
//! ```
//!
//! <div id="twice"></div>
//!
//! ```text
//! -- the number of 256 bits each of whose halves is a number of 128 bits
//! abbrev pub twice : ℕ → ℕ
//! twice n = n % 2 ^ 128 * 2 ^ 128 + n % 2 ^ 128
//! ```
//!
//! ```text
//! digits_of : (lanes : List ℕ) → Each1 (λ x. x < 2 ^ 64) lanes
//!     → digits_l (2 ^ 64) (length lanes) (number_l (2 ^ 64) lanes) ≡ lanes
//! digits_of [] small = refl
//! digits_of (x ∷ xs) small =
//!     let low : (x + 2 ^ 64 * number_l (2 ^ 64) xs) % 2 ^ 64 ≡ x = omega (arith, small.0) in
//!     let high : (x + 2 ^ 64 * number_l (2 ^ 64) xs) / 2 ^ 64 ≡ number_l (2 ^ 64) xs = omega (arith, small.0) in
//!     ap₂ (λ (y : ℕ) (ys : List ℕ). y ∷ ys) low (ap (digits_l (2 ^ 64) (length xs)) high ∙ digits_of xs small.1)
//! ```
//!
//! <div id="digits_back"></div>
//!
//! ```text
//! pub digits_back : (n : ℕ) (lanes : List ℕ) → length lanes ≡ n → Each1 (λ x. x < 2 ^ 64) lanes
//!     → digits_l (2 ^ 64) n (number_l (2 ^ 64) lanes) ≡ lanes
//! digits_back n lanes size small = ap (λ k. digits_l (2 ^ 64) k (number_l (2 ^ 64) lanes)) (sym size) ∙ digits_of lanes small
//! ```
