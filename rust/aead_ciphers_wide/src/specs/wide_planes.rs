// Written by tools/rust from crates/aead_ciphers_wide/specs/WidePlanes.antt. Don't edit.
//! Blocks in eight planes: eight in planes of 128 bits, where bit 8 byte + block of plane b is bit b of that byte, and sixteen in
//! planes of 256 bits, whose halves are such planes of the blocks with even numbers and of those with odd ones.
//!
//! The definitions of `crates/aead_ciphers_wide/specs/WidePlanes.antt` of the repository.
//!
//! <div id="place_of_eight"></div>
//!
//! ```text
//! -- where planes of 128 bits hold byte j of block k
//! abbrev pub place_of_eight : ℕ → ℕ → ℕ
//! place_of_eight k j = 8 * j + k
//! ```
//!
//! <div id="place_of_eight_within"></div>
//!
//! ```text
//! pub place_of_eight_within : (k j : ℕ) → k < 128 / 16 → j < 16 → place_of_eight k j < 128
//! place_of_eight_within k j hk hj = omega arith
//! ```
//!
//! Definitions: [`place_of_eight`](crate::specs::wide_planes#place_of_eight).
//!
//! <div id="wide_block"></div>
//!
//! ```text
//! -- block k: its byte j is byte 8 j + k of the planes
//! abbrev pub wide_block : List ℕ → ℕ → List ℕ
//! wide_block = block_at place_of_eight
//! ```
//!
//! Definitions: [`block_at`](aead_ciphers_base::specs::planes#block_at),
//! [`place_of_eight`](crate::specs::wide_planes#place_of_eight).
//!
//! <div id="place_of_sixteen"></div>
//!
//! ```text
//! -- where planes of 256 bits hold byte j of block k
//! abbrev pub place_of_sixteen : ℕ → ℕ → ℕ
//! place_of_sixteen k j = 128 * (k % 2) + (8 * j + k / 2)
//! ```
//!
//! <div id="place_of_sixteen_within"></div>
//!
//! ```text
//! pub place_of_sixteen_within : (k j : ℕ) → k < 256 / 16 → j < 16 → place_of_sixteen k j < 256
//! place_of_sixteen_within k j hk hj = omega arith
//! ```
//!
//! Definitions: [`place_of_sixteen`](crate::specs::wide_planes#place_of_sixteen).
//!
//! <div id="wider_block"></div>
//!
//! ```text
//! -- block k: its byte j is byte 128 (k % 2) + 8 j + k / 2 of the planes
//! abbrev pub wider_block : List ℕ → ℕ → List ℕ
//! wider_block = block_at place_of_sixteen
//! ```
//!
//! Definitions: [`block_at`](aead_ciphers_base::specs::planes#block_at),
//! [`place_of_sixteen`](crate::specs::wide_planes#place_of_sixteen).
