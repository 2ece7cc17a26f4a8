// Written by tools/rust from crates/key_derivation/specs/Hash.antt. Don't edit.
//! The hash functions (FIPS 180-4).
//!
//! The definitions of `crates/key_derivation/specs/Hash.antt` of the repository.
//!
//! <div id="HashFunction"></div>
//!
//! ```text
//! -- a hash function, the bytes of its block and of its digest: H, B and L of RFC 2104 section 2
//! pub record HashFunction : Type 0 where
//!   pub hash : List ℕ → List ℕ
//!   pub block_len : ℕ
//!   pub output_len : ℕ
//! ```
//!
//! <div id="sha_256"></div>
//!
//! ```text
//! abbrev pub sha_256 : HashFunction
//! sha_256 = record { hash = sha256; block_len = 64; output_len = 32 }
//! ```
//!
//! Definitions: [`HashFunction`](crate::specs::hash#HashFunction).
//!
//! <div id="sha_384"></div>
//!
//! ```text
//! abbrev pub sha_384 : HashFunction
//! sha_384 = record { hash = sha384; block_len = 128; output_len = 48 }
//! ```
//!
//! Definitions: [`HashFunction`](crate::specs::hash#HashFunction).
