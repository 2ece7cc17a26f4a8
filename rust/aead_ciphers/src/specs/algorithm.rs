// Written by tools/rust from crates/aead_ciphers/specs/Algorithm.antt. Don't edit.
//! What a contract sees of an `Algorithm`.
//!
//! The definitions of `crates/aead_ciphers/specs/Algorithm.antt` of the repository.
//!
//! <div id="id"></div>
//!
//! ```text
//! -- the id of an algorithm
//! abbrev pub id : Algorithm → AlgorithmId
//! id algorithm = algorithm.id
//! ```
//!
//! <div id="id_key_len"></div>
//!
//! ```text
//! -- the length of a key of AES-128 and of AES-256 in bytes (FIPS 197 section 5)
//! abbrev pub id_key_len : AlgorithmId → ℕ
//! id_key_len AES_128_GCM = 16
//! id_key_len AES_256_GCM = 32
//! ```
//!
//! <div id="key_len"></div>
//!
//! ```text
//! abbrev pub key_len : Algorithm → ℕ
//! key_len algorithm = id_key_len algorithm.id
//! ```
//!
//! Definitions: [`id_key_len`](crate::specs::algorithm#id_key_len).
//!
//! <div id="id_debug_text"></div>
//!
//! ```text
//! -- what `{:?}` prints of an algorithm
//! abbrev pub id_debug_text : AlgorithmId → List ℕ
//! id_debug_text AES_128_GCM = codes "AES_128_GCM"
//! id_debug_text AES_256_GCM = codes "AES_256_GCM"
//! ```
//!
//! <div id="debug_text"></div>
//!
//! ```text
//! abbrev pub debug_text : Algorithm → List ℕ
//! debug_text algorithm = id_debug_text algorithm.id
//! ```
//!
//! Definitions: [`id_debug_text`](crate::specs::algorithm#id_debug_text).
