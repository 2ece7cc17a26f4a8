// Written by tools/rust from crates/aead_ciphers/specs/HeaderProtection.antt. Don't edit.
//! Header protection of QUIC (RFC 9001 section 5.4).
//!
//! The definitions of `crates/aead_ciphers/specs/HeaderProtection.antt` of the repository.
//!
//! <div id="id_key_len"></div>
//!
//! ```text
//! abbrev pub id_key_len : AlgorithmId → ℕ
//! id_key_len AES_128 = 16
//! id_key_len AES_256 = 32
//! id_key_len CHACHA20 = 32
//! ```
//!
//! <div id="key_len"></div>
//!
//! ```text
//! -- sections 5.4.3 and 5.4.4: the length of a header protection key in bytes
//! abbrev pub key_len : Algorithm → ℕ
//! key_len algorithm = id_key_len algorithm.id
//! ```
//!
//! Definitions: [`id_key_len`](crate::specs::header_protection#id_key_len).
//!
//! <div id="id_debug_text"></div>
//!
//! ```text
//! -- what `{:?}` prints of an algorithm
//! abbrev pub id_debug_text : AlgorithmId → List ℕ
//! id_debug_text AES_128 = codes "AES_128"
//! id_debug_text AES_256 = codes "AES_256"
//! id_debug_text CHACHA20 = codes "CHACHA20"
//! ```
//!
//! <div id="debug_text"></div>
//!
//! ```text
//! abbrev pub debug_text : Algorithm → List ℕ
//! debug_text algorithm = id_debug_text algorithm.id
//! ```
//!
//! Definitions: [`id_debug_text`](crate::specs::header_protection#id_debug_text).
//!
//! <div id="id_mask"></div>
//!
//! ```text
//! -- sections 5.4.3 and 5.4.4: the mask by AES and by ChaCha20
//! abbrev pub id_mask : AlgorithmId → List ℕ → List ℕ → List ℕ
//! id_mask AES_128 key sample = aes_mask key sample
//! id_mask AES_256 key sample = aes_mask key sample
//! id_mask CHACHA20 key sample = chacha_mask key sample
//! ```
//!
//! Definitions: [`aes_mask`](aead_ciphers_base::specs::mask#aes_mask),
//! [`chacha_mask`](aead_ciphers_base::specs::mask#chacha_mask).
//!
//! <div id="header_protection"></div>
//!
//! ```text
//! -- section 5.4.1: mask = header_protection(hp_key, sample)
//! abbrev pub header_protection : Algorithm → List ℕ → List ℕ → List ℕ
//! header_protection algorithm key sample = id_mask algorithm.id key sample
//! ```
//!
//! Definitions: [`id_mask`](crate::specs::header_protection#id_mask).
//!
//! <div id="HeaderKey"></div>
//!
//! ```text
//! -- what a contract sees of a `HeaderProtectionKey`: its algorithm and its bytes
//! pub record HeaderKey : Type 0 where
//!   pub algorithm : Algorithm
//!   pub bytes : List ℕ
//! ```
//!
//! <div id="header_key"></div>
//!
//! ```text
//! -- the algorithm and the bytes of a key
//! abbrev pub header_key : KeyInner → HeaderKey
//! header_key (Aes128 key) = record { algorithm = record { id = AES_128 }; bytes = key }
//! header_key (Aes256 key) = record { algorithm = record { id = AES_256 }; bytes = key }
//! header_key (ChaCha20 key) = record { algorithm = record { id = CHACHA20 }; bytes = key }
//! ```
//!
//! Definitions: [`HeaderKey`](crate::specs::header_protection#HeaderKey).
