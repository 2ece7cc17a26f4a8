// Written by tools/rust from crates/aead_ciphers_wide/specs/HeaderKey.antt. Don't edit.
//! What a contract sees of a `HeaderProtectionKey`: the same as of one of `aead_ciphers`.
//!
//! The definitions of `crates/aead_ciphers_wide/specs/HeaderKey.antt` of the repository.
//!
//! <div id="aes_algorithm"></div>
//!
//! ```text
//! -- the algorithm by AES whose keys have this length in bytes
//! abbrev pub aes_algorithm : ℕ → Algorithm
//! aes_algorithm len = if len == 16 then AES_128 else AES_256
//! ```
//!
//! <div id="header_key"></div>
//!
//! ```text
//! -- the algorithm and the bytes of a key
//! abbrev pub header_key : Cipher → HeaderKey
//! header_key (Aes key) = record { algorithm = aes_algorithm (length key); bytes = key }
//! header_key (ChaCha20 key) = record { algorithm = CHACHA20; bytes = key }
//! ```
//!
//! Definitions: [`HeaderKey`](aead_ciphers::specs::header_protection#HeaderKey),
//! [`aes_algorithm`](crate::specs::header_key#aes_algorithm).
