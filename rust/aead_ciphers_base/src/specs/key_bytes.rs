// Written by tools/rust from crates/aead_ciphers_base/specs/KeyBytes.antt. Don't edit.
//! The bytes of an AES key, of either length.
//!
//! The definitions of `crates/aead_ciphers_base/specs/KeyBytes.antt` of the repository.
//!
//! <div id="key_bytes"></div>
//!
//! ```text
//! abbrev pub key_bytes : KeyBytes → List ℕ
//! key_bytes (AES_128 b) = b.now
//! key_bytes (AES_256 b) = b.now
//! ```
