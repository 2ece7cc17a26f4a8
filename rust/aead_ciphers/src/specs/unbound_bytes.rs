// Written by tools/rust from crates/aead_ciphers/specs/UnboundBytes.antt. Don't edit.
//! What a contract sees of the bytes in an `UnboundKey`.
//!
//! The definitions of `crates/aead_ciphers/specs/UnboundBytes.antt` of the repository.
//!
//! <div id="unbound_bytes"></div>
//!
//! ```text
//! abbrev pub unbound_bytes : UnboundBytes → List ℕ
//! unbound_bytes (AES_128 b) = b
//! unbound_bytes (AES_256 b) = b
//! ```
