// Written by tools/rust from crates/aead_ciphers_base/specs/Values.antt. Don't edit.
//! What a contract sees of an `Aad`: its bytes.
//!
//! The definitions of `crates/aead_ciphers_base/specs/Values.antt` of the repository.
//!
//! <div id="aad_bytes"></div>
//!
//! ```text
//! abbrev pub aad_bytes : Aad → List ℕ
//! aad_bytes aad = aad.bytes.now
//! ```
