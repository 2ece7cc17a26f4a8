// Written by tools/rust from crates/key_derivation/specs/Secret.antt. Don't edit.
//! What contracts see of a secret, and the lengths that its suite determines.
//!
//! The definitions of `crates/key_derivation/specs/Secret.antt` of the repository.
//!
//! <div id="suite_hash"></div>
//!
//! ```text
//! -- the hash function of a suite (RFC 8446 section B.4)
//! abbrev pub suite_hash : Suite → HashFunction
//! suite_hash Aes128Gcm = sha_256
//! suite_hash Aes256Gcm = sha_384
//! ```
//!
//! Definitions: [`HashFunction`](crate::specs::hash#HashFunction), [`sha_256`](crate::specs::hash#sha_256),
//! [`sha_384`](crate::specs::hash#sha_384).
//!
//! <div id="suite_secret_len"></div>
//!
//! ```text
//! -- the length of a suite's secrets in bytes (RFC 8446 section 7.1)
//! abbrev pub suite_secret_len : Suite → ℕ
//! suite_secret_len s = (suite_hash s).output_len
//! ```
//!
//! Definitions: [`suite_hash`](crate::specs::secret#suite_hash).
//!
//! <div id="suite_key_len"></div>
//!
//! ```text
//! -- the length of a suite's keys in bytes (RFC 5116 sections 5.1 and 5.2)
//! abbrev pub suite_key_len : Suite → ℕ
//! suite_key_len Aes128Gcm = 16
//! suite_key_len Aes256Gcm = 32
//! ```
//!
//! <div id="SecretState"></div>
//!
//! ```text
//! -- a secret: its suite and its bytes
//! pub record SecretState : Type 0 where
//!   pub suite : Suite
//!   pub bytes : List ℕ
//! ```
//!
//! <div id="secret_state"></div>
//!
//! ```text
//! abbrev pub secret_state : SecretBytes → SecretState
//! secret_state (Sha256 b) = record { suite = Aes128Gcm; bytes = b }
//! secret_state (Sha384 b) = record { suite = Aes256Gcm; bytes = b }
//! ```
//!
//! Definitions: [`SecretState`](crate::specs::secret#SecretState).
//!
//! <div id="labeled"></div>
//!
//! ```text
//! -- HKDF-Expand-Label under the hash of the suite, with no context
//! abbrev pub labeled : SecretState → (label : List ℕ) → (len : ℕ) → List ℕ
//! labeled s label len = hkdf_expand_label (suite_hash s.suite) s.bytes label [] len
//! ```
//!
//! Definitions: [`SecretState`](crate::specs::secret#SecretState),
//! [`hkdf_expand_label`](crate::specs::hkdf#hkdf_expand_label), [`suite_hash`](crate::specs::secret#suite_hash).
//!
//! <div id="next_secret"></div>
//!
//! ```text
//! -- the next secret, derived with this label; it is as long as the secret before it
//! abbrev pub next_secret : SecretState → (label : List ℕ) → SecretState
//! next_secret s label = record s { bytes = labeled s label (suite_secret_len s.suite) }
//! ```
//!
//! Definitions: [`SecretState`](crate::specs::secret#SecretState), [`labeled`](crate::specs::secret#labeled),
//! [`suite_secret_len`](crate::specs::secret#suite_secret_len).
