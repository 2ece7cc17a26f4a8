// Written by tools/rust from crates/key_derivation/specs/Hkdf.antt. Don't edit.
//! HKDF (RFC 5869), and HKDF-Expand-Label and Derive-Secret of TLS 1.3 (RFC 8446 section 7.1).
//!
//! The definitions of `crates/key_derivation/specs/Hkdf.antt` of the repository.
//!
//! <div id="hkdf_extract"></div>
//!
//! ```text
//! -- HKDF-Extract (section 2.2)
//! abbrev pub hkdf_extract : HashFunction → (salt ikm : List ℕ) → List ℕ
//! hkdf_extract h salt ikm = hmac h salt ikm
//! ```
//!
//! Definitions: [`HashFunction`](crate::specs::hash#HashFunction), [`hmac`](crate::specs::hmac#hmac).
//!
//! <div id="hkdf_block"></div>
//!
//! ```text
//! -- T(n) (section 2.3)
//! unfoldable pub hkdf_block : HashFunction → (prk info : List ℕ) → ℕ → List ℕ
//! hkdf_block h prk info zero = []
//! hkdf_block h prk info (suc n) = hmac h prk (hkdf_block h prk info n ++ info ++ suc n ∷ [])
//! ```
//!
//! Definitions: [`HashFunction`](crate::specs::hash#HashFunction), [`hmac`](crate::specs::hmac#hmac).
//!
//! <div id="hkdf_expand"></div>
//!
//! ```text
//! -- HKDF-Expand (section 2.3)
//! abbrev pub hkdf_expand : HashFunction → (prk info : List ℕ) → (len : ℕ) → List ℕ
//! hkdf_expand h prk info len = first_bytes (hkdf_block h prk info) h.output_len len
//! ```
//!
//! Definitions: [`HashFunction`](crate::specs::hash#HashFunction),
//! [`first_bytes`](crate::specs::blocks#first_bytes), [`hkdf_block`](crate::specs::hkdf#hkdf_block).
//!
//! <div id="vector_8"></div>
//!
//! ```text
//! -- a vector of at most 255 bytes: its length and its bytes (RFC 8446 section 3.4)
//! abbrev pub vector_8 : List ℕ → List ℕ
//! vector_8 bytes = length bytes ∷ bytes
//! ```
//!
//! <div id="IsLabel"></div>
//!
//! ```text
//! -- a label that may be given: with "tls13 " before it, it has 7 to 255 bytes (RFC 8446 section 7.1)
//! abbrev pub IsLabel : List ℕ → Type 0
//! IsLabel label = (1 ≤ length label) × (length label ≤ 249)
//! ```
//!
//! <div id="hkdf_label"></div>
//!
//! ```text
//! -- HkdfLabel: the length as uint16, the label after "tls13 ", the context (RFC 8446 section 7.1)
//! abbrev pub hkdf_label : (label context : List ℕ) → (len : ℕ) → List ℕ
//! hkdf_label label context len = to_be_bytes w16 len ++ vector_8 (codes "tls13 " ++ label) ++ vector_8 context
//! ```
//!
//! Definitions: [`vector_8`](crate::specs::hkdf#vector_8).
//!
//! <div id="hkdf_expand_label"></div>
//!
//! ```text
//! -- HKDF-Expand-Label (RFC 8446 section 7.1)
//! abbrev pub hkdf_expand_label : HashFunction → (secret label context : List ℕ) → (len : ℕ) → List ℕ
//! hkdf_expand_label h secret label context len = hkdf_expand h secret (hkdf_label label context len) len
//! ```
//!
//! Definitions: [`HashFunction`](crate::specs::hash#HashFunction), [`hkdf_expand`](crate::specs::hkdf#hkdf_expand),
//! [`hkdf_label`](crate::specs::hkdf#hkdf_label).
//!
//! <div id="derive_secret"></div>
//!
//! ```text
//! -- Derive-Secret, of the Transcript-Hash of the messages (RFC 8446 section 7.1)
//! abbrev pub derive_secret : HashFunction → (secret label transcript_hash : List ℕ) → List ℕ
//! derive_secret h secret label transcript_hash = hkdf_expand_label h secret label transcript_hash h.output_len
//! ```
//!
//! Definitions: [`HashFunction`](crate::specs::hash#HashFunction),
//! [`hkdf_expand_label`](crate::specs::hkdf#hkdf_expand_label).
