// Written by tools/rust from crates/key_derivation/specs/Quic.antt. Don't edit.
//! The keys of QUIC in each version (RFC 9001 sections 5.1, 5.2 and 6.1, RFC 9369 section 3).
//!
//! The definitions of `crates/key_derivation/specs/Quic.antt` of the repository.
//!
//! <div id="version_number"></div>
//!
//! ```text
//! -- the number of a version in a long header (RFC 9000 section 15, RFC 9369 section 3.1)
//! abbrev pub version_number : Version → ℕ
//! version_number One = 1
//! version_number Two = 0x6b3343cf
//! ```
//!
//! <div id="numbered_version"></div>
//!
//! ```text
//! -- the version with a number
//! abbrev pub numbered_version : ℕ → Option Version
//! numbered_version number =
//!     if number == version_number One then Some One else if number == version_number Two then Some Two else None
//! ```
//!
//! Definitions: [`version_number`](crate::specs::quic#version_number).
//!
//! <div id="QuicSecretState"></div>
//!
//! ```text
//! -- a secret of QUIC: the version, which determines the labels, and the traffic secret
//! pub record QuicSecretState : Type 0 where
//!   pub version : Version
//!   pub secret : SecretState
//! ```
//!
//! Definitions: [`SecretState`](crate::specs::secret#SecretState).
//!
//! <div id="key_label"></div>
//!
//! ```text
//! -- the labels of the key, the IV and the header key (RFC 9001 section 5.1, RFC 9369 section 3.3.2)
//! abbrev pub key_label : Version → List ℕ
//! key_label One = codes "quic key"
//! key_label Two = codes "quicv2 key"
//! ```
//!
//! <div id="iv_label"></div>
//!
//! ```text
//! abbrev pub iv_label : Version → List ℕ
//! iv_label One = codes "quic iv"
//! iv_label Two = codes "quicv2 iv"
//! ```
//!
//! <div id="header_key_label"></div>
//!
//! ```text
//! abbrev pub header_key_label : Version → List ℕ
//! header_key_label One = codes "quic hp"
//! header_key_label Two = codes "quicv2 hp"
//! ```
//!
//! <div id="update_label"></div>
//!
//! ```text
//! -- the label of a key update (RFC 9001 section 6.1, RFC 9369 section 3.3.2)
//! abbrev pub update_label : Version → List ℕ
//! update_label One = codes "quic ku"
//! update_label Two = codes "quicv2 ku"
//! ```
//!
//! <div id="quic_key"></div>
//!
//! ```text
//! -- the key, the IV and the header key of a secret (RFC 9001 section 5.1)
//! abbrev pub quic_key : QuicSecretState → List ℕ
//! quic_key s = labeled s.secret (key_label s.version) (suite_key_len s.secret.suite)
//! ```
//!
//! Definitions: [`QuicSecretState`](crate::specs::quic#QuicSecretState), [`labeled`](crate::specs::secret#labeled),
//! [`key_label`](crate::specs::quic#key_label), [`suite_key_len`](crate::specs::secret#suite_key_len).
//!
//! <div id="quic_iv"></div>
//!
//! ```text
//! abbrev pub quic_iv : QuicSecretState → List ℕ
//! quic_iv s = labeled s.secret (iv_label s.version) 12
//! ```
//!
//! Definitions: [`QuicSecretState`](crate::specs::quic#QuicSecretState), [`labeled`](crate::specs::secret#labeled),
//! [`iv_label`](crate::specs::quic#iv_label).
//!
//! <div id="quic_header_key"></div>
//!
//! ```text
//! abbrev pub quic_header_key : QuicSecretState → List ℕ
//! quic_header_key s = labeled s.secret (header_key_label s.version) (suite_key_len s.secret.suite)
//! ```
//!
//! Definitions: [`QuicSecretState`](crate::specs::quic#QuicSecretState), [`labeled`](crate::specs::secret#labeled),
//! [`header_key_label`](crate::specs::quic#header_key_label),
//! [`suite_key_len`](crate::specs::secret#suite_key_len).
//!
//! <div id="next_quic_secret"></div>
//!
//! ```text
//! -- the next secret (RFC 9001 section 6.1)
//! abbrev pub next_quic_secret : QuicSecretState → QuicSecretState
//! next_quic_secret s = record s { secret = next_secret s.secret (update_label s.version) }
//! ```
//!
//! Definitions: [`QuicSecretState`](crate::specs::quic#QuicSecretState),
//! [`next_secret`](crate::specs::secret#next_secret), [`update_label`](crate::specs::quic#update_label).
//!
//! <div id="initial_salt"></div>
//!
//! ```text
//! -- initial_salt (RFC 9001 section 5.2, RFC 9369 section 3.3.1)
//! abbrev pub initial_salt : Version → List ℕ
//! initial_salt One =
//!     0x38 ∷ 0x76 ∷ 0x2c ∷ 0xf7 ∷ 0xf5 ∷ 0x59 ∷ 0x34 ∷ 0xb3 ∷ 0x4d ∷ 0x17 ∷
//!     0x9a ∷ 0xe6 ∷ 0xa4 ∷ 0xc8 ∷ 0x0c ∷ 0xad ∷ 0xcc ∷ 0xbb ∷ 0x7f ∷ 0x0a ∷ []
//! initial_salt Two =
//!     0x0d ∷ 0xed ∷ 0xe3 ∷ 0xde ∷ 0xf7 ∷ 0x00 ∷ 0xa6 ∷ 0xdb ∷ 0x81 ∷ 0x93 ∷
//!     0x81 ∷ 0xbe ∷ 0x6e ∷ 0x26 ∷ 0x9d ∷ 0xcb ∷ 0xf9 ∷ 0xbd ∷ 0x2e ∷ 0xd9 ∷ []
//! ```
//!
//! <div id="initial_secret"></div>
//!
//! ```text
//! -- initial_secret (RFC 9001 section 5.2)
//! abbrev pub initial_secret : Version → (id : List ℕ) → List ℕ
//! initial_secret version id = hkdf_extract sha_256 (initial_salt version) id
//! ```
//!
//! Definitions: [`hkdf_extract`](crate::specs::hkdf#hkdf_extract), [`sha_256`](crate::specs::hash#sha_256),
//! [`initial_salt`](crate::specs::quic#initial_salt).
//!
//! <div id="endpoint_secret"></div>
//!
//! ```text
//! -- client_initial_secret or server_initial_secret, by its label (RFC 9001 section 5.2)
//! abbrev pub endpoint_secret : Version → (id label : List ℕ) → QuicSecretState
//! endpoint_secret version id label = record {
//!   version = version;
//!   secret = record { suite = Aes128Gcm; bytes = hkdf_expand_label sha_256 (initial_secret version id) label [] 32 };
//! }
//! ```
//!
//! Definitions: [`QuicSecretState`](crate::specs::quic#QuicSecretState),
//! [`hkdf_expand_label`](crate::specs::hkdf#hkdf_expand_label), [`sha_256`](crate::specs::hash#sha_256),
//! [`initial_secret`](crate::specs::quic#initial_secret).
//!
//! <div id="client_initial_secret"></div>
//!
//! ```text
//! abbrev pub client_initial_secret : Version → (id : List ℕ) → QuicSecretState
//! client_initial_secret version id = endpoint_secret version id (codes "client in")
//! ```
//!
//! Definitions: [`QuicSecretState`](crate::specs::quic#QuicSecretState),
//! [`endpoint_secret`](crate::specs::quic#endpoint_secret).
//!
//! <div id="server_initial_secret"></div>
//!
//! ```text
//! abbrev pub server_initial_secret : Version → (id : List ℕ) → QuicSecretState
//! server_initial_secret version id = endpoint_secret version id (codes "server in")
//! ```
//!
//! Definitions: [`QuicSecretState`](crate::specs::quic#QuicSecretState),
//! [`endpoint_secret`](crate::specs::quic#endpoint_secret).
