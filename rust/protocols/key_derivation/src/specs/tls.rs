// Written by tools/rust from crates/key_derivation/specs/Tls.antt. Don't edit.
//! The keys of TLS 1.3's records (RFC 8446 sections 7.2 and 7.3).
//!
//! The definitions of `crates/key_derivation/specs/Tls.antt` of the repository.
//!
//! <div id="record_key"></div>
//!
//! ```text
//! -- the key and the IV of a traffic secret (section 7.3)
//! abbrev pub record_key : SecretState → List ℕ
//! record_key s = labeled s (codes "key") (suite_key_len s.suite)
//! ```
//!
//! Definitions: [`SecretState`](crate::specs::secret#SecretState), [`labeled`](crate::specs::secret#labeled),
//! [`suite_key_len`](crate::specs::secret#suite_key_len).
//!
//! <div id="record_iv"></div>
//!
//! ```text
//! abbrev pub record_iv : SecretState → List ℕ
//! record_iv s = labeled s (codes "iv") 12
//! ```
//!
//! Definitions: [`SecretState`](crate::specs::secret#SecretState), [`labeled`](crate::specs::secret#labeled).
//!
//! <div id="next_traffic_secret"></div>
//!
//! ```text
//! -- the next traffic secret (section 7.2)
//! abbrev pub next_traffic_secret : SecretState → SecretState
//! next_traffic_secret s = next_secret s (codes "traffic upd")
//! ```
//!
//! Definitions: [`SecretState`](crate::specs::secret#SecretState),
//! [`next_secret`](crate::specs::secret#next_secret).
