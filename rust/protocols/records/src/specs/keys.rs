// Written by tools/rust from crates/records/specs/Keys.antt. Don't edit.
//! What contracts see of keys, writers and readers, and how a key update changes them.
//!
//! The definitions of `crates/records/specs/Keys.antt` of the repository.
//!
//! <div id="KeyState"></div>
//!
//! ```text
//! -- a key: its algorithm, its bytes, its IV, and the most bytes that an inner plaintext may have (RFC 8449 section 4)
//! pub record KeyState : Type 0 where
//!   pub algorithm : Algorithm
//!   pub bytes : List ℕ
//!   pub iv : List ℕ
//!   pub size_limit : ℕ
//! ```
//!
//! <div id="key_state"></div>
//!
//! ```text
//! -- the state of a key with these fields
//! abbrev pub key_state : Inside → KeyState
//! key_state key = record { algorithm = key.key.algorithm; bytes = key.key.bytes; iv = key.iv; size_limit = key.size_limit }
//! ```
//!
//! Definitions: [`KeyState`](crate::specs::keys#KeyState).
//!
//! <div id="WriterState"></div>
//!
//! ```text
//! -- a writer: its key, the traffic secret of the key, unless the caller gave the key, the number of the next record, and the number
//! -- at which the writer's limit is reached
//! pub record WriterState : Type 0 where
//!   pub key : KeyState
//!   pub secret : Option SecretState
//!   pub number : ℕ
//!   pub limit : ℕ
//! ```
//!
//! Definitions: [`KeyState`](crate::specs::keys#KeyState),
//! [`SecretState`](key_derivation::specs::secret#SecretState).
//!
//! <div id="ReaderState"></div>
//!
//! ```text
//! -- a reader: its key, secret, number and limit, as of a writer, and whether it is closed
//! pub record ReaderState : Type 0 where
//!   pub key : KeyState
//!   pub secret : Option SecretState
//!   pub number : ℕ
//!   pub limit : ℕ
//!   pub is_closed : Bool
//! ```
//!
//! Definitions: [`KeyState`](crate::specs::keys#KeyState),
//! [`SecretState`](key_derivation::specs::secret#SecretState).
//!
//! <div id="new_key"></div>
//!
//! ```text
//! -- a key whose size limit is 2^14 + 1 bytes, that of RFC 8446 section 5.4
//! abbrev pub new_key : Algorithm → (bytes iv : List ℕ) → KeyState
//! new_key algorithm bytes iv = record { algorithm = algorithm; bytes = bytes; iv = iv; size_limit = 2 ^ 14 + 1 }
//! ```
//!
//! Definitions: [`KeyState`](crate::specs::keys#KeyState).
//!
//! <div id="rekeyed"></div>
//!
//! ```text
//! -- the next key of the same direction (RFC 8446 section 7.2): other bytes and another IV
//! abbrev pub rekeyed : KeyState → (bytes iv : List ℕ) → KeyState
//! rekeyed key bytes iv = record key { bytes = bytes; iv = iv }
//! ```
//!
//! Definitions: [`KeyState`](crate::specs::keys#KeyState).
//!
//! <div id="HasKey"></div>
//!
//! ```text
//! -- a key has these bytes and this IV
//! abbrev pub HasKey : KeyState → (bytes iv : List ℕ) → Type 0
//! HasKey key bytes iv = (bytes ≡ key.bytes) × (iv ≡ key.iv)
//! ```
//!
//! Definitions: [`KeyState`](crate::specs::keys#KeyState).
//!
//! <div id="suite_algorithm"></div>
//!
//! ```text
//! -- the AEAD algorithm of a cipher suite (RFC 8446 section B.4)
//! abbrev pub suite_algorithm : Suite → Algorithm
//! suite_algorithm Aes128Gcm = record { id = AES_128_GCM }
//! suite_algorithm Aes256Gcm = record { id = AES_256_GCM }
//! ```
//!
//! <div id="secret_key"></div>
//!
//! ```text
//! -- the key of a traffic secret (RFC 8446 section 7.3)
//! abbrev pub secret_key : SecretState → KeyState
//! secret_key s = new_key (suite_algorithm s.suite) (record_key s) (record_iv s)
//! ```
//!
//! Definitions: [`SecretState`](key_derivation::specs::secret#SecretState),
//! [`KeyState`](crate::specs::keys#KeyState), [`new_key`](crate::specs::keys#new_key),
//! [`suite_algorithm`](crate::specs::keys#suite_algorithm), [`record_key`](key_derivation::specs::tls#record_key),
//! [`record_iv`](key_derivation::specs::tls#record_iv).
//!
//! <div id="IsKeyOf"></div>
//!
//! ```text
//! -- the key is that of this traffic secret
//! pub record IsKeyOf (s : SecretState) (key : KeyState) : Type 0 where
//!   pub algorithm : key.algorithm ≡ suite_algorithm s.suite
//!   pub bytes : key.bytes ≡ record_key s
//!   pub iv : key.iv ≡ record_iv s
//! ```
//!
//! Definitions: [`SecretState`](key_derivation::specs::secret#SecretState),
//! [`KeyState`](crate::specs::keys#KeyState), [`suite_algorithm`](crate::specs::keys#suite_algorithm),
//! [`record_key`](key_derivation::specs::tls#record_key), [`record_iv`](key_derivation::specs::tls#record_iv).
//!
//! <div id="Holds"></div>
//!
//! ```text
//! -- a writer or reader that holds `secret` and `key` holds this traffic secret and its key
//! pub record Holds (s : SecretState) (secret : Option SecretState) (key : KeyState) : Type 0 where
//!   pub secret_is : secret ≡ Some s
//!   pub key_is : IsKeyOf s key
//! ```
//!
//! Definitions: [`SecretState`](key_derivation::specs::secret#SecretState),
//! [`KeyState`](crate::specs::keys#KeyState), [`IsKeyOf`](crate::specs::keys#IsKeyOf).
//!
//! <div id="IsOfSecret"></div>
//!
//! ```text
//! -- a writer or reader that holds `secret` and `key` holds a traffic secret, and the key is that of the secret
//! pub record IsOfSecret (secret : Option SecretState) (key : KeyState) : Type 0 where
//!   pub held : IsSome secret
//!   pub key_is : IfSome secret (λ s. IsKeyOf s key)
//! ```
//!
//! Definitions: [`SecretState`](key_derivation::specs::secret#SecretState),
//! [`KeyState`](crate::specs::keys#KeyState), [`IsKeyOf`](crate::specs::keys#IsKeyOf).
//!
//! <div id="writer_of"></div>
//!
//! ```text
//! -- the writer of a traffic secret, before its first record
//! abbrev pub writer_of : SecretState → WriterState
//! writer_of s = record { key = secret_key s; secret = Some s; number = 0; limit = 2 ^ 24 }
//! ```
//!
//! Definitions: [`SecretState`](key_derivation::specs::secret#SecretState),
//! [`WriterState`](crate::specs::keys#WriterState), [`secret_key`](crate::specs::keys#secret_key).
//!
//! <div id="reader_of"></div>
//!
//! ```text
//! -- the reader of a traffic secret, before its first record
//! abbrev pub reader_of : SecretState → ReaderState
//! reader_of s = record { key = secret_key s; secret = Some s; number = 0; limit = 2 ^ 64 - 1; is_closed = false }
//! ```
//!
//! Definitions: [`SecretState`](key_derivation::specs::secret#SecretState),
//! [`ReaderState`](crate::specs::keys#ReaderState), [`secret_key`](crate::specs::keys#secret_key).
//!
//! <div id="next_of"></div>
//!
//! ```text
//! -- the traffic secret after a key update, if there is one (RFC 8446 section 7.2)
//! abbrev pub next_of : Option SecretState → Option SecretState
//! next_of None = None
//! next_of (Some s) = Some (next_traffic_secret s)
//! ```
//!
//! Definitions: [`SecretState`](key_derivation::specs::secret#SecretState),
//! [`next_traffic_secret`](key_derivation::specs::tls#next_traffic_secret).
//!
//! <div id="nth_secret"></div>
//!
//! ```text
//! -- the traffic secret after n key updates
//! abbrev pub nth_secret : SecretState → ℕ → SecretState
//! nth_secret s zero = s
//! nth_secret s (suc n) = nth_secret (next_traffic_secret s) n
//! ```
//!
//! Definitions: [`SecretState`](key_derivation::specs::secret#SecretState),
//! [`next_traffic_secret`](key_derivation::specs::tls#next_traffic_secret).
//!
//! <div id="writer_under"></div>
//!
//! ```text
//! -- the writer after it continues under this traffic secret, if there is one
//! abbrev pub writer_under : Option SecretState → WriterState → WriterState
//! writer_under None w = w
//! writer_under (Some s) w = record w { key = rekeyed w.key (record_key s) (record_iv s); secret = Some s; number = 0 }
//! ```
//!
//! Definitions: [`SecretState`](key_derivation::specs::secret#SecretState),
//! [`WriterState`](crate::specs::keys#WriterState), [`rekeyed`](crate::specs::keys#rekeyed),
//! [`record_key`](key_derivation::specs::tls#record_key), [`record_iv`](key_derivation::specs::tls#record_iv).
//!
//! <div id="reader_under"></div>
//!
//! ```text
//! -- the reader after it continues under this traffic secret, if there is one
//! abbrev pub reader_under : Option SecretState → ReaderState → ReaderState
//! reader_under None r = r
//! reader_under (Some s) r = record r { key = rekeyed r.key (record_key s) (record_iv s); secret = Some s; number = 0 }
//! ```
//!
//! Definitions: [`SecretState`](key_derivation::specs::secret#SecretState),
//! [`ReaderState`](crate::specs::keys#ReaderState), [`rekeyed`](crate::specs::keys#rekeyed),
//! [`record_key`](key_derivation::specs::tls#record_key), [`record_iv`](key_derivation::specs::tls#record_iv).
//!
//! <div id="next_writer"></div>
//!
//! ```text
//! -- the writer after a key update
//! abbrev pub next_writer : WriterState → WriterState
//! next_writer w = writer_under (next_of w.secret) w
//! ```
//!
//! Definitions: [`WriterState`](crate::specs::keys#WriterState), [`writer_under`](crate::specs::keys#writer_under),
//! [`next_of`](crate::specs::keys#next_of).
//!
//! <div id="next_reader"></div>
//!
//! ```text
//! -- the reader after a key update
//! abbrev pub next_reader : ReaderState → ReaderState
//! next_reader r = reader_under (next_of r.secret) r
//! ```
//!
//! Definitions: [`ReaderState`](crate::specs::keys#ReaderState), [`reader_under`](crate::specs::keys#reader_under),
//! [`next_of`](crate::specs::keys#next_of).
