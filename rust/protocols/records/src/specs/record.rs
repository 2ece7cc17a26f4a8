// Written by tools/rust from crates/records/specs/Record.antt. Don't edit.
//! Protected records: the header, the inner plaintext, and how it is sealed (RFC 8446 sections 5.1 to 5.4).
//!
//! The definitions of `crates/records/specs/Record.antt` of the repository.
//!
//! <div id="type_code"></div>
//!
//! ```text
//! -- the value of a content type (section 5.1)
//! abbrev pub type_code : ContentType → ℕ
//! type_code Alert = 21
//! type_code Handshake = 22
//! type_code ApplicationData = 23
//! ```
//!
//! <div id="IsUnknown"></div>
//!
//! ```text
//! -- no content type has this value
//! abbrev pub IsUnknown : ℕ → Type 0
//! IsUnknown code = (content_type : ContentType) → type_code content_type ≢ code
//! ```
//!
//! Definitions: [`type_code`](crate::specs::record#type_code).
//!
//! <div id="Inner"></div>
//!
//! ```text
//! -- the contents of a record: a content, its type, and the number of zeros that pad it
//! pub record Inner : Type 0 where
//!   pub content_type : ContentType
//!   pub content : List ℕ
//!   pub padding : ℕ
//! ```
//!
//! <div id="plaintext"></div>
//!
//! ```text
//! -- TLSInnerPlaintext: the content, the value of its type, the padding (section 5.2)
//! abbrev pub plaintext : List ℕ → (code padding : ℕ) → List ℕ
//! plaintext content code padding = content ++ code ∷ replicate padding 0
//! ```
//!
//! <div id="inner_plaintext"></div>
//!
//! ```text
//! abbrev pub inner_plaintext : Inner → List ℕ
//! inner_plaintext i = plaintext i.content (type_code i.content_type) i.padding
//! ```
//!
//! Definitions: [`Inner`](crate::specs::record#Inner), [`plaintext`](crate::specs::record#plaintext),
//! [`type_code`](crate::specs::record#type_code).
//!
//! <div id="IsAllowed"></div>
//!
//! ```text
//! -- n bytes of content and their padding may be sent: no handshake or alert content is empty (section 5.4), an alert record is
//! -- one alert, of 2 bytes (sections 5.1 and 6), and the inner plaintext, with its type and padding, has at most `size_limit` bytes
//! -- (RFC 8449 section 4)
//! pub record IsAllowed (size_limit : ℕ) (content_type : ContentType) (n padding : ℕ) : Type 0 where
//!   pub nonempty : n ≡ 0 → content_type ≡ ApplicationData
//!   pub alert : content_type ≡ Alert → n ≡ 2
//!   pub fits : n + 1 + padding ≤ size_limit
//! ```
//!
//! <div id="header_len"></div>
//!
//! ```text
//! -- the length of a header: a type, a version of 2 bytes and a length of 2 (sections 5.1 and 5.2)
//! abbrev pub header_len : ℕ
//! header_len = 5
//! ```
//!
//! <div id="encrypted_len"></div>
//!
//! ```text
//! -- the length of encrypted_record, if content and padding have n bytes together: these, the content type and the tag (section 5.2)
//! abbrev pub encrypted_len : ℕ → ℕ
//! encrypted_len n = n + 1 + tag_len
//! ```
//!
//! Definitions: [`tag_len`](aead_ciphers::specs::gcm#tag_len).
//!
//! <div id="record_len"></div>
//!
//! ```text
//! -- the length of a record whose content and padding have n bytes together: the header, these, the content type and the tag
//! -- (section 5.2)
//! abbrev pub record_len : ℕ → ℕ
//! record_len n = header_len + encrypted_len n
//! ```
//!
//! Definitions: [`header_len`](crate::specs::record#header_len),
//! [`encrypted_len`](crate::specs::record#encrypted_len).
//!
//! <div id="record_start"></div>
//!
//! ```text
//! -- application_data, and legacy_record_version 0x0303 (section 5.2)
//! abbrev pub record_start : List ℕ
//! record_start = 23 ∷ 3 ∷ 3 ∷ []
//! ```
//!
//! <div id="header"></div>
//!
//! ```text
//! -- the header of n bytes of encrypted_record (section 5.2)
//! abbrev pub header : ℕ → List ℕ
//! header n = record_start ++ to_be_bytes w16 n
//! ```
//!
//! Definitions: [`record_start`](crate::specs::record#record_start).
//!
//! <div id="body_len"></div>
//!
//! ```text
//! -- the length that a header announces (sections 5.1 and 5.2)
//! abbrev pub body_len : List ℕ → ℕ
//! body_len bytes = from_be_bytes w16 (drop 3 bytes)
//! ```
//!
//! <div id="record_at"></div>
//!
//! ```text
//! -- TLSCiphertext: the header, which announces the length of the inner plaintext and its tag, and the inner plaintext sealed with
//! -- the header as AAD under the nonce of the record's number (sections 5.2 and 5.3)
//! abbrev pub record_at : KeyState → ℕ → Inner → List ℕ
//! record_at key number i =
//!     let aad = header (length (inner_plaintext i) + tag_len) in
//!     aad ++ gcm_sealed (aes key.bytes) (xored_nonce key.iv number) aad (inner_plaintext i)
//! ```
//!
//! Definitions: [`KeyState`](crate::specs::keys#KeyState), [`Inner`](crate::specs::record#Inner),
//! [`header`](crate::specs::record#header), [`inner_plaintext`](crate::specs::record#inner_plaintext),
//! [`tag_len`](aead_ciphers::specs::gcm#tag_len), [`gcm_sealed`](aead_ciphers::specs::gcm#gcm_sealed),
//! [`aes`](aead_ciphers_base::specs::aes#aes), [`xored_nonce`](aead_ciphers::specs::counting#xored_nonce).
//!
//! <div id="IsWhole"></div>
//!
//! ```text
//! -- one whole record: its header announces the length of the bytes after it
//! pub record IsWhole (size_limit : ℕ) (bytes : List ℕ) : Type 0 where
//!   pub start : take header_len bytes ≡ header (length bytes - header_len)
//!   pub shortest : header_len + 1 + tag_len ≤ length bytes
//!   pub longest : length bytes ≤ header_len + size_limit + tag_len
//! ```
//!
//! Definitions: [`header_len`](crate::specs::record#header_len), [`header`](crate::specs::record#header),
//! [`tag_len`](aead_ciphers::specs::gcm#tag_len).
//!
//! <div id="IsHeader"></div>
//!
//! ```text
//! -- the header of an acceptable record: at least a content type and a tag follow it, and at most an inner plaintext of
//! -- `size_limit` bytes and a tag (sections 5.2 and 5.4, RFC 8449 section 4)
//! pub record IsHeader (size_limit : ℕ) (bytes : List ℕ) : Type 0 where
//!   pub start : take 3 bytes ≡ record_start
//!   pub shortest : 1 + tag_len ≤ body_len bytes
//!   pub longest : body_len bytes ≤ size_limit + tag_len
//! ```
//!
//! Definitions: [`record_start`](crate::specs::record#record_start), [`tag_len`](aead_ciphers::specs::gcm#tag_len),
//! [`body_len`](crate::specs::record#body_len).
//!
//! <div id="Carries"></div>
//!
//! ```text
//! -- these bytes are the record with this number and this content, type and padding
//! pub record Carries (key : KeyState) (number : ℕ) (bytes : List ℕ) (inner : Inner) : Type 0 where
//!   pub allowed : IsAllowed key.size_limit inner.content_type (length inner.content) inner.padding
//!   pub made : bytes ≡ record_at key number inner
//! ```
//!
//! Definitions: [`KeyState`](crate::specs::keys#KeyState), [`Inner`](crate::specs::record#Inner),
//! [`IsAllowed`](crate::specs::record#IsAllowed), [`record_at`](crate::specs::record#record_at).
//!
//! <div id="Seals"></div>
//!
//! ```text
//! -- the bytes are a header, and a message sealed with it as AAD under the nonce of the number
//! abbrev pub Seals : KeyState → ℕ → List ℕ → List ℕ → Type 0
//! Seals key number bytes message =
//!     bytes ≡ take header_len bytes ++ gcm_sealed (aes key.bytes) (xored_nonce key.iv number) (take header_len bytes) message
//! ```
//!
//! Definitions: [`KeyState`](crate::specs::keys#KeyState), [`header_len`](crate::specs::record#header_len),
//! [`gcm_sealed`](aead_ciphers::specs::gcm#gcm_sealed), [`aes`](aead_ciphers_base::specs::aes#aes),
//! [`xored_nonce`](aead_ciphers::specs::counting#xored_nonce).
