// Written by tools/rust from crates/records/specs/Refusals.antt. Don't edit.
//! The reason for each error of sealing and opening a record, and the alert that an error calls for.
//!
//! The definitions of `crates/records/specs/Refusals.antt` of the repository.
//!
//! <div id="alert_of"></div>
//!
//! ```text
//! -- the alert that ends the connection when a record is rejected (sections 4.6.1, 5, 5.1, 5.2, 5.4 and 6.2) or a size limit is (RFC
//! -- 8449 section 4), or none if the peer is not the cause
//! abbrev pub alert_of : RecordError → Option AlertDescription
//! alert_of EncryptedRecordTooShort = Some BadRecordMac
//! alert_of Refused = Some BadRecordMac
//! alert_of EncryptedRecordTooLong = Some RecordOverflow
//! alert_of InnerPlaintextTooLong = Some RecordOverflow
//! alert_of PlaintextTooLong = Some RecordOverflow
//! alert_of UnexpectedRecord = Some UnexpectedMessage
//! alert_of TooMuchEarlyData = Some UnexpectedMessage
//! alert_of UnexpectedType = Some UnexpectedMessage
//! alert_of NoContentType = Some UnexpectedMessage
//! alert_of EmptyContent = Some UnexpectedMessage
//! alert_of AlertLength = Some DecodeError
//! alert_of PeerSizeLimit = Some IllegalParameter
//! alert_of error = None
//! ```
//!
//! <div id="RefusesContent"></div>
//!
//! ```text
//! -- the error is the reason why no record may have n bytes of content and this padding
//! abbrev pub RefusesContent : (size_limit : ℕ) → ContentType → (n padding : ℕ) → RecordError → Type 0
//! RefusesContent size_limit content_type n padding EmptyContent = (n ≡ 0) × (content_type ≢ ApplicationData)
//! RefusesContent size_limit content_type n padding AlertLength = (n ≢ 0) × (n ≢ 2) × (content_type ≡ Alert)
//! RefusesContent size_limit content_type n padding ContentTooLong =
//!     (n ≡ 0 → content_type ≡ ApplicationData) × (content_type ≡ Alert → n ≡ 2) × (size_limit < n + 1 + padding)
//! RefusesContent size_limit content_type n padding error = ⊥
//! ```
//!
//! <div id="RefusesToSeal"></div>
//!
//! ```text
//! -- the error is the reason why a record of n bytes of content and this padding isn't made in a buffer of `room` bytes
//! abbrev pub RefusesToSeal : (size_limit : ℕ) → ContentType → (n padding room : ℕ) → RecordError → Type 0
//! RefusesToSeal size_limit content_type n padding room NoRoom =
//!     IsAllowed size_limit content_type n padding × (room < record_len (n + padding))
//! RefusesToSeal size_limit content_type n padding room error = RefusesContent size_limit content_type n padding error
//! ```
//!
//! Definitions: [`IsAllowed`](crate::specs::record#IsAllowed), [`record_len`](crate::specs::record#record_len),
//! [`RefusesContent`](crate::specs::refusals#RefusesContent).
//!
//! <div id="RefusesToSealNext"></div>
//!
//! ```text
//! -- the error is the reason why a writer doesn't make the next record in such a buffer
//! abbrev pub RefusesToSealNext : WriterState → ContentType → (n padding room : ℕ) → RecordError → Type 0
//! RefusesToSealNext writer content_type n padding room KeyUsedUp = writer.limit ≤ writer.number
//! RefusesToSealNext writer content_type n padding room error =
//!     (writer.number < writer.limit) × RefusesToSeal writer.key.size_limit content_type n padding room error
//! ```
//!
//! Definitions: [`WriterState`](crate::specs::keys#WriterState),
//! [`RefusesToSeal`](crate::specs::refusals#RefusesToSeal).
//!
//! <div id="RefusesToWriteNext"></div>
//!
//! ```text
//! -- the error is the reason why a writer doesn't append the next record to a `Vec` that has room for `spare` bytes more
//! abbrev pub RefusesToWriteNext : WriterState → ContentType → (n padding spare : ℕ) → RecordError → Type 0
//! RefusesToWriteNext writer content_type n padding spare KeyUsedUp = writer.limit ≤ writer.number
//! RefusesToWriteNext writer content_type n padding spare OutOfMemory =
//!     (writer.number < writer.limit) × IsAllowed writer.key.size_limit content_type n padding × (spare < record_len (n + padding))
//! RefusesToWriteNext writer content_type n padding spare error =
//!     (writer.number < writer.limit) × RefusesContent writer.key.size_limit content_type n padding error
//! ```
//!
//! Definitions: [`WriterState`](crate::specs::keys#WriterState), [`IsAllowed`](crate::specs::record#IsAllowed),
//! [`record_len`](crate::specs::record#record_len), [`RefusesContent`](crate::specs::refusals#RefusesContent).
//!
//! <div id="RefusesLen"></div>
//!
//! ```text
//! -- The error is the reason why the length of an encrypted record is rejected. 2^14 + 256 bytes is the limit of section 5.2 for any
//! -- cipher. `size_limit` bounds the inner plaintext, to which the tag is added.
//! abbrev pub RefusesLen : (size_limit len : ℕ) → RecordError → Type 0
//! RefusesLen size_limit len EncryptedRecordTooLong = 2 ^ 14 + 256 < len
//! RefusesLen size_limit len InnerPlaintextTooLong = (size_limit + tag_len < len) × (len ≤ 2 ^ 14 + 256)
//! RefusesLen size_limit len EncryptedRecordTooShort = len < 1 + tag_len
//! RefusesLen size_limit len error = ⊥
//! ```
//!
//! Definitions: [`tag_len`](aead_ciphers::specs::gcm#tag_len).
//!
//! <div id="RefusesHeader"></div>
//!
//! ```text
//! -- the error is the reason why a header is rejected
//! abbrev pub RefusesHeader : (size_limit : ℕ) → List ℕ → RecordError → Type 0
//! RefusesHeader size_limit bytes UnexpectedRecord = take 3 bytes ≢ record_start
//! RefusesHeader size_limit bytes error = (take 3 bytes ≡ record_start) × RefusesLen size_limit (body_len bytes) error
//! ```
//!
//! Definitions: [`record_start`](crate::specs::record#record_start),
//! [`RefusesLen`](crate::specs::refusals#RefusesLen), [`body_len`](crate::specs::record#body_len).
//!
//! <div id="RefusesBytes"></div>
//!
//! ```text
//! -- the error is the reason why these bytes are not one whole record
//! abbrev pub RefusesBytes : (size_limit : ℕ) → List ℕ → RecordError → Type 0
//! RefusesBytes size_limit bytes WrongLength =
//!     (length bytes < header_len)
//!     ⊎ (IsHeader size_limit (take header_len bytes) × (length bytes ≢ header_len + body_len (take header_len bytes)))
//! RefusesBytes size_limit bytes error = (header_len ≤ length bytes) × RefusesHeader size_limit (take header_len bytes) error
//! ```
//!
//! Definitions: [`header_len`](crate::specs::record#header_len), [`IsHeader`](crate::specs::record#IsHeader),
//! [`body_len`](crate::specs::record#body_len), [`RefusesHeader`](crate::specs::refusals#RefusesHeader).
//!
//! <div id="RefusesInner"></div>
//!
//! ```text
//! -- The error is the reason why an inner plaintext is rejected: it has no content type, or one that no protected record has, or an
//! -- empty handshake or alert content, or an alert content that is not one alert (sections 5, 5.1 and 5.4).
//! abbrev pub RefusesInner : List ℕ → RecordError → Type 0
//! RefusesInner inner NoContentType = inner ≡ replicate (length inner) 0
//! RefusesInner inner UnexpectedType =
//!     (content : List ℕ) × (code : ℕ) × (padding : ℕ) × (code ≢ 0) × IsUnknown code × (inner ≡ plaintext content code padding)
//! RefusesInner inner EmptyContent =
//!     (content_type : ContentType) × (padding : ℕ) × (content_type ≢ ApplicationData)
//!     × (inner ≡ plaintext [] (type_code content_type) padding)
//! RefusesInner inner AlertLength = (content : List ℕ) × (padding : ℕ) × (length content ≢ 0) × (length content ≢ 2)
//!     × (inner ≡ plaintext content (type_code Alert) padding)
//! RefusesInner inner error = ⊥
//! ```
//!
//! Definitions: [`IsUnknown`](crate::specs::record#IsUnknown), [`plaintext`](crate::specs::record#plaintext),
//! [`type_code`](crate::specs::record#type_code).
//!
//! <div id="SealsRefused"></div>
//!
//! ```text
//! -- these bytes are an authentic record whose inner plaintext is rejected with this error
//! abbrev pub SealsRefused : KeyState → ℕ → List ℕ → RecordError → Type 0
//! SealsRefused key number bytes error =
//!     IsWhole key.size_limit bytes × (inner : List ℕ) × Seals key number bytes inner × RefusesInner inner error
//! ```
//!
//! Definitions: [`KeyState`](crate::specs::keys#KeyState), [`IsWhole`](crate::specs::record#IsWhole),
//! [`Seals`](crate::specs::record#Seals), [`RefusesInner`](crate::specs::refusals#RefusesInner).
//!
//! <div id="RefusesToOpen"></div>
//!
//! ```text
//! -- The error is the reason why a record does not open: the bytes are not one whole record, or the record is not authentic (section
//! -- 5.2), or its inner plaintext is rejected.
//! abbrev pub RefusesToOpen : KeyState → ℕ → List ℕ → RecordError → Type 0
//! RefusesToOpen key number bytes Refused =
//!     IsWhole key.size_limit bytes × ((message : List ℕ) → ¬ Seals key number bytes message)
//! RefusesToOpen key number bytes NoContentType = SealsRefused key number bytes NoContentType
//! RefusesToOpen key number bytes UnexpectedType = SealsRefused key number bytes UnexpectedType
//! RefusesToOpen key number bytes EmptyContent = SealsRefused key number bytes EmptyContent
//! RefusesToOpen key number bytes AlertLength = SealsRefused key number bytes AlertLength
//! RefusesToOpen key number bytes error = RefusesBytes key.size_limit bytes error
//! ```
//!
//! Definitions: [`KeyState`](crate::specs::keys#KeyState), [`IsWhole`](crate::specs::record#IsWhole),
//! [`Seals`](crate::specs::record#Seals), [`SealsRefused`](crate::specs::refusals#SealsRefused),
//! [`RefusesBytes`](crate::specs::refusals#RefusesBytes).
//!
//! <div id="RefusesToOpenTo"></div>
//!
//! ```text
//! -- the error is the reason why a record does not open to a buffer that has no room for its inner plaintext
//! abbrev pub RefusesToOpenTo : (size_limit : ℕ) → List ℕ → RecordError → Type 0
//! RefusesToOpenTo size_limit bytes NoRoom = IsWhole size_limit bytes
//! RefusesToOpenTo size_limit bytes error = RefusesBytes size_limit bytes error
//! ```
//!
//! Definitions: [`IsWhole`](crate::specs::record#IsWhole), [`RefusesBytes`](crate::specs::refusals#RefusesBytes).
//!
//! <div id="RefusesWriteKey"></div>
//!
//! ```text
//! -- the error is the reason why a writer doesn't continue under this key and this IV
//! abbrev pub RefusesWriteKey : WriterState → (key iv : List ℕ) → RecordError → Type 0
//! RefusesWriteKey writer key iv HasSecret = IsSome writer.secret
//! RefusesWriteKey writer key iv SameKey = IsNone writer.secret × HasKey writer.key key iv
//! RefusesWriteKey writer key iv KeyLength =
//!     IsNone writer.secret × (¬ HasKey writer.key key iv) × (length key ≢ key_len writer.key.algorithm)
//! RefusesWriteKey writer key iv error = ⊥
//! ```
//!
//! Definitions: [`WriterState`](crate::specs::keys#WriterState), [`HasKey`](crate::specs::keys#HasKey),
//! [`key_len`](aead_ciphers::specs::algorithm#key_len).
//!
//! <div id="RefusesReadKey"></div>
//!
//! ```text
//! -- the error is the reason why a reader doesn't continue under this key
//! abbrev pub RefusesReadKey : ReaderState → (key : List ℕ) → RecordError → Type 0
//! RefusesReadKey reader key Closed = IsTrue reader.is_closed
//! RefusesReadKey reader key HasSecret = IsFalse reader.is_closed × IsSome reader.secret
//! RefusesReadKey reader key KeyLength =
//!     IsFalse reader.is_closed × IsNone reader.secret × (length key ≢ key_len reader.key.algorithm)
//! RefusesReadKey reader key error = ⊥
//! ```
//!
//! Definitions: [`ReaderState`](crate::specs::keys#ReaderState),
//! [`key_len`](aead_ciphers::specs::algorithm#key_len).
