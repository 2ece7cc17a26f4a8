// Written by tools/rust from crates/tls_messages/specs/Steps.antt. Don't edit.
//! What one call of a reader does, and the alert and the code in QUIC that an error calls for.
//!
//! The definitions of `crates/tls_messages/specs/Steps.antt` of the repository.
//!
//! <div id="alert_of"></div>
//!
//! ```text
//! -- the alert that an error calls for (RFC 8446 sections 4.6.2, 4.6.3, 5.1 and 6.2)
//! abbrev pub alert_of : MessageError → Option AlertDescription
//! alert_of (TooLong len) = Some InternalError
//! alert_of (UnexpectedType type) = Some UnexpectedMessage
//! alert_of KeyUpdateLength = Some DecodeError
//! alert_of KeyUpdateRequest = Some IllegalParameter
//! alert_of DataAfterKeys = Some UnexpectedMessage
//! alert_of Interrupted = Some UnexpectedMessage
//! alert_of Closed = None
//! ```
//!
//! <div id="alert_code"></div>
//!
//! ```text
//! -- the value of an error alert (RFC 8446 section 6)
//! abbrev pub alert_code : AlertDescription → ℕ
//! alert_code UnexpectedMessage = 10
//! alert_code BadRecordMac = 20
//! alert_code RecordOverflow = 22
//! alert_code HandshakeFailure = 40
//! alert_code BadCertificate = 42
//! alert_code UnsupportedCertificate = 43
//! alert_code CertificateRevoked = 44
//! alert_code CertificateExpired = 45
//! alert_code CertificateUnknown = 46
//! alert_code IllegalParameter = 47
//! alert_code UnknownCa = 48
//! alert_code AccessDenied = 49
//! alert_code DecodeError = 50
//! alert_code DecryptError = 51
//! alert_code ProtocolVersion = 70
//! alert_code InsufficientSecurity = 71
//! alert_code InternalError = 80
//! alert_code InappropriateFallback = 86
//! alert_code MissingExtension = 109
//! alert_code UnsupportedExtension = 110
//! alert_code UnrecognizedName = 112
//! alert_code BadCertificateStatusResponse = 113
//! alert_code UnknownPskIdentity = 115
//! alert_code CertificateRequired = 116
//! alert_code NoApplicationProtocol = 120
//! ```
//!
//! <div id="protocol_violation"></div>
//!
//! ```text
//! -- PROTOCOL_VIOLATION (RFC 9000 section 20.1)
//! abbrev pub protocol_violation : ℕ
//! protocol_violation = 10
//! ```
//!
//! <div id="crypto_buffer_exceeded"></div>
//!
//! ```text
//! -- CRYPTO_BUFFER_EXCEEDED (RFC 9000 section 20.1)
//! abbrev pub crypto_buffer_exceeded : ℕ
//! crypto_buffer_exceeded = 13
//! ```
//!
//! <div id="crypto_error"></div>
//!
//! ```text
//! -- CRYPTO_ERROR with the value of an alert (RFC 9001 section 4.8)
//! abbrev pub crypto_error : AlertDescription → ℕ
//! crypto_error alert = 2 ^ 8 + alert_code alert
//! ```
//!
//! Definitions: [`alert_code`](crate::specs::steps#alert_code).
//!
//! <div id="quic_code_of"></div>
//!
//! ```text
//! -- The code that closes a connection of QUIC. Bytes of a message after a change of keys (RFC 9001 section 4.1.3) and a
//! -- CertificateRequest after the handshake, whose type is 13 (section 4.4), are not errors of TLS. A message that is longer than
//! -- the buffer has a code of its own (RFC 9000 section 7.5).
//! abbrev pub quic_code_of : MessageError → Option ℕ
//! quic_code_of (TooLong len) = Some crypto_buffer_exceeded
//! quic_code_of (UnexpectedType type) = Some (cond (type == 13) protocol_violation (crypto_error UnexpectedMessage))
//! quic_code_of KeyUpdateLength = Some (crypto_error DecodeError)
//! quic_code_of KeyUpdateRequest = Some (crypto_error IllegalParameter)
//! quic_code_of DataAfterKeys = Some protocol_violation
//! quic_code_of Interrupted = Some (crypto_error UnexpectedMessage)
//! quic_code_of Closed = None
//! ```
//!
//! Definitions: [`crypto_buffer_exceeded`](crate::specs::steps#crypto_buffer_exceeded),
//! [`protocol_violation`](crate::specs::steps#protocol_violation),
//! [`crypto_error`](crate::specs::steps#crypto_error).
//!
//! <div id="RefusesHeader"></div>
//!
//! ```text
//! -- the error is the reason why the header of a message is rejected
//! abbrev pub RefusesHeader : Stage → (bound : ℕ) → List ℕ → MessageError → Type 0
//! RefusesHeader stage bound start (UnexpectedType type) =
//!     (type ≡ slice_index start 0) × IsFalse (may_come stage (slice_index start 0))
//! RefusesHeader stage bound start KeyUpdateLength =
//!     IsTrue (may_come stage 24) × (slice_index start 0 ≡ 24) × (message_len start ≢ 5)
//! RefusesHeader stage bound start (TooLong len) =
//!     IsTrue (may_come stage (slice_index start 0)) × (slice_index start 0 ≡ 24 → message_len start ≡ 5)
//!     × (len ≡ message_len start) × (bound < len)
//! RefusesHeader stage bound start error = ⊥
//! ```
//!
//! Definitions: [`may_come`](crate::specs::messages#may_come), [`message_len`](crate::specs::messages#message_len).
//!
//! <div id="RefusesMessage"></div>
//!
//! ```text
//! -- the error is the reason why a whole message is rejected, which `rest` follows in its record
//! abbrev pub RefusesMessage : (message rest : List ℕ) → MessageError → Type 0
//! RefusesMessage message rest KeyUpdateRequest = (slice_index message 0 ≡ 24) × (1 < slice_index message 4)
//! RefusesMessage message rest DataAfterKeys =
//!     (slice_index message 0 ≡ 24 → slice_index message 4 ≤ 1) × ChangesKeys message × (rest ≢ [])
//! RefusesMessage message rest error = ⊥
//! ```
//!
//! Definitions: [`ChangesKeys`](crate::specs::messages#ChangesKeys).
//!
//! <div id="Refuses"></div>
//!
//! ```text
//! -- The error is the reason why a reader rejects a content. `kept` is the part that the reader had and what it has taken of the
//! -- content, and `rest` is the rest of the content. The reason is a whole message that may come, or a header, for which the reader
//! -- takes nothing beyond the 4 bytes of the header.
//! abbrev pub Refuses : Stage → (bound : ℕ) → (part kept rest : List ℕ) → MessageError → Type 0
//! Refuses stage bound part kept rest KeyUpdateRequest =
//!     IsMessage kept × IsExpected stage bound kept × RefusesMessage kept rest KeyUpdateRequest
//! Refuses stage bound part kept rest DataAfterKeys =
//!     IsMessage kept × IsExpected stage bound kept × RefusesMessage kept rest DataAfterKeys
//! Refuses stage bound part kept rest error = (length kept ≡ max 4 (length part)) × RefusesHeader stage bound kept error
//! ```
//!
//! Definitions: [`IsMessage`](crate::specs::messages#IsMessage), [`IsExpected`](crate::specs::messages#IsExpected),
//! [`RefusesMessage`](crate::specs::steps#RefusesMessage), [`RefusesHeader`](crate::specs::steps#RefusesHeader).
//!
//! <div id="KeepsRules"></div>
//!
//! ```text
//! -- the most bytes that a message may have, and which messages may come, stay the same
//! abbrev pub KeepsRules : Joining → Joining → Type 0
//! KeepsRules was now = (now.bound ≡ was.bound) × (now.stage ≡ was.stage)
//! ```
//!
//! Definitions: [`Joining`](crate::specs::messages#Joining).
//!
//! <div id="Leaves"></div>
//!
//! ```text
//! -- What a call leaves in a reader: no part after a message, and at the end of the content the part of a message that the content
//! -- ends in.
//! abbrev pub Leaves : Joining → (content : List ℕ) → Result (Option (Bor (List ℕ))) MessageError → (rest : List ℕ) → Joining
//!     → Type 0
//! Leaves was content (Ok (Some message)) rest now =
//!     KeepsRules was now × IsFalse now.is_closed × (now.part ≡ [])
//! Leaves was content (Ok None) rest now =
//!     KeepsRules was now × IsFalse now.is_closed × (now.part ≡ part_of (was.part ++ content))
//! Leaves was content (Err Closed) rest now = IsTrue was.is_closed × (now ≡ was) × (rest ≡ content)
//! Leaves was content (Err error) rest now = KeepsRules was now × IsTrue now.is_closed
//!     × Refuses was.stage was.bound was.part now.part rest error × (was.part ++ content ≡ now.part ++ rest)
//! ```
//!
//! Definitions: [`Joining`](crate::specs::messages#Joining), [`KeepsRules`](crate::specs::steps#KeepsRules),
//! [`part_of`](crate::specs::messages#part_of), [`Refuses`](crate::specs::steps#Refuses).
