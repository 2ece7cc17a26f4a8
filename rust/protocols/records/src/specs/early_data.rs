// Written by tools/rust from crates/records/specs/EarlyData.antt. Don't edit.
//! How a server passes over early data that it has rejected (RFC 8446 section 4.2.10).
//!
//! The definitions of `crates/records/specs/EarlyData.antt` of the repository.
//!
//! <div id="EarlyDataState"></div>
//!
//! ```text
//! -- rejected early data: how many bytes may still be passed over, and whether the early data is over
//! pub record EarlyDataState : Type 0 where
//!   pub remaining : ℕ
//!   pub is_over : Bool
//! ```
//!
//! <div id="IsEncryptedRecord"></div>
//!
//! ```text
//! -- the bytes are a whole record of any cipher: at most 2^14 + 256 bytes follow its header (section 5.2)
//! abbrev pub IsEncryptedRecord : List ℕ → Type 0
//! IsEncryptedRecord bytes = IsWhole (2 ^ 14 + 256 - tag_len) bytes
//! ```
//!
//! Definitions: [`IsWhole`](crate::specs::record#IsWhole), [`tag_len`](aead_ciphers::specs::gcm#tag_len).
//!
//! <div id="counted_len"></div>
//!
//! ```text
//! -- how many bytes of early data a record counts as: all but its header, a content type and a tag
//! abbrev pub counted_len : List ℕ → ℕ
//! counted_len bytes = length bytes - header_len - (1 + tag_len)
//! ```
//!
//! Definitions: [`header_len`](crate::specs::record#header_len), [`tag_len`](aead_ciphers::specs::gcm#tag_len).
//!
//! <div id="RefusesToSkip"></div>
//!
//! ```text
//! -- the error is the reason why a record is not passed over
//! abbrev pub RefusesToSkip : EarlyDataState → List ℕ → RecordError → Type 0
//! RefusesToSkip early bytes TooMuchEarlyData =
//!     IsEncryptedRecord bytes × (IsTrue early.is_over ⊎ (early.remaining < counted_len bytes))
//! RefusesToSkip early bytes error = RefusesBytes (2 ^ 14 + 256 - tag_len) bytes error
//! ```
//!
//! Definitions: [`EarlyDataState`](crate::specs::early_data#EarlyDataState),
//! [`IsEncryptedRecord`](crate::specs::early_data#IsEncryptedRecord),
//! [`counted_len`](crate::specs::early_data#counted_len), [`RefusesBytes`](crate::specs::refusals#RefusesBytes),
//! [`tag_len`](aead_ciphers::specs::gcm#tag_len).
//!
//! <div id="IsPassedOver"></div>
//!
//! ```text
//! -- A reader passes over this record, if the bound allows it: it is a record of any cipher that isn't authentic under the next
//! -- number, or that is longer than the size limit, which the client did not know when it sent early data.
//! pub record IsPassedOver (reader : ReaderState) (early : EarlyDataState) (bytes : List ℕ) : Type 0 where
//!   pub goes_on : IsFalse early.is_over
//!   pub is_open : IsFalse reader.is_closed
//!   pub has_number : reader.number < reader.limit
//!   pub whole : IsEncryptedRecord bytes
//!   pub fails : (header_len + reader.key.size_limit + tag_len < length bytes)
//!       ⊎ ((message : List ℕ) → ¬ Seals reader.key reader.number bytes message)
//! ```
//!
//! Definitions: [`ReaderState`](crate::specs::keys#ReaderState),
//! [`EarlyDataState`](crate::specs::early_data#EarlyDataState),
//! [`IsEncryptedRecord`](crate::specs::early_data#IsEncryptedRecord),
//! [`header_len`](crate::specs::record#header_len), [`tag_len`](aead_ciphers::specs::gcm#tag_len),
//! [`Seals`](crate::specs::record#Seals).
//!
//! <div id="ReadsPast"></div>
//!
//! ```text
//! -- One read by a server that has rejected early data. `Ok None` is a record that was passed over. The first record that opens ends
//! -- the early data; more than the bound is an error (section 4.6.1), and so is all else that is an error without early data.
//! abbrev pub ReadsPast : (was now : ReaderState) (early later : EarlyDataState) (bytes : List ℕ)
//!     → Result (Option (ContentType × List ℕ)) RecordError → Type 0
//! ReadsPast was now early later bytes (Ok (Some read)) = Reads was now bytes (Ok read) × (later ≡ record early { is_over = true })
//! ReadsPast was now early later bytes (Ok None) = IsPassedOver was early bytes × (counted_len bytes ≤ early.remaining)
//!     × (now ≡ was) × (later ≡ record early { remaining = early.remaining - counted_len bytes })
//! ReadsPast was now early later bytes (Err TooMuchEarlyData) = IsPassedOver was early bytes × (early.remaining < counted_len bytes)
//!     × (now ≡ record was { is_closed = true }) × (later ≡ early)
//! ReadsPast was now early later bytes (Err error) = ¬ IsPassedOver was early bytes × Reads was now bytes (Err error) × (later ≡ early)
//! ```
//!
//! Definitions: [`ReaderState`](crate::specs::keys#ReaderState),
//! [`EarlyDataState`](crate::specs::early_data#EarlyDataState), [`Reads`](crate::specs::steps#Reads),
//! [`IsPassedOver`](crate::specs::early_data#IsPassedOver), [`counted_len`](crate::specs::early_data#counted_len).
//!
//! <div id="past_at"></div>
//!
//! ```text
//! -- the content, given its length, in a buffer from `at` on
//! abbrev pub past_at : ℕ → List ℕ → Result (Option (ContentType × ℕ)) RecordError → Result (Option (ContentType × List ℕ)) RecordError
//! past_at at buffer (Ok (Some (content_type, len))) = Ok (Some (content_type, take len (drop at buffer)))
//! past_at at buffer (Ok None) = Ok None
//! past_at at buffer (Err error) = Err error
//! ```
