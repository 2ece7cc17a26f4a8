// Written by tools/rust from crates/records/specs/Stream.antt. Don't edit.
//! The first record of a stream of bytes (RFC 8446 sections 5, 5.1 and 5.2).
//!
//! The definitions of `crates/records/specs/Stream.antt` of the repository.
//!
//! <div id="IsHeaderOf"></div>
//!
//! ```text
//! -- The header of a record of this kind. The version of a plaintext record is ignored; a handshake record is not empty, and an
//! -- alert record is one alert, of 2 bytes (section 5.1). A ChangeCipherSpec has one byte (section 5).
//! abbrev pub IsHeaderOf : RecordKind → List ℕ → Type 0
//! IsHeaderOf Protected head = IsHeader (2 ^ 14 + 1) head
//! IsHeaderOf Handshake head = (slice_index head 0 ≡ 22) × (0 < body_len head) × (body_len head ≤ 2 ^ 14)
//! IsHeaderOf Alert head = (slice_index head 0 ≡ 21) × (body_len head ≡ 2)
//! IsHeaderOf ChangeCipherSpec head = (slice_index head 0 ≡ 20) × (body_len head ≡ 1)
//! ```
//!
//! Definitions: [`IsHeader`](crate::specs::record#IsHeader), [`body_len`](crate::specs::record#body_len).
//!
//! <div id="IsBodyOf"></div>
//!
//! ```text
//! -- the byte of a ChangeCipherSpec is 1 (section 5)
//! abbrev pub IsBodyOf : RecordKind → List ℕ → Type 0
//! IsBodyOf ChangeCipherSpec bytes = slice_index bytes header_len ≡ 1
//! IsBodyOf kind bytes = Unit {0}
//! ```
//!
//! Definitions: [`header_len`](crate::specs::record#header_len).
//!
//! <div id="BeginsWith"></div>
//!
//! ```text
//! -- the bytes begin with a whole record of n bytes, or with part of one, which needs at least n bytes
//! abbrev pub BeginsWith : List ℕ → Begins → Type 0
//! BeginsWith bytes (Record kind n) =
//!     IsHeaderOf kind (take header_len bytes) × (n ≡ header_len + body_len (take header_len bytes)) × (n ≤ length bytes)
//!     × IsBodyOf kind bytes
//! BeginsWith bytes (MoreNeeded n) = (length bytes < n) × (length bytes < header_len → n ≡ header_len)
//!     × (header_len ≤ length bytes → (kind : RecordKind) × IsHeaderOf kind (take header_len bytes)
//!     × (n ≡ header_len + body_len (take header_len bytes)))
//! ```
//!
//! Definitions: [`IsHeaderOf`](crate::specs::stream#IsHeaderOf), [`header_len`](crate::specs::record#header_len),
//! [`body_len`](crate::specs::record#body_len), [`IsBodyOf`](crate::specs::stream#IsBodyOf).
//!
//! <div id="NeedsMore"></div>
//!
//! ```text
//! -- the bytes begin with less than a whole record
//! unfoldable pub NeedsMore : List ℕ → Type 0
//! NeedsMore bytes = (n : ℕ) × BeginsWith bytes (MoreNeeded n)
//! ```
//!
//! Definitions: [`BeginsWith`](crate::specs::stream#BeginsWith).
//!
//! <div id="BeginsProtected"></div>
//!
//! ```text
//! -- the bytes begin with a whole protected record of n bytes
//! abbrev pub BeginsProtected : List ℕ → (n : ℕ) → Type 0
//! BeginsProtected bytes n = BeginsWith bytes (Record Protected n)
//! ```
//!
//! Definitions: [`BeginsWith`](crate::specs::stream#BeginsWith).
//!
//! <div id="Taken"></div>
//!
//! ```text
//! -- the first bytes of a stream are records, which are received one after another
//! pub data Taken {S : Type 0} (Next : S → List ℕ → S → Type 0) (stream : List ℕ) (first : S) : ℕ → S → Type 0 where
//!   nothing : Taken Next stream first 0 first
//!   one_more : (at end : ℕ) (was now : S) → Taken Next stream first at was → at ≤ end → end ≤ length stream
//!       → Next was (slice_range stream at end) now → Taken Next stream first end now
//! ```
//!
//! <div id="RefusesStart"></div>
//!
//! ```text
//! -- why a header is of no record that a connection has. A record of any type but application data is in plaintext, and its
//! -- content has at most 2^14 bytes (section 5.1)
//! abbrev pub RefusesStart : List ℕ → RecordError → Type 0
//! RefusesStart head UnexpectedRecord = (take 3 head ≢ record_start) × ((slice_index head 0 ≡ 22) → body_len head ≡ 0)
//!     × ¬ IsHeaderOf Alert head × ¬ IsHeaderOf ChangeCipherSpec head
//!     × (slice_index head 0 ≢ 23 → body_len head ≤ 2 ^ 14)
//! RefusesStart head PlaintextTooLong = (slice_index head 0 ≢ 23) × (2 ^ 14 < body_len head)
//! RefusesStart head error = RefusesHeader (2 ^ 14 + 1) head error
//! ```
//!
//! Definitions: [`record_start`](crate::specs::record#record_start), [`body_len`](crate::specs::record#body_len),
//! [`IsHeaderOf`](crate::specs::stream#IsHeaderOf), [`RefusesHeader`](crate::specs::refusals#RefusesHeader).
//!
//! <div id="RefusesToClassify"></div>
//!
//! ```text
//! -- why the bytes begin with no record
//! abbrev pub RefusesToClassify : List ℕ → RecordError → Type 0
//! RefusesToClassify bytes UnexpectedRecord = (header_len ≤ length bytes) × (RefusesStart (take header_len bytes) UnexpectedRecord
//!     ⊎ (IsHeaderOf ChangeCipherSpec (take header_len bytes) × (header_len + 1 ≤ length bytes)
//!     × (slice_index bytes header_len ≢ 1)))
//! RefusesToClassify bytes error = (header_len ≤ length bytes) × RefusesStart (take header_len bytes) error
//! ```
//!
//! Definitions: [`header_len`](crate::specs::record#header_len),
//! [`RefusesStart`](crate::specs::stream#RefusesStart), [`IsHeaderOf`](crate::specs::stream#IsHeaderOf).
//!
//! <div id="RefusesProtected"></div>
//!
//! ```text
//! -- why the bytes begin with no protected record: a connection has no such record, or it is in plaintext
//! abbrev pub RefusesProtected : List ℕ → RecordError → Type 0
//! RefusesProtected bytes error = RefusesToClassify bytes error
//!     ⊎ ((error ≡ UnexpectedRecord) × (kind : RecordKind) × (n : ℕ) × (kind ≢ Protected) × BeginsWith bytes (Record kind n))
//! ```
//!
//! Definitions: [`RefusesToClassify`](crate::specs::stream#RefusesToClassify),
//! [`BeginsWith`](crate::specs::stream#BeginsWith).
