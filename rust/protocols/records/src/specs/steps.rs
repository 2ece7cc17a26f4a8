// Written by tools/rust from crates/records/specs/Steps.antt. Don't edit.
//! The result of opening a record, and one step of a writer and of a reader.
//!
//! The definitions of `crates/records/specs/Steps.antt` of the repository.
//!
//! <div id="Opens"></div>
//!
//! ```text
//! -- opening the record with this number returns its type and its content, or the reason why it does not open
//! pub record Opens (key : KeyState) (number : ℕ) (bytes : List ℕ) (answer : Result (ContentType × List ℕ) RecordError) : Type 0 where
//!   pub accepted : (inner : Inner) → Carries key number bytes inner → IsOk answer
//!   pub content : IfOk answer (λ read. (padding : ℕ)
//!       × Carries key number bytes (record { content_type = read.0; content = read.1; padding = padding }))
//!   pub refused : IfErr answer (RefusesToOpen key number bytes)
//! ```
//!
//! Definitions: [`KeyState`](crate::specs::keys#KeyState), [`Inner`](crate::specs::record#Inner),
//! [`Carries`](crate::specs::record#Carries), [`RefusesToOpen`](crate::specs::refusals#RefusesToOpen).
//!
//! <div id="content_at"></div>
//!
//! ```text
//! -- the content, given its length, in a buffer from `at` on
//! abbrev pub content_at : ℕ → List ℕ → Result (ContentType × ℕ) RecordError → Result (ContentType × List ℕ) RecordError
//! content_at at buffer (Ok (content_type, len)) = Ok (content_type, take len (drop at buffer))
//! content_at at buffer (Err error) = Err error
//! ```
//!
//! <div id="lent_content"></div>
//!
//! ```text
//! -- the content, as a slice
//! abbrev pub lent_content : Result (ContentType × Bor (List ℕ)) RecordError → Result (ContentType × List ℕ) RecordError
//! lent_content (Ok (content_type, content)) = Ok (content_type, content.now)
//! lent_content (Err error) = Err error
//! ```
//!
//! <div id="overwritten"></div>
//!
//! ```text
//! -- the buffer, overwritten by these bytes from `at` on
//! abbrev pub overwritten : List ℕ → ℕ → List ℕ → List ℕ
//! overwritten buffer at bytes = take at buffer ++ bytes ++ drop (at + length bytes) buffer
//! ```
//!
//! <div id="LeavesInner"></div>
//!
//! ```text
//! -- A record of n bytes is opened. Its inner plaintext, which is as long as the record without its header and its tag, is in the
//! -- buffer from `at` on. Every other byte is unchanged.
//! abbrev pub LeavesInner : ℕ → ℕ → List ℕ → List ℕ → ContentType × ℕ → Type 0
//! LeavesInner n at old new (content_type, len) = (padding : ℕ) × (record_len (len + padding) ≡ n)
//!     × (new ≡ overwritten old at (inner_plaintext (record {
//!       content_type = content_type;
//!       content = take len (drop at new);
//!       padding = padding;
//!     })))
//! ```
//!
//! Definitions: [`record_len`](crate::specs::record#record_len), [`overwritten`](crate::specs::steps#overwritten),
//! [`inner_plaintext`](crate::specs::record#inner_plaintext).
//!
//! <div id="LeavesMessage"></div>
//!
//! ```text
//! -- an authentic record whose inner plaintext is rejected: the inner plaintext is in the buffer from `at` on as well
//! abbrev pub LeavesMessage : KeyState → ℕ → List ℕ → ℕ → List ℕ → List ℕ → Type 0
//! LeavesMessage key number bytes at old new =
//!     (message : List ℕ) × Seals key number bytes message × (new ≡ overwritten old at message)
//! ```
//!
//! Definitions: [`KeyState`](crate::specs::keys#KeyState), [`Seals`](crate::specs::record#Seals),
//! [`overwritten`](crate::specs::steps#overwritten).
//!
//! <div id="LeavesRefused"></div>
//!
//! ```text
//! -- a record is rejected: every byte of the buffer is unchanged, unless the record is authentic
//! abbrev pub LeavesRefused : KeyState → ℕ → List ℕ → ℕ → List ℕ → List ℕ → RecordError → Type 0
//! LeavesRefused key number bytes at old new NoContentType = LeavesMessage key number bytes at old new
//! LeavesRefused key number bytes at old new UnexpectedType = LeavesMessage key number bytes at old new
//! LeavesRefused key number bytes at old new EmptyContent = LeavesMessage key number bytes at old new
//! LeavesRefused key number bytes at old new AlertLength = LeavesMessage key number bytes at old new
//! LeavesRefused key number bytes at old new error = new ≡ old
//! ```
//!
//! Definitions: [`KeyState`](crate::specs::keys#KeyState), [`LeavesMessage`](crate::specs::steps#LeavesMessage).
//!
//! <div id="OpensMessage"></div>
//!
//! ```text
//! -- an authentic record is opened: its message, n bytes, is in the buffer from `at` on, and every other byte is unchanged
//! pub record OpensMessage (key : KeyState) (number : ℕ) (bytes : List ℕ) (at : ℕ) (old new : List ℕ) (n : ℕ) : Type 0 where
//!   pub whole : IsWhole key.size_limit bytes
//!   pub len : header_len + n + tag_len ≡ length bytes
//!   pub sealed : Seals key number bytes (take n (drop at new))
//!   pub left : new ≡ overwritten old at (take n (drop at new))
//! ```
//!
//! Definitions: [`KeyState`](crate::specs::keys#KeyState), [`IsWhole`](crate::specs::record#IsWhole),
//! [`header_len`](crate::specs::record#header_len), [`tag_len`](aead_ciphers::specs::gcm#tag_len),
//! [`Seals`](crate::specs::record#Seals), [`overwritten`](crate::specs::steps#overwritten).
//!
//! <div id="Writes"></div>
//!
//! ```text
//! -- a record is written under the next number
//! pub record Writes (was now : WriterState) (inner : Inner) (bytes : List ℕ) : Type 0 where
//!   pub in_limit : was.number < was.limit
//!   pub carries : Carries was.key was.number bytes inner
//!   pub counted : now ≡ record was { number = was.number + 1 }
//! ```
//!
//! Definitions: [`WriterState`](crate::specs::keys#WriterState), [`Inner`](crate::specs::record#Inner),
//! [`Carries`](crate::specs::record#Carries).
//!
//! <div id="after_error"></div>
//!
//! ```text
//! -- a reader after an error: closed if the error calls for an alert, and unchanged otherwise
//! abbrev pub after_error : ReaderState → RecordError → ReaderState
//! after_error was error = record was { is_closed = was.is_closed || is_some (alert_of error) }
//! ```
//!
//! Definitions: [`ReaderState`](crate::specs::keys#ReaderState), [`alert_of`](crate::specs::refusals#alert_of).
//!
//! <div id="Reads"></div>
//!
//! ```text
//! -- One read: a reader that is closed, or has reached its limit, reads nothing. Otherwise it opens the record with the next
//! -- number.
//! pub record Reads (was now : ReaderState) (bytes : List ℕ) (answer : Result (ContentType × List ℕ) RecordError) : Type 0 where
//!   pub closed : IsTrue was.is_closed → IsErrOf answer Closed
//!   pub ended : IsFalse was.is_closed → was.limit ≤ was.number → IsErrOf answer KeyUsedUp
//!   pub opens : IsFalse was.is_closed → was.number < was.limit → Opens was.key was.number bytes answer
//!   pub counted : OnOk answer (now ≡ record was { number = was.number + 1 })
//!   pub stands : IfErr answer (λ error. now ≡ after_error was error)
//! ```
//!
//! Definitions: [`ReaderState`](crate::specs::keys#ReaderState), [`Opens`](crate::specs::steps#Opens),
//! [`after_error`](crate::specs::steps#after_error).
