// Written by tools/rust from crates/records/specs/Handling.antt. Don't edit.
//! What an end does with the messages after the handshake (RFC 8446 sections 4.6 and 7.2), and why it rejects what a record
//! carries.
//!
//! The definitions of `crates/records/specs/Handling.antt` of the repository.
//!
//! <div id="received_alert"></div>
//!
//! ```text
//! -- the alert that an error calls for, or none if the peer has ended the connection (sections 6.1 and 6.2)
//! abbrev pub received_alert : ReceiveError → Option AlertDescription
//! received_alert (Record error) = record_alert error
//! received_alert (Message error) = message_alert error
//! received_alert (Alert number) = None
//! received_alert TooManyKeyUpdates = Some UnexpectedMessage
//! received_alert OutOfMemory = Some InternalError
//! received_alert Ended = None
//! ```
//!
//! Definitions: [`record_alert` (`alert_of`)](crate::specs::refusals#alert_of),
//! [`message_alert` (`alert_of`)](tls_messages::specs::steps#alert_of).
//!
//! <div id="Handled"></div>
//!
//! ```text
//! -- what a message changes: the reader with its key, whether a KeyUpdate is owed, the number of KeyUpdates since there was data,
//! -- and the messages that are handed over; and the largest number of KeyUpdates, which stays the same
//! pub record Handled : Type 0 where
//!   pub reader : ReaderState
//!   pub owes_update : Bool
//!   pub updates : ℕ
//!   pub update_bound : ℕ
//!   pub messages : List (List ℕ)
//! ```
//!
//! Definitions: [`ReaderState`](crate::specs::keys#ReaderState).
//!
//! <div id="is_key_update"></div>
//!
//! ```text
//! -- whether a message is a KeyUpdate (section 4.6.3)
//! abbrev pub is_key_update : List ℕ → Bool
//! is_key_update message = slice_index message 0 == 24
//! ```
//!
//! <div id="after_message"></div>
//!
//! ```text
//! -- The state after a message. After a KeyUpdate, the reader continues under the next traffic secret (section 7.2), and a KeyUpdate
//! -- is owed if its byte is 1 (section 4.6.3). A message of another type is handed over.
//! abbrev pub after_message : Handled → List ℕ → Handled
//! after_message was message = cond (is_key_update message)
//!     (record {
//!       reader = next_reader was.reader;
//!       owes_update = was.owes_update || slice_index message 4 == 1;
//!       updates = was.updates + 1;
//!       update_bound = was.update_bound;
//!       messages = was.messages;
//!     })
//!     (record was { messages = was.messages ++ message ∷ [] })
//! ```
//!
//! Definitions: [`Handled`](crate::specs::handling#Handled),
//! [`is_key_update`](crate::specs::handling#is_key_update), [`next_reader`](crate::specs::keys#next_reader).
//!
//! <div id="MayHandle"></div>
//!
//! ```text
//! -- a message may be handled: if it is a KeyUpdate, no more KeyUpdates come in a row than the bound
//! abbrev pub MayHandle : Handled → List ℕ → Type 0
//! MayHandle was message = IsTrue (is_key_update message) → was.updates < was.update_bound
//! ```
//!
//! Definitions: [`Handled`](crate::specs::handling#Handled),
//! [`is_key_update`](crate::specs::handling#is_key_update).
//!
//! <div id="RefusesToHandle"></div>
//!
//! ```text
//! -- the error is the reason why a message is not handled: there is no memory to hand it over, or it is one KeyUpdate too many
//! abbrev pub RefusesToHandle : Handled → List ℕ → ReceiveError → Type 0
//! RefusesToHandle was message OutOfMemory = IsFalse (is_key_update message)
//! RefusesToHandle was message TooManyKeyUpdates = IsTrue (is_key_update message) × (was.update_bound ≤ was.updates)
//! RefusesToHandle was message error = ⊥
//! ```
//!
//! Definitions: [`Handled`](crate::specs::handling#Handled),
//! [`is_key_update`](crate::specs::handling#is_key_update).
//!
//! <div id="Takes"></div>
//!
//! ```text
//! -- these bytes begin with a message that may come at this stage, and `later` follows it in its record
//! pub record Takes (stage : Stage) (bound : ℕ) (bytes message later : List ℕ) : Type 0 where
//!   pub joined : bytes ≡ message ++ later
//!   pub whole : IsMessage message
//!   pub expected : IsExpected stage bound message
//!   pub taken : IsTaken message later
//! ```
//!
//! Definitions: [`IsMessage`](tls_messages::specs::messages#IsMessage),
//! [`IsExpected`](tls_messages::specs::messages#IsExpected), [`IsTaken`](tls_messages::specs::messages#IsTaken).
//!
//! <div id="Handles"></div>
//!
//! ```text
//! -- The first messages of a record are handled, in order. The records before it ended in `part` of a message, and this record has
//! -- this content. Afterwards `left` is the part of a message that is left, and `rest` is the rest of the content.
//! pub data Handles (stage : Stage) (bound : ℕ) (part content : List ℕ) (first : Handled) : (left rest : List ℕ) → Handled → Type 0 where
//!   none_handled : Handles stage bound part content first part content first
//!   one_handled : (left rest message later : List ℕ) (was : Handled) → Handles stage bound part content first left rest was
//!       → Takes stage bound (left ++ rest) message later → MayHandle was message
//!       → Handles stage bound part content first [] later (after_message was message)
//! ```
//!
//! Definitions: [`Handled`](crate::specs::handling#Handled), [`Takes`](crate::specs::handling#Takes),
//! [`MayHandle`](crate::specs::handling#MayHandle), [`after_message`](crate::specs::handling#after_message).
//!
//! <div id="HandlesAll"></div>
//!
//! ```text
//! -- all messages of a record are handled, and `kept` is the part of a message that the record ends in
//! pub record HandlesAll (stage : Stage) (bound : ℕ) (part content : List ℕ) (first : Handled) (kept : List ℕ) (now : Handled) : Type 0 where
//!   pub left : List ℕ
//!   pub rest : List ℕ
//!   pub handles : Handles stage bound part content first left rest now
//!   pub joined : kept ≡ left ++ rest
//!   pub is_part : IsPart kept
//!   pub begins : Begins stage bound kept
//! ```
//!
//! Definitions: [`Handled`](crate::specs::handling#Handled), [`Handles`](crate::specs::handling#Handles),
//! [`IsPart`](tls_messages::specs::messages#IsPart), [`Begins`](tls_messages::specs::messages#Begins).
//!
//! <div id="RejectsMessage"></div>
//!
//! ```text
//! -- after the first messages of a record are handled, the bytes that follow them are rejected
//! pub record RejectsMessage (stage : Stage) (bound : ℕ) (part content : List ℕ) (first : Handled) (error : MessageError) (kept : List ℕ)
//!     (now : Handled) : Type 0 where
//!   pub left : List ℕ
//!   pub rest : List ℕ
//!   pub later : List ℕ
//!   pub handles : Handles stage bound part content first left rest now
//!   pub joined : left ++ rest ≡ kept ++ later
//!   pub refused : Refuses stage bound left kept later error
//! ```
//!
//! Definitions: [`Handled`](crate::specs::handling#Handled), [`Handles`](crate::specs::handling#Handles),
//! [`Refuses`](tls_messages::specs::steps#Refuses).
//!
//! <div id="FailsToHandle"></div>
//!
//! ```text
//! -- after the first messages of a record are handled, the next message is not handled
//! pub record FailsToHandle (stage : Stage) (bound : ℕ) (part content : List ℕ) (first : Handled) (error : ReceiveError)
//!     (now : Handled) : Type 0 where
//!   pub left : List ℕ
//!   pub rest : List ℕ
//!   pub message : List ℕ
//!   pub later : List ℕ
//!   pub handles : Handles stage bound part content first left rest now
//!   pub takes : Takes stage bound (left ++ rest) message later
//!   pub refused : RefusesToHandle now message error
//! ```
//!
//! Definitions: [`Handled`](crate::specs::handling#Handled), [`Handles`](crate::specs::handling#Handles),
//! [`Takes`](crate::specs::handling#Takes), [`RefusesToHandle`](crate::specs::handling#RefusesToHandle).
//!
//! <div id="RejectsMessages"></div>
//!
//! ```text
//! -- the error is the reason why the content of a handshake record is rejected, and `kept` is the part of a message that is kept
//! abbrev pub RejectsMessages : Stage → (bound : ℕ) → (part content : List ℕ) → (first : Handled) → ReceiveError → (kept : List ℕ)
//!     → (now : Handled) → Type 0
//! RejectsMessages stage bound part content first (Message error) kept now =
//!     RejectsMessage stage bound part content first error kept now
//! RejectsMessages stage bound part content first OutOfMemory kept now =
//!     (kept ≡ []) × FailsToHandle stage bound part content first OutOfMemory now
//! RejectsMessages stage bound part content first TooManyKeyUpdates kept now =
//!     (kept ≡ []) × FailsToHandle stage bound part content first TooManyKeyUpdates now
//! RejectsMessages stage bound part content first error kept now = ⊥
//! ```
//!
//! Definitions: [`Handled`](crate::specs::handling#Handled),
//! [`RejectsMessage`](crate::specs::handling#RejectsMessage),
//! [`FailsToHandle`](crate::specs::handling#FailsToHandle).
//!
//! <div id="RejectsAlert"></div>
//!
//! ```text
//! -- The error is the reason why an alert ends the connection. An alert is an error whatever its level (section 6), unless its
//! -- second byte is 0, close_notify, or 90, user_canceled (section 6.1). These two may not come between the parts of a message
//! -- (section 5.1).
//! abbrev pub RejectsAlert : (part alert : List ℕ) → ReceiveError → Type 0
//! RejectsAlert part alert (Alert number) = (number ≡ slice_index alert 1) × (number ≢ 0) × (number ≢ 90)
//! RejectsAlert part alert (Message Interrupted) =
//!     (part ≢ []) × ((slice_index alert 1 ≡ 0) ⊎ (slice_index alert 1 ≡ 90))
//! RejectsAlert part alert error = ⊥
//! ```
//!
//! <div id="RejectsData"></div>
//!
//! ```text
//! -- the error is the reason why application data is rejected: it comes between the parts of a message (section 5.1), or there is no
//! -- room for it after the application data before it
//! abbrev pub RejectsData : (capacity : ℕ) → (part before content : List ℕ) → ReceiveError → Type 0
//! RejectsData capacity part before content (Message Interrupted) = part ≢ []
//! RejectsData capacity part before content OutOfMemory = (part ≡ []) × (capacity < length before + length content)
//! RejectsData capacity part before content error = ⊥
//! ```
