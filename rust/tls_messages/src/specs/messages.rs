// Written by tools/rust from crates/tls_messages/specs/Messages.antt. Don't edit.
//! Handshake messages (RFC 8446 section 4), and how they are joined from the contents of records (section 5.1).
//!
//! The definitions of `crates/tls_messages/specs/Messages.antt` of the repository.
//!
//! <div id="message_len"></div>
//!
//! ```text
//! -- the length of the message that begins with these 4 bytes, which are its type and the length of its body in 3 bytes (section 4)
//! abbrev pub message_len : List ℕ → ℕ
//! message_len start = 4 + (65536 * slice_index start 1 + 256 * slice_index start 2 + slice_index start 3)
//! ```
//!
//! <div id="IsMessage"></div>
//!
//! ```text
//! -- the bytes are one whole message
//! pub record IsMessage (bytes : List ℕ) : Type 0 where
//!   pub header : 4 ≤ length bytes
//!   pub len : length bytes ≡ message_len bytes
//! ```
//!
//! Definitions: [`message_len`](crate::specs::messages#message_len).
//!
//! <div id="IsPart"></div>
//!
//! ```text
//! -- the bytes are the start of a message, and not a whole message
//! abbrev pub IsPart : List ℕ → Type 0
//! IsPart bytes = 4 ≤ length bytes → length bytes < message_len bytes
//! ```
//!
//! Definitions: [`message_len`](crate::specs::messages#message_len).
//!
//! <div id="may_come"></div>
//!
//! ```text
//! -- A message of this type may come at a stage. During the handshake, no KeyUpdate may come (section 4.6.3). After the handshake,
//! -- NewSessionTicket may come from a server, and KeyUpdate from both. With post-handshake authentication, CertificateRequest may
//! -- come from a server, and Certificate, CertificateVerify and Finished from a client (section 4.6.2). In QUIC, there is no
//! -- KeyUpdate (RFC 9001 section 6), no EndOfEarlyData (section 8.3) and no post-handshake authentication (section 4.4).
//! abbrev pub may_come : Stage → ℕ → Bool
//! may_come Handshake type = not (type == 24)
//! may_come Client type = type == 4 || type == 24
//! may_come AuthenticatingClient type = type == 4 || type == 24 || type == 13
//! may_come Server type = type == 24
//! may_come AuthenticatingServer type = type == 24 || type == 11 || type == 15 || type == 20
//! may_come QuicHandshake type = not (type == 24) && not (type == 5)
//! may_come QuicClient type = type == 4
//! may_come QuicServer type = false
//! ```
//!
//! <div id="may_send"></div>
//!
//! ```text
//! -- A message of this type may be sent in a record after the handshake. A server may send NewSessionTicket (section 4.6.1). With
//! -- post-handshake authentication, a server may send CertificateRequest, and a client Certificate, CertificateVerify and Finished
//! -- (section 4.6.2). A KeyUpdate, after which the keys change (section 4.6.3), is sent by itself, and QUIC has no records.
//! abbrev pub may_send : Stage → ℕ → Bool
//! may_send Server type = type == 4
//! may_send AuthenticatingServer type = type == 4 || type == 13
//! may_send AuthenticatingClient type = type == 11 || type == 15 || type == 20
//! may_send stage type = false
//! ```
//!
//! <div id="may_send_all"></div>
//!
//! ```text
//! -- each of these messages may be sent, and no message follows a Finished, which ends its record (section 5.1)
//! abbrev pub may_send_all : Stage → List (List ℕ) → Bool
//! may_send_all stage [] = true
//! may_send_all stage (last ∷ []) = may_send stage (slice_index last 0)
//! may_send_all stage (first ∷ next ∷ later) =
//!     may_send stage (slice_index first 0) && not (slice_index first 0 == 20) && may_send_all stage (next ∷ later)
//! ```
//!
//! Definitions: [`may_send`](crate::specs::messages#may_send).
//!
//! <div id="IsExpected"></div>
//!
//! ```text
//! -- the message that begins with these bytes may come, has a body of one byte if it is a KeyUpdate (section 4.6.3), and is no
//! -- longer than the bound
//! pub record IsExpected (stage : Stage) (bound : ℕ) (bytes : List ℕ) : Type 0 where
//!   pub type : IsTrue (may_come stage (slice_index bytes 0))
//!   pub update : slice_index bytes 0 ≡ 24 → message_len bytes ≡ 5
//!   pub fits : message_len bytes ≤ bound
//! ```
//!
//! Definitions: [`may_come`](crate::specs::messages#may_come), [`message_len`](crate::specs::messages#message_len).
//!
//! <div id="Begins"></div>
//!
//! ```text
//! -- if the bytes have a whole header, it is that of a message that may come
//! abbrev pub Begins : Stage → ℕ → List ℕ → Type 0
//! Begins stage bound bytes = 4 ≤ length bytes → IsExpected stage bound bytes
//! ```
//!
//! Definitions: [`IsExpected`](crate::specs::messages#IsExpected).
//!
//! <div id="Splits"></div>
//!
//! ```text
//! -- a stream is these messages, in order, and after them this part of a message
//! pub record Splits (stream : List ℕ) (messages : List (List ℕ)) (part : List ℕ) : Type 0 where
//!   pub whole : All IsMessage messages
//!   pub rest : IsPart part
//!   pub joined : stream ≡ concat messages ++ part
//! ```
//!
//! Definitions: [`IsMessage`](crate::specs::messages#IsMessage), [`IsPart`](crate::specs::messages#IsPart).
//!
//! <div id="begins_whole"></div>
//!
//! ```text
//! -- whether a stream begins with a whole message
//! abbrev pub begins_whole : List ℕ → Bool
//! begins_whole stream = leb 4 (length stream) && leb (message_len stream) (length stream)
//! ```
//!
//! Definitions: [`message_len`](crate::specs::messages#message_len).
//!
//! <div id="messages_in"></div>
//!
//! ```text
//! -- the whole messages at the front of a stream, at most n
//! unfoldable pub messages_in : (n : ℕ) → List ℕ → List (List ℕ)
//! messages_in zero stream = []
//! messages_in (suc n) stream = cond (begins_whole stream)
//!     (take (message_len stream) stream ∷ messages_in n (drop (message_len stream) stream)) []
//! ```
//!
//! Definitions: [`begins_whole`](crate::specs::messages#begins_whole),
//! [`message_len`](crate::specs::messages#message_len).
//!
//! <div id="part_in"></div>
//!
//! ```text
//! -- what comes after the whole messages at the front of a stream, of which at most n are taken
//! unfoldable pub part_in : (n : ℕ) → List ℕ → List ℕ
//! part_in zero stream = stream
//! part_in (suc n) stream = cond (begins_whole stream) (part_in n (drop (message_len stream) stream)) stream
//! ```
//!
//! Definitions: [`begins_whole`](crate::specs::messages#begins_whole),
//! [`message_len`](crate::specs::messages#message_len).
//!
//! <div id="messages_of"></div>
//!
//! ```text
//! -- the whole messages of a stream, in order
//! unfoldable pub messages_of : List ℕ → List (List ℕ)
//! messages_of stream = messages_in (length stream) stream
//! ```
//!
//! Definitions: [`messages_in`](crate::specs::messages#messages_in).
//!
//! <div id="part_of"></div>
//!
//! ```text
//! -- the part of a message after the whole messages of a stream
//! unfoldable pub part_of : List ℕ → List ℕ
//! part_of stream = part_in (length stream) stream
//! ```
//!
//! Definitions: [`part_in`](crate::specs::messages#part_in).
//!
//! <div id="messages_read"></div>
//!
//! ```text
//! -- the messages of the contents of records, if the records before them ended in `part` of a message
//! unfoldable pub messages_read : (part : List ℕ) → (contents : List (List ℕ)) → List (List ℕ)
//! messages_read part [] = []
//! messages_read part (content ∷ later) = messages_of (part ++ content) ++ messages_read (part_of (part ++ content)) later
//! ```
//!
//! Definitions: [`messages_of`](crate::specs::messages#messages_of), [`part_of`](crate::specs::messages#part_of).
//!
//! <div id="Joining"></div>
//!
//! ```text
//! -- a reader: the message that it has found, or no bytes if it has found none, the part of a message that it keeps, the most bytes
//! -- that a message may have, which messages may come (RFC 8446 section 4), and whether it has rejected a message
//! pub record Joining : Type 0 where
//!   pub message : List ℕ
//!   pub part : List ℕ
//!   pub bound : ℕ
//!   pub stage : Stage
//!   pub is_closed : Bool
//! ```
//!
//! <div id="changes_keys"></div>
//!
//! ```text
//! -- The keys may change after a message of this type: ClientHello, ServerHello, EndOfEarlyData, Finished or KeyUpdate. A sender
//! -- ends the record with such a message in any case (section 5.1).
//! abbrev pub changes_keys : ℕ → Bool
//! changes_keys type = type == 1 || type == 2 || type == 5 || type == 20 || type == 24
//! ```
//!
//! <div id="ChangesKeys"></div>
//!
//! ```text
//! abbrev pub ChangesKeys : List ℕ → Type 0
//! ChangesKeys message = IsTrue (changes_keys (slice_index message 0))
//! ```
//!
//! Definitions: [`changes_keys`](crate::specs::messages#changes_keys).
//!
//! <div id="IsTaken"></div>
//!
//! ```text
//! -- A whole message, which `rest` follows in its record, is taken: the byte of a KeyUpdate is 0 or 1 (section 4.6.3), and nothing
//! -- follows a message that changes keys (section 5.1).
//! pub record IsTaken (message rest : List ℕ) : Type 0 where
//!   pub request : slice_index message 0 ≡ 24 → slice_index message 4 ≤ 1
//!   pub aligned : ChangesKeys message → rest ≡ []
//! ```
//!
//! Definitions: [`ChangesKeys`](crate::specs::messages#ChangesKeys).
