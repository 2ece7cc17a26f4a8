// Written by tools/rust from crates/records/specs/Connection.antt. Don't edit.
//! One end of a TLS 1.3 connection after the handshake (RFC 8446 sections 4.6.3, 5.1, 5.5, 6 and 7.2).
//!
//! The definitions of `crates/records/specs/Connection.antt` of the repository.
//!
//! <div id="ConnectionState"></div>
//!
//! ```text
//! -- An end of a connection. Of what it receives: the reader, whether the peer has asked for a KeyUpdate that is not sent yet, the
//! -- number of KeyUpdates since there was data, the largest number that may come in a row, whether nothing more is received, the
//! -- stage, the most bytes that a message may have, and the part of a message that came. Of what it sends: the writer, and whether
//! -- nothing more is sent.
//! pub record ConnectionState : Type 0 where
//!   pub reader : ReaderState
//!   pub owes_update : Bool
//!   pub updates : ℕ
//!   pub update_bound : ℕ
//!   pub is_ended : Bool
//!   pub stage : Stage
//!   pub bound : ℕ
//!   pub part : List ℕ
//!   pub writer : WriterState
//!   pub is_closed : Bool
//! ```
//!
//! Definitions: [`ReaderState`](crate::specs::keys#ReaderState), [`WriterState`](crate::specs::keys#WriterState).
//!
//! <div id="new_connection"></div>
//!
//! ```text
//! -- an end that has received and sent nothing
//! abbrev pub new_connection : ReaderState → WriterState → Stage → (bound : ℕ) → ConnectionState
//! new_connection reader writer stage bound = record {
//!   reader = reader;
//!   owes_update = false;
//!   updates = 0;
//!   update_bound = 2 ^ 64 - 1;
//!   is_ended = false;
//!   stage = stage;
//!   bound = bound;
//!   part = [];
//!   writer = writer;
//!   is_closed = false;
//! }
//! ```
//!
//! Definitions: [`ReaderState`](crate::specs::keys#ReaderState), [`WriterState`](crate::specs::keys#WriterState),
//! [`ConnectionState`](crate::specs::connection#ConnectionState).
//!
//! <div id="request_code"></div>
//!
//! ```text
//! -- the byte of a KeyUpdate: update_not_requested or update_requested (section 4.6.3)
//! abbrev pub request_code : KeyUpdateRequest → ℕ
//! request_code NotRequested = 0
//! request_code Requested = 1
//! ```
//!
//! <div id="key_update"></div>
//!
//! ```text
//! -- the KeyUpdate with this request (section 4.6.3)
//! abbrev pub key_update : KeyUpdateRequest → Inner
//! key_update request = record { content_type = Handshake; content = 24 ∷ 0 ∷ 0 ∷ 1 ∷ request_code request ∷ []; padding = 0 }
//! ```
//!
//! Definitions: [`Inner`](crate::specs::record#Inner), [`request_code`](crate::specs::connection#request_code).
//!
//! <div id="update_len"></div>
//!
//! ```text
//! -- the length of the record of a KeyUpdate, a message of 5 bytes (section 4.6.3)
//! abbrev pub update_len : ℕ
//! update_len = record_len 5
//! ```
//!
//! Definitions: [`record_len`](crate::specs::record#record_len).
//!
//! <div id="update_record"></div>
//!
//! ```text
//! -- the bytes of the next record, which is the KeyUpdate with this request
//! abbrev pub update_record : WriterState → KeyUpdateRequest → List ℕ
//! update_record writer request = record_at writer.key writer.number (key_update request)
//! ```
//!
//! Definitions: [`WriterState`](crate::specs::keys#WriterState), [`record_at`](crate::specs::record#record_at),
//! [`key_update`](crate::specs::connection#key_update).
//!
//! <div id="key_updated"></div>
//!
//! ```text
//! -- the end after it has sent a KeyUpdate: it owes none, and its writer continues under the next secret (sections 4.6.3 and 7.2)
//! abbrev pub key_updated : ConnectionState → ConnectionState
//! key_updated was = record was { writer = next_writer was.writer; owes_update = false }
//! ```
//!
//! Definitions: [`ConnectionState`](crate::specs::connection#ConnectionState),
//! [`next_writer`](crate::specs::keys#next_writer).
//!
//! <div id="content_limit"></div>
//!
//! ```text
//! -- the number of records of content under a key: its last two numbers are reserved, one for a KeyUpdate and the last for an alert
//! abbrev pub content_limit : WriterState → ℕ
//! content_limit writer = writer.limit - 2
//! ```
//!
//! Definitions: [`WriterState`](crate::specs::keys#WriterState).
//!
//! <div id="MayUpdate"></div>
//!
//! ```text
//! -- a KeyUpdate may be sent: at least two numbers are left
//! abbrev pub MayUpdate : WriterState → Type 0
//! MayUpdate writer = writer.number + 1 < writer.limit
//! ```
//!
//! Definitions: [`WriterState`](crate::specs::keys#WriterState).
//!
//! <div id="content_left"></div>
//!
//! ```text
//! -- how many more records of content may be sent under this key
//! abbrev pub content_left : WriterState → ℕ
//! content_left writer = content_limit writer - writer.number
//! ```
//!
//! Definitions: [`WriterState`](crate::specs::keys#WriterState),
//! [`content_limit`](crate::specs::connection#content_limit).
//!
//! <div id="content_records"></div>
//!
//! ```text
//! -- the number of records of a content of n bytes, each with this padding
//! abbrev pub content_records : WriterState → (padding n : ℕ) → ℕ
//! content_records writer padding n = record_count (piece_room writer.key.size_limit padding) n
//! ```
//!
//! Definitions: [`WriterState`](crate::specs::keys#WriterState),
//! [`record_count`](crate::specs::content#record_count), [`piece_room`](crate::specs::content#piece_room).
//!
//! <div id="HasRoom"></div>
//!
//! ```text
//! -- a record has room for this padding and, if there is a content, for a byte of it (section 5.4)
//! abbrev pub HasRoom : WriterState → (padding n : ℕ) → Type 0
//! HasRoom writer padding n = min n 1 + 1 + padding ≤ writer.key.size_limit
//! ```
//!
//! Definitions: [`WriterState`](crate::specs::keys#WriterState).
//!
//! <div id="updates_before"></div>
//!
//! ```text
//! -- whether a KeyUpdate comes before a content of this many records: one is owed, or the key has too few numbers for the content
//! abbrev pub updates_before : ConnectionState → (records : ℕ) → Bool
//! updates_before was records = was.owes_update || nat_lt (content_left was.writer) records
//! ```
//!
//! Definitions: [`ConnectionState`](crate::specs::connection#ConnectionState),
//! [`content_left`](crate::specs::connection#content_left).
//!
//! <div id="before_content"></div>
//!
//! ```text
//! -- the end before the content itself is sent, after the KeyUpdate if one comes first
//! abbrev pub before_content : ConnectionState → (records : ℕ) → ConnectionState
//! before_content was records = cond (updates_before was records) (key_updated was) was
//! ```
//!
//! Definitions: [`ConnectionState`](crate::specs::connection#ConnectionState),
//! [`updates_before`](crate::specs::connection#updates_before),
//! [`key_updated`](crate::specs::connection#key_updated).
//!
//! <div id="records_before"></div>
//!
//! ```text
//! -- the records before the content: a KeyUpdate, or none
//! abbrev pub records_before : ConnectionState → (records : ℕ) → List ℕ
//! records_before was records = cond (updates_before was records) (update_record was.writer NotRequested) []
//! ```
//!
//! Definitions: [`ConnectionState`](crate::specs::connection#ConnectionState),
//! [`updates_before`](crate::specs::connection#updates_before),
//! [`update_record`](crate::specs::connection#update_record).
//!
//! <div id="sent_for"></div>
//!
//! ```text
//! -- what an end sends for a content with this padding in each record: a KeyUpdate, if one comes before it, and the content's
//! -- records
//! abbrev pub sent_for : ConnectionState → ContentType → (padding : ℕ) → List ℕ → List ℕ
//! sent_for was content_type padding content =
//!     let records = content_records was.writer padding (length content) in
//!     records_before was records ++ concat (records_of (before_content was records).writer content_type padding content)
//! ```
//!
//! Definitions: [`ConnectionState`](crate::specs::connection#ConnectionState),
//! [`content_records`](crate::specs::connection#content_records),
//! [`records_before`](crate::specs::connection#records_before), [`records_of`](crate::specs::content#records_of),
//! [`before_content`](crate::specs::connection#before_content).
//!
//! <div id="sent_len"></div>
//!
//! ```text
//! -- the length of what an end sends for n bytes of content
//! abbrev pub sent_len : ConnectionState → (padding n : ℕ) → ℕ
//! sent_len was padding n = cond (updates_before was (content_records was.writer padding n)) update_len 0
//!     + records_len was.writer.key.size_limit padding n
//! ```
//!
//! Definitions: [`ConnectionState`](crate::specs::connection#ConnectionState),
//! [`updates_before`](crate::specs::connection#updates_before),
//! [`content_records`](crate::specs::connection#content_records),
//! [`update_len`](crate::specs::connection#update_len), [`records_len`](crate::specs::content#records_len).
//!
//! <div id="after_send"></div>
//!
//! ```text
//! -- the end after it has sent n bytes of content with this padding in each record
//! abbrev pub after_send : ConnectionState → (padding n : ℕ) → ConnectionState
//! after_send was padding n =
//!     let sender = before_content was (content_records was.writer padding n) in
//!     record sender { writer = after_content sender.writer padding n }
//! ```
//!
//! Definitions: [`ConnectionState`](crate::specs::connection#ConnectionState),
//! [`before_content`](crate::specs::connection#before_content),
//! [`content_records`](crate::specs::connection#content_records),
//! [`after_content`](crate::specs::content#after_content).
//!
//! <div id="MaySend"></div>
//!
//! ```text
//! -- a content of this many records may be sent: a new key has enough numbers for it, and the KeyUpdate before it may be sent, if
//! -- there is one
//! pub record MaySend (was : ConnectionState) (records : ℕ) : Type 0 where
//!   pub fits : records ≤ content_limit was.writer
//!   pub update : IsTrue (updates_before was records) → MayUpdate was.writer
//! ```
//!
//! Definitions: [`ConnectionState`](crate::specs::connection#ConnectionState),
//! [`content_limit`](crate::specs::connection#content_limit),
//! [`updates_before`](crate::specs::connection#updates_before), [`MayUpdate`](crate::specs::connection#MayUpdate).
//!
//! <div id="IsSendable"></div>
//!
//! ```text
//! -- an end may send n bytes of content with this padding in each record: it has not sent its last record, and it may send as many
//! -- records as the content has
//! abbrev pub IsSendable : ConnectionState → (padding n : ℕ) → Type 0
//! IsSendable was padding n = IsFalse was.is_closed × MaySend was (content_records was.writer padding n)
//! ```
//!
//! Definitions: [`ConnectionState`](crate::specs::connection#ConnectionState),
//! [`MaySend`](crate::specs::connection#MaySend), [`content_records`](crate::specs::connection#content_records).
//!
//! <div id="RefusesToSend"></div>
//!
//! ```text
//! -- the error is the reason why an end doesn't append the records of n bytes to a `Vec` that has room for `spare` bytes more
//! abbrev pub RefusesToSend : ConnectionState → (padding n spare : ℕ) → RecordError → Type 0
//! RefusesToSend was padding n spare Ended = IsTrue was.is_closed
//! RefusesToSend was padding n spare KeyUsedUp = IsFalse was.is_closed × ¬ MaySend was (content_records was.writer padding n)
//! RefusesToSend was padding n spare OutOfMemory = IsSendable was padding n × (spare < sent_len was padding n)
//! RefusesToSend was padding n spare error = ⊥
//! ```
//!
//! Definitions: [`ConnectionState`](crate::specs::connection#ConnectionState),
//! [`MaySend`](crate::specs::connection#MaySend), [`content_records`](crate::specs::connection#content_records),
//! [`IsSendable`](crate::specs::connection#IsSendable), [`sent_len`](crate::specs::connection#sent_len).
//!
//! <div id="RefusesToSendPadded"></div>
//!
//! ```text
//! -- the error is the reason why an end doesn't append them, where the padding may leave no room for a byte of the content
//! abbrev pub RefusesToSendPadded : ConnectionState → (padding n spare : ℕ) → RecordError → Type 0
//! RefusesToSendPadded was padding n spare Ended = IsTrue was.is_closed
//! RefusesToSendPadded was padding n spare ContentTooLong = IsFalse was.is_closed × ¬ HasRoom was.writer padding n
//! RefusesToSendPadded was padding n spare error = HasRoom was.writer padding n × RefusesToSend was padding n spare error
//! ```
//!
//! Definitions: [`ConnectionState`](crate::specs::connection#ConnectionState),
//! [`HasRoom`](crate::specs::connection#HasRoom), [`RefusesToSend`](crate::specs::connection#RefusesToSend).
//!
//! <div id="AreSendable"></div>
//!
//! ```text
//! -- these bytes are whole handshake messages that may be sent in a row (sections 4.6 and 5.1)
//! pub record AreSendable (stage : Stage) (messages : List ℕ) : Type 0 where
//!   pub some : messages ≢ []
//!   pub whole : part_of messages ≡ []
//!   pub all : IsTrue (may_send_all stage (messages_of messages))
//! ```
//!
//! Definitions: [`part_of`](tls_messages::specs::messages#part_of),
//! [`may_send_all`](tls_messages::specs::messages#may_send_all),
//! [`messages_of`](tls_messages::specs::messages#messages_of).
//!
//! <div id="RefusesMessages"></div>
//!
//! ```text
//! -- the error is the reason why these bytes are not handshake messages that may be sent in a row
//! abbrev pub RefusesMessages : Stage → (messages : List ℕ) → RecordError → Type 0
//! RefusesMessages stage messages EmptyContent = messages ≡ []
//! RefusesMessages stage messages MessageLength = part_of messages ≢ []
//! RefusesMessages stage messages MessageType = (part_of messages ≡ []) × IsFalse (may_send_all stage (messages_of messages))
//! RefusesMessages stage messages error = ⊥
//! ```
//!
//! Definitions: [`part_of`](tls_messages::specs::messages#part_of),
//! [`may_send_all`](tls_messages::specs::messages#may_send_all),
//! [`messages_of`](tls_messages::specs::messages#messages_of).
//!
//! <div id="RefusesToSendMessages"></div>
//!
//! ```text
//! -- the error is the reason why an end doesn't append handshake messages
//! abbrev pub RefusesToSendMessages : ConnectionState → (messages : List ℕ) → (spare : ℕ) → RecordError → Type 0
//! RefusesToSendMessages was messages spare Ended = IsTrue was.is_closed
//! RefusesToSendMessages was messages spare KeyUsedUp =
//!     AreSendable was.stage messages × RefusesToSend was 0 (length messages) spare KeyUsedUp
//! RefusesToSendMessages was messages spare OutOfMemory =
//!     AreSendable was.stage messages × RefusesToSend was 0 (length messages) spare OutOfMemory
//! RefusesToSendMessages was messages spare error = IsFalse was.is_closed × RefusesMessages was.stage messages error
//! ```
//!
//! Definitions: [`ConnectionState`](crate::specs::connection#ConnectionState),
//! [`AreSendable`](crate::specs::connection#AreSendable),
//! [`RefusesToSend`](crate::specs::connection#RefusesToSend),
//! [`RefusesMessages`](crate::specs::connection#RefusesMessages).
//!
//! <div id="after_answer"></div>
//!
//! ```text
//! -- the end after it has sent the KeyUpdate that it owes, if it owes one
//! abbrev pub after_answer : ConnectionState → ConnectionState
//! after_answer was = cond was.owes_update (key_updated was) was
//! ```
//!
//! Definitions: [`ConnectionState`](crate::specs::connection#ConnectionState),
//! [`key_updated`](crate::specs::connection#key_updated).
//!
//! <div id="answer_of"></div>
//!
//! ```text
//! -- the record of the KeyUpdate that an end owes, or no bytes
//! abbrev pub answer_of : ConnectionState → List ℕ
//! answer_of was = cond was.owes_update (update_record was.writer NotRequested) []
//! ```
//!
//! Definitions: [`ConnectionState`](crate::specs::connection#ConnectionState),
//! [`update_record`](crate::specs::connection#update_record).
//!
//! <div id="RefusesToUpdate"></div>
//!
//! ```text
//! -- the error is the reason why an end doesn't append a KeyUpdate
//! abbrev pub RefusesToUpdate : ConnectionState → (spare : ℕ) → RecordError → Type 0
//! RefusesToUpdate was spare Ended = IsTrue was.is_closed
//! RefusesToUpdate was spare KeyUsedUp = IsFalse was.is_closed × ¬ MayUpdate was.writer
//! RefusesToUpdate was spare OutOfMemory =
//!     IsFalse was.is_closed × MayUpdate was.writer × (spare < cond was.owes_update update_len 0 + update_len)
//! RefusesToUpdate was spare error = ⊥
//! ```
//!
//! Definitions: [`ConnectionState`](crate::specs::connection#ConnectionState),
//! [`MayUpdate`](crate::specs::connection#MayUpdate), [`update_len`](crate::specs::connection#update_len).
//!
//! <div id="RefusesToAlert"></div>
//!
//! ```text
//! -- the error is the reason why an end doesn't append an alert, a content of 2 bytes (section 6)
//! abbrev pub RefusesToAlert : ConnectionState → (spare : ℕ) → RecordError → Type 0
//! RefusesToAlert was spare Ended = IsTrue was.is_closed
//! RefusesToAlert was spare KeyUsedUp = IsFalse was.is_closed × (was.writer.limit ≤ was.writer.number)
//! RefusesToAlert was spare OutOfMemory =
//!     IsFalse was.is_closed × (was.writer.number < was.writer.limit) × (spare < record_len 2)
//! RefusesToAlert was spare error = ⊥
//! ```
//!
//! Definitions: [`ConnectionState`](crate::specs::connection#ConnectionState),
//! [`record_len`](crate::specs::record#record_len).
//!
//! <div id="after_alert"></div>
//!
//! ```text
//! -- the end after it has sent an alert, after which it sends nothing (sections 6.1 and 6.2)
//! abbrev pub after_alert : ConnectionState → ConnectionState
//! after_alert was = record was { writer = record was.writer { number = was.writer.number + 1 }; is_closed = true }
//! ```
//!
//! Definitions: [`ConnectionState`](crate::specs::connection#ConnectionState).
//!
//! <div id="Receiving"></div>
//!
//! ```text
//! -- what an end has received: its state, the application data, and the messages that are handed over
//! pub record Receiving : Type 0 where
//!   pub reader : ReaderState
//!   pub owes_update : Bool
//!   pub updates : ℕ
//!   pub update_bound : ℕ
//!   pub is_ended : Bool
//!   pub stage : Stage
//!   pub bound : ℕ
//!   pub part : List ℕ
//!   pub application_data : List ℕ
//!   pub messages : List (List ℕ)
//! ```
//!
//! Definitions: [`ReaderState`](crate::specs::keys#ReaderState).
//!
//! <div id="received_by"></div>
//!
//! ```text
//! -- what an end has received, with the caller's `Received`
//! abbrev pub received_by : ConnectionState → Received → Receiving
//! received_by end received = record {
//!   reader = end.reader;
//!   owes_update = end.owes_update;
//!   updates = end.updates;
//!   update_bound = end.update_bound;
//!   is_ended = end.is_ended;
//!   stage = end.stage;
//!   bound = end.bound;
//!   part = end.part;
//!   application_data = received.application_data.items;
//!   messages = map (λ v. v.items) received.messages.items;
//! }
//! ```
//!
//! Definitions: [`ConnectionState`](crate::specs::connection#ConnectionState),
//! [`Receiving`](crate::specs::connection#Receiving).
//!
//! <div id="receiving"></div>
//!
//! ```text
//! -- the same, from the parts of a connection
//! abbrev pub receiving : Incoming → Joining → Received → Receiving
//! receiving incoming joining received = record {
//!   reader = incoming.reader;
//!   owes_update = incoming.owes_update;
//!   updates = incoming.updates;
//!   update_bound = incoming.update_bound;
//!   is_ended = incoming.is_ended;
//!   stage = joining.stage;
//!   bound = joining.bound;
//!   part = joining.part;
//!   application_data = received.application_data.items;
//!   messages = map (λ v. v.items) received.messages.items;
//! }
//! ```
//!
//! Definitions: [`Joining`](tls_messages::specs::messages#Joining),
//! [`Receiving`](crate::specs::connection#Receiving).
//!
//! <div id="handled"></div>
//!
//! ```text
//! -- the part of what an end has received that a handshake message may change
//! abbrev pub handled : Receiving → Handled
//! handled was = record {
//!   reader = was.reader;
//!   owes_update = was.owes_update;
//!   updates = was.updates;
//!   update_bound = was.update_bound;
//!   messages = was.messages;
//! }
//! ```
//!
//! Definitions: [`Receiving`](crate::specs::connection#Receiving), [`Handled`](crate::specs::handling#Handled).
//!
//! <div id="handling"></div>
//!
//! ```text
//! -- the same, from the parts of a connection
//! abbrev pub handling : Incoming → List (List ℕ) → Handled
//! handling incoming messages = record {
//!   reader = incoming.reader;
//!   owes_update = incoming.owes_update;
//!   updates = incoming.updates;
//!   update_bound = incoming.update_bound;
//!   messages = messages;
//! }
//! ```
//!
//! Definitions: [`Handled`](crate::specs::handling#Handled).
//!
//! <div id="with_handled"></div>
//!
//! ```text
//! -- what an end has received, after handshake messages have changed the part of a message and what they may change
//! abbrev pub with_handled : Receiving → (part : List ℕ) → Handled → Receiving
//! with_handled was part now = record was {
//!   reader = now.reader;
//!   owes_update = now.owes_update;
//!   updates = now.updates;
//!   part = part;
//!   messages = now.messages;
//! }
//! ```
//!
//! Definitions: [`Receiving`](crate::specs::connection#Receiving), [`Handled`](crate::specs::handling#Handled).
//!
//! <div id="Brings"></div>
//!
//! ```text
//! -- What a record with this content brings. Application data is appended; it may not come between the parts of a message, and
//! -- KeyUpdates are counted anew after it, unless it is empty. Handshake messages are handled. An alert ends the data if its second
//! -- byte is 0, close_notify, and changes nothing if it is 90, user_canceled (sections 5.1, 6 and 6.1).
//! abbrev pub Brings : ContentType → (content : List ℕ) → Receiving → Receiving → Type 0
//! Brings ApplicationData content was now =
//!     (was.part ≡ []) × (now ≡ record was {
//!       application_data = was.application_data ++ content;
//!       updates = cond (length content == 0) was.updates 0;
//!     })
//! Brings Handshake content was now = HandlesAll was.stage was.bound was.part content (handled was) now.part (handled now)
//!     × (now ≡ with_handled was now.part (handled now))
//! Brings Alert content was now = (was.part ≡ []) × (now ≡ record was { is_ended = now.is_ended })
//!     × (slice_index content 1 ≡ cond now.is_ended 0 90)
//! ```
//!
//! Definitions: [`Receiving`](crate::specs::connection#Receiving),
//! [`HandlesAll`](crate::specs::handling#HandlesAll), [`handled`](crate::specs::connection#handled),
//! [`with_handled`](crate::specs::connection#with_handled).
//!
//! <div id="Step"></div>
//!
//! ```text
//! -- One record is received, unless the data has ended: the reader reads it under its key and its number, and its content brings
//! -- what it brings.
//! abbrev pub Step : Receiving → (bytes : List ℕ) → Receiving → Type 0
//! Step was bytes now = (was.is_ended ≡ false)
//!     × (content_type : ContentType) × (content : List ℕ) × (read : ReaderState)
//!     × Reads was.reader read bytes (Ok (content_type, content))
//!     × Brings content_type content (record was { reader = read }) now
//! ```
//!
//! Definitions: [`Receiving`](crate::specs::connection#Receiving), [`ReaderState`](crate::specs::keys#ReaderState),
//! [`Reads`](crate::specs::steps#Reads), [`Brings`](crate::specs::connection#Brings).
//!
//! <div id="FailsToBring"></div>
//!
//! ```text
//! -- the error is the reason why the content of a record is rejected, where there is room for `capacity` bytes of application data
//! abbrev pub FailsToBring : (capacity : ℕ) → ContentType → (content : List ℕ) → Receiving → ReceiveError → Receiving → Type 0
//! FailsToBring capacity ApplicationData content was error now =
//!     RejectsData capacity was.part was.application_data content error × (now ≡ was)
//! FailsToBring capacity Handshake content was error now =
//!     RejectsMessages was.stage was.bound was.part content (handled was) error now.part (handled now)
//!     × (now ≡ with_handled was now.part (handled now))
//! FailsToBring capacity Alert content was error now = RejectsAlert was.part content error × (now ≡ was)
//! ```
//!
//! Definitions: [`Receiving`](crate::specs::connection#Receiving),
//! [`RejectsData`](crate::specs::handling#RejectsData),
//! [`RejectsMessages`](crate::specs::handling#RejectsMessages), [`handled`](crate::specs::connection#handled),
//! [`with_handled`](crate::specs::connection#with_handled), [`RejectsAlert`](crate::specs::handling#RejectsAlert).
//!
//! <div id="Fails"></div>
//!
//! ```text
//! -- one record is rejected by the reader, or its content is rejected
//! abbrev pub Fails : (capacity : ℕ) → Receiving → (bytes : List ℕ) → ReceiveError → Receiving → Type 0
//! Fails capacity was bytes (Record error) now =
//!     (read : ReaderState) × Reads was.reader read bytes (Err error) × (now ≡ record was { reader = read })
//! Fails capacity was bytes error now = (content_type : ContentType) × (content : List ℕ) × (read : ReaderState)
//!     × Reads was.reader read bytes (Ok (content_type, content))
//!     × FailsToBring capacity content_type content (record was { reader = read }) error now
//! ```
//!
//! Definitions: [`Receiving`](crate::specs::connection#Receiving), [`ReaderState`](crate::specs::keys#ReaderState),
//! [`Reads`](crate::specs::steps#Reads), [`FailsToBring`](crate::specs::connection#FailsToBring).
//!
//! <div id="LeavesRecord"></div>
//!
//! ```text
//! -- what a record that is rejected leaves in its place: unless it is authentic, its own bytes
//! abbrev pub LeavesRecord : Receiving → (old new : List ℕ) → ReceiveError → Type 0
//! LeavesRecord was old new (Record error) = LeavesRefused was.reader.key was.reader.number old 0 old new error
//! LeavesRecord was old new error = Unit {0}
//! ```
//!
//! Definitions: [`Receiving`](crate::specs::connection#Receiving),
//! [`LeavesRefused`](crate::specs::steps#LeavesRefused).
//!
//! <div id="RejectsFront"></div>
//!
//! ```text
//! -- the bytes begin with a record that is rejected, or with no record that may come, and `left` is left in their place
//! abbrev pub RejectsFront : (capacity : ℕ) → Receiving → (bytes left : List ℕ) → ReceiveError → Receiving → Type 0
//! RejectsFront capacity was bytes left error now =
//!     ((refusal : RecordError) × (error ≡ Record refusal) × RefusesProtected bytes refusal × (now ≡ was) × (left ≡ bytes))
//!     ⊎ ((len : ℕ) × BeginsProtected bytes len × Fails capacity was (take len bytes) error now
//!     × LeavesRecord was (take len bytes) (take len left) error × (drop len left ≡ drop len bytes))
//! ```
//!
//! Definitions: [`Receiving`](crate::specs::connection#Receiving),
//! [`RefusesProtected`](crate::specs::stream#RefusesProtected),
//! [`BeginsProtected`](crate::specs::stream#BeginsProtected), [`Fails`](crate::specs::connection#Fails),
//! [`LeavesRecord`](crate::specs::connection#LeavesRecord).
//!
//! <div id="Rejects"></div>
//!
//! ```text
//! -- the first records of a stream are taken, and the next is rejected
//! pub record Rejects (capacity : ℕ) (stream left : List ℕ) (first : Receiving) (error : ReceiveError) (now : Receiving) : Type 0 where
//!   pub at : ℕ
//!   pub was : Receiving
//!   pub taken : Taken Step stream first at was
//!   pub front : RejectsFront capacity was (drop at stream) (drop at left) error now
//! ```
//!
//! Definitions: [`Receiving`](crate::specs::connection#Receiving), [`Taken`](crate::specs::stream#Taken),
//! [`Step`](crate::specs::connection#Step), [`RejectsFront`](crate::specs::connection#RejectsFront).
//!
//! <div id="EndsWith"></div>
//!
//! ```text
//! -- an error has ended the data
//! pub record EndsWith (capacity : ℕ) (stream left : List ℕ) (first : Receiving) (error : ReceiveError) (now : Receiving) : Type 0 where
//!   pub last : Receiving
//!   pub rejects : Rejects capacity stream left first error last
//!   pub ended : now ≡ record last { is_ended = true }
//! ```
//!
//! Definitions: [`Receiving`](crate::specs::connection#Receiving), [`Rejects`](crate::specs::connection#Rejects).
