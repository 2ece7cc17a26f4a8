// Written by tools/rust from crates/records/specs/Content.antt. Don't edit.
//! A content of any length, cut into the contents of as many records as it takes (RFC 8446 section 5.1).
//!
//! The definitions of `crates/records/specs/Content.antt` of the repository.
//!
//! <div id="least_piece"></div>
//!
//! ```text
//! -- the smallest part of a content of n bytes that a record has: the whole of an alert, which is never cut, and otherwise one byte,
//! -- if there is one (sections 5.1 and 5.4)
//! abbrev pub least_piece : ContentType → ℕ → ℕ
//! least_piece Alert n = n
//! least_piece content_type n = min n 1
//! ```
//!
//! <div id="piece_room"></div>
//!
//! ```text
//! -- how many bytes of content a record has room for, beside its type and its padding (section 5.4, RFC 8449 section 4)
//! abbrev pub piece_room : (size_limit padding : ℕ) → ℕ
//! piece_room size_limit padding = size_limit - 1 - padding
//! ```
//!
//! <div id="record_count"></div>
//!
//! ```text
//! -- the number of records of a content of n bytes: as few as have room for it, and one for an empty content
//! abbrev pub record_count : (room n : ℕ) → ℕ
//! record_count room zero = 1
//! record_count room n = div_ceil n room
//! ```
//!
//! <div id="piece"></div>
//!
//! ```text
//! -- record i, counted from 0, has the next bytes of the content, as many as there is room for
//! abbrev pub piece : ContentType → (room padding : ℕ) → List ℕ → ℕ → Inner
//! piece content_type room padding content i =
//!     record { content_type = content_type; content = take room (drop (i * room) content); padding = padding }
//! ```
//!
//! Definitions: [`Inner`](crate::specs::record#Inner).
//!
//! <div id="pieces"></div>
//!
//! ```text
//! -- the contents of all records, in order
//! abbrev pub pieces : ContentType → (size_limit padding : ℕ) → List ℕ → List Inner
//! pieces content_type size_limit padding content =
//!     let room = piece_room size_limit padding in
//!     map (piece content_type room padding content) (range_with_len 0 (record_count room (length content)))
//! ```
//!
//! Definitions: [`Inner`](crate::specs::record#Inner), [`piece_room`](crate::specs::content#piece_room),
//! [`piece`](crate::specs::content#piece), [`record_count`](crate::specs::content#record_count).
//!
//! <div id="consecutive_records"></div>
//!
//! ```text
//! -- records with these contents, under consecutive numbers
//! abbrev pub consecutive_records : KeyState → ℕ → List Inner → List (List ℕ)
//! consecutive_records key number [] = []
//! consecutive_records key number (inner ∷ later) = record_at key number inner ∷ consecutive_records key (number + 1) later
//! ```
//!
//! Definitions: [`KeyState`](crate::specs::keys#KeyState), [`Inner`](crate::specs::record#Inner),
//! [`record_at`](crate::specs::record#record_at).
//!
//! <div id="records_of"></div>
//!
//! ```text
//! -- the records that a writer makes of a content
//! abbrev pub records_of : WriterState → ContentType → (padding : ℕ) → List ℕ → List (List ℕ)
//! records_of writer content_type padding content =
//!     consecutive_records writer.key writer.number (pieces content_type writer.key.size_limit padding content)
//! ```
//!
//! Definitions: [`WriterState`](crate::specs::keys#WriterState),
//! [`consecutive_records`](crate::specs::content#consecutive_records), [`pieces`](crate::specs::content#pieces).
//!
//! <div id="after_content"></div>
//!
//! ```text
//! -- the writer after n bytes of content: each record has used a number
//! abbrev pub after_content : WriterState → (padding n : ℕ) → WriterState
//! after_content writer padding n =
//!     record writer { number = writer.number + record_count (piece_room writer.key.size_limit padding) n }
//! ```
//!
//! Definitions: [`WriterState`](crate::specs::keys#WriterState),
//! [`record_count`](crate::specs::content#record_count), [`piece_room`](crate::specs::content#piece_room).
//!
//! <div id="IsCut"></div>
//!
//! ```text
//! -- this is how n bytes of content are cut, with this padding in each record, by a size limit of at most 2^14 + 1 (section 5.4)
//! pub record IsCut (size_limit padding n : ℕ) (cut : Cut) : Type 0 where
//!   pub limit : size_limit ≤ 2 ^ 14 + 1
//!   pub room : cut.room ≡ piece_room size_limit padding
//!   pub count : cut.count ≡ record_count (piece_room size_limit padding) n
//! ```
//!
//! Definitions: [`piece_room`](crate::specs::content#piece_room),
//! [`record_count`](crate::specs::content#record_count).
//!
//! <div id="records_len"></div>
//!
//! ```text
//! -- the length of the records of n bytes of content
//! abbrev pub records_len : (size_limit padding n : ℕ) → ℕ
//! records_len size_limit padding n = n + record_count (piece_room size_limit padding) n * record_len padding
//! ```
//!
//! Definitions: [`record_count`](crate::specs::content#record_count),
//! [`piece_room`](crate::specs::content#piece_room), [`record_len`](crate::specs::record#record_len).
//!
//! <div id="IsWritable"></div>
//!
//! ```text
//! -- a writer may write n bytes of content with this padding in each record: a record may have the smallest part of the content, and
//! -- there are numbers for all its records
//! pub record IsWritable (writer : WriterState) (content_type : ContentType) (n padding : ℕ) : Type 0 where
//!   pub fits : IsAllowed writer.key.size_limit content_type (least_piece content_type n) padding
//!   pub numbers : writer.number + record_count (piece_room writer.key.size_limit padding) n ≤ writer.limit
//! ```
//!
//! Definitions: [`WriterState`](crate::specs::keys#WriterState), [`IsAllowed`](crate::specs::record#IsAllowed),
//! [`least_piece`](crate::specs::content#least_piece), [`record_count`](crate::specs::content#record_count),
//! [`piece_room`](crate::specs::content#piece_room).
//!
//! <div id="RefusesToWrite"></div>
//!
//! ```text
//! -- the error is the reason why a writer may not write n bytes of content
//! abbrev pub RefusesToWrite : WriterState → ContentType → (n padding : ℕ) → RecordError → Type 0
//! RefusesToWrite writer content_type n padding KeyUsedUp =
//!     IsAllowed writer.key.size_limit content_type (least_piece content_type n) padding
//!     × (writer.limit < writer.number + record_count (piece_room writer.key.size_limit padding) n)
//! RefusesToWrite writer content_type n padding error =
//!     RefusesContent writer.key.size_limit content_type (least_piece content_type n) padding error
//! ```
//!
//! Definitions: [`WriterState`](crate::specs::keys#WriterState), [`IsAllowed`](crate::specs::record#IsAllowed),
//! [`least_piece`](crate::specs::content#least_piece), [`record_count`](crate::specs::content#record_count),
//! [`piece_room`](crate::specs::content#piece_room), [`RefusesContent`](crate::specs::refusals#RefusesContent).
//!
//! <div id="RefusesToSealAll"></div>
//!
//! ```text
//! -- the error is the reason why a writer may not seal n bytes of content in a buffer of `room` bytes
//! abbrev pub RefusesToSealAll : WriterState → ContentType → (n padding room : ℕ) → RecordError → Type 0
//! RefusesToSealAll writer content_type n padding room NoRoom =
//!     IsWritable writer content_type n padding × (room < records_len writer.key.size_limit padding n)
//! RefusesToSealAll writer content_type n padding room error = RefusesToWrite writer content_type n padding error
//! ```
//!
//! Definitions: [`WriterState`](crate::specs::keys#WriterState), [`IsWritable`](crate::specs::content#IsWritable),
//! [`records_len`](crate::specs::content#records_len), [`RefusesToWrite`](crate::specs::content#RefusesToWrite).
//!
//! <div id="RefusesToWriteAll"></div>
//!
//! ```text
//! -- the error is the reason why a writer may not append n bytes of content to a `Vec` that has room for `spare` bytes more
//! abbrev pub RefusesToWriteAll : WriterState → ContentType → (n padding spare : ℕ) → RecordError → Type 0
//! RefusesToWriteAll writer content_type n padding spare OutOfMemory =
//!     IsWritable writer content_type n padding × (spare < records_len writer.key.size_limit padding n)
//! RefusesToWriteAll writer content_type n padding spare error = RefusesToWrite writer content_type n padding error
//! ```
//!
//! Definitions: [`WriterState`](crate::specs::keys#WriterState), [`IsWritable`](crate::specs::content#IsWritable),
//! [`records_len`](crate::specs::content#records_len), [`RefusesToWrite`](crate::specs::content#RefusesToWrite).
