// Written by tools/rust from crates/sealed_file/specs/Reader.antt. Don't edit.
//! A sealed file that is read at any position.
//!
//! The definitions of `crates/sealed_file/specs/Reader.antt` of the repository.
//!
//! <div id="ReaderState"></div>
//!
//! ```text
//! -- what a reader is of: the key of the chunks, the sealed file where its bytes are known, the contents that the input may have
//! -- where these are known, and the length of the file; the position of the sealed file in the input, and the number of its last
//! -- chunk; and the number of the chunk that the reader holds, if any
//! pub record ReaderState : Type 0 where
//!   pub key : ChunkKey
//!   pub file : Option (List ℕ)
//!   pub contents : Option (List (List ℕ))
//!   pub len : ℕ
//!   pub start : ℕ
//!   pub last : ℕ
//!   pub held : Option ℕ
//! ```
//!
//! Definitions: [`ChunkKey`](crate::specs::format#ChunkKey).
//!
//! <div id="MayGive"></div>
//!
//! ```text
//! -- a read at this position may give these bytes: one of the contents that the input may have has them there. Where its
//! -- contents are not known, a read may give any bytes
//! abbrev pub MayGive : (contents : Option (List (List ℕ))) (at : ℕ) (bytes : List ℕ) → Type 0
//! MayGive None at bytes = ⊤
//! MayGive (Some contents) at bytes = Any (λ all. bytes ≡ take (length bytes) (drop at all)) contents
//! ```
//!
//! <div id="file_from"></div>
//!
//! ```text
//! -- the sealed file that an input has from byte `start` on, where its bytes are known
//! abbrev pub file_from : (start : ℕ) → Option (List ℕ) → Option (List ℕ)
//! file_from start bytes = option_map (λ all. drop start all) bytes
//! ```
//!
//! <div id="message_len"></div>
//!
//! ```text
//! -- the length of the message of chunk i
//! unfoldable pub message_len : (last last_len i : ℕ) → ℕ
//! message_len last last_len i = if i == last then last_len else chunk_len
//! ```
//!
//! Definitions: [`chunk_len`](crate::specs::format#chunk_len).
//!
//! <div id="EndsAt"></div>
//!
//! ```text
//! -- a sealed file has its last chunk at `last`, with a message of `last_len` bytes
//! pub record EndsAt (file : List ℕ) (last last_len : ℕ) : Type 0 where
//!   pub last_is : last ≡ last_chunk file
//!   pub size : length file ≡ header_len + sealed_chunk_len * last + last_len + tag_len
//! ```
//!
//! Definitions: [`last_chunk`](crate::specs::opening#last_chunk), [`header_len`](crate::specs::opening#header_len),
//! [`sealed_chunk_len`](crate::specs::format#sealed_chunk_len), [`tag_len`](aead_ciphers::specs::gcm#tag_len).
//!
//! <div id="IsMessageOf"></div>
//!
//! ```text
//! -- chunk i of a sealed file has its tag under this key, and this message
//! pub record IsMessageOf (k : ChunkKey) (file : List ℕ) (i : ℕ) (message : List ℕ) : Type 0 where
//!   pub tag : HasTagUnder k file i
//!   pub opened : message ≡ opened_chunk k i (i == last_chunk file) (chunk_of file i)
//! ```
//!
//! Definitions: [`ChunkKey`](crate::specs::format#ChunkKey), [`HasTagUnder`](crate::specs::opening#HasTagUnder),
//! [`opened_chunk`](crate::specs::opening#opened_chunk), [`last_chunk`](crate::specs::opening#last_chunk),
//! [`chunk_of`](crate::specs::opening#chunk_of).
//!
//! <div id="IsAuthentic"></div>
//!
//! ```text
//! -- the message is authentic: a read at this position may give bytes that end with the tag of the chunk with this number that is
//! -- the last, or is not, and that open to the message
//! pub record IsAuthentic (contents : Option (List (List ℕ))) (at : ℕ) (k : ChunkKey) (number : ℕ) (is_last : Bool)
//!     (message : List ℕ) : Type 0 where
//!   pub sealed : List ℕ
//!   pub given : MayGive contents at sealed
//!   pub tag : HasTag k number is_last sealed
//!   pub opened : message ≡ opened_chunk k number is_last sealed
//! ```
//!
//! Definitions: [`ChunkKey`](crate::specs::format#ChunkKey), [`MayGive`](crate::specs::reader#MayGive),
//! [`HasTag`](crate::specs::opening#HasTag), [`opened_chunk`](crate::specs::opening#opened_chunk).
//!
//! <div id="IsAuthenticChunk"></div>
//!
//! ```text
//! -- the message is authentic as that of chunk i of a sealed file that begins at `start` and ends with chunk `last`
//! abbrev pub IsAuthenticChunk : (contents : Option (List (List ℕ))) (k : ChunkKey) (start last i : ℕ) (message : List ℕ) → Type 0
//! IsAuthenticChunk contents k start last i message =
//!     IsAuthentic contents (start + header_len + sealed_chunk_len * i) k i (i == last) message
//! ```
//!
//! Definitions: [`ChunkKey`](crate::specs::format#ChunkKey), [`IsAuthentic`](crate::specs::reader#IsAuthentic),
//! [`header_len`](crate::specs::opening#header_len), [`sealed_chunk_len`](crate::specs::format#sealed_chunk_len).
//!
//! <div id="IsAuthenticKey"></div>
//!
//! ```text
//! -- the key of the chunks is authentic: a read at `start` may give bytes that begin with the header of this key
//! pub record IsAuthenticKey (contents : Option (List (List ℕ))) (start : ℕ) (s : Secret) (k : ChunkKey) : Type 0 where
//!   pub front : List ℕ
//!   pub given : MayGive contents start front
//!   pub header : HasHeader s (header_of front)
//!   pub key : k ≡ key_of s front
//! ```
//!
//! Definitions: [`Secret`](crate::specs::format#Secret), [`ChunkKey`](crate::specs::format#ChunkKey),
//! [`MayGive`](crate::specs::reader#MayGive), [`HasHeader`](crate::specs::opening#HasHeader),
//! [`header_of`](crate::specs::opening#header_of), [`key_of`](crate::specs::opening#key_of).
//!
//! <div id="IsAuthenticLen"></div>
//!
//! ```text
//! -- the length of a file is authentic: it ends with an authentic message of chunk `last`
//! pub record IsAuthenticLen (contents : Option (List (List ℕ))) (k : ChunkKey) (start last len : ℕ) : Type 0 where
//!   pub message : List ℕ
//!   pub chunk : IsAuthenticChunk contents k start last last message
//!   pub size : len ≡ chunk_len * last + length message
//! ```
//!
//! Definitions: [`ChunkKey`](crate::specs::format#ChunkKey),
//! [`IsAuthenticChunk`](crate::specs::reader#IsAuthenticChunk), [`chunk_len`](crate::specs::format#chunk_len).
//!
//! <div id="IsAuthenticPart"></div>
//!
//! ```text
//! -- bytes of a file from `offset` on are authentic: they are a part of the authentic message of the chunk there
//! pub record IsAuthenticPart (r : ReaderState) (offset : ℕ) (bytes : List ℕ) : Type 0 where
//!   pub message : List ℕ
//!   pub chunk : IsAuthenticChunk r.contents r.key r.start r.last (offset / chunk_len) message
//!   pub part : bytes ≡ take (length bytes) (drop (offset % chunk_len) message)
//! ```
//!
//! Definitions: [`ReaderState`](crate::specs::reader#ReaderState),
//! [`IsAuthenticChunk`](crate::specs::reader#IsAuthenticChunk), [`chunk_len`](crate::specs::format#chunk_len).
//!
//! <div id="IsReader"></div>
//!
//! ```text
//! -- what holds of every reader: the file ends where its length says, the last chunk has its tag, and the buffer begins with the
//! -- message of the chunk that the reader holds; and that message and the length are authentic, also where the bytes are not known
//! pub record IsReader (k : ChunkKey) (file : Option (List ℕ)) (contents : Option (List (List ℕ))) (start last last_len : ℕ)
//!     (held : Option ℕ) (buffer : List ℕ) : Type 0 where
//!   pub few : last < 2 ^ 32 - 1
//!   pub short : last_len ≤ chunk_len
//!   pub fits : start + header_len + sealed_chunk_len * last + last_len + tag_len < 2 ^ 64
//!   pub room : length buffer ≡ sealed_chunk_len
//!   pub ends : IfSome file (λ file. EndsAt file last last_len)
//!   pub tag : IfSome file (λ file. HasTagUnder k file (last_chunk file))
//!   pub in_range : IfSome held (λ i. i ≤ last)
//!   pub message : IfSome held (λ i. IfSome file (λ file. IsMessageOf k file i (take (message_len last last_len i) buffer)))
//!   pub authentic : IfSome held (λ i. IsAuthenticChunk contents k start last i (take (message_len last last_len i) buffer))
//!   pub authentic_len : IsAuthenticLen contents k start last (chunk_len * last + last_len)
//! ```
//!
//! Definitions: [`ChunkKey`](crate::specs::format#ChunkKey), [`chunk_len`](crate::specs::format#chunk_len),
//! [`header_len`](crate::specs::opening#header_len), [`sealed_chunk_len`](crate::specs::format#sealed_chunk_len),
//! [`tag_len`](aead_ciphers::specs::gcm#tag_len), [`EndsAt`](crate::specs::reader#EndsAt),
//! [`HasTagUnder`](crate::specs::opening#HasTagUnder), [`last_chunk`](crate::specs::opening#last_chunk),
//! [`IsMessageOf`](crate::specs::reader#IsMessageOf), [`message_len`](crate::specs::reader#message_len),
//! [`IsAuthenticChunk`](crate::specs::reader#IsAuthenticChunk),
//! [`IsAuthenticLen`](crate::specs::reader#IsAuthenticLen).
//!
//! <div id="IsReadable"></div>
//!
//! ```text
//! -- a file that can be read at any position: its header is right, its length is one of a sealed file, and its last chunk has its
//! -- tag
//! pub record IsReadable (s : Secret) (file : List ℕ) : Type 0 where
//!   pub header : HasHeader s (header_of file)
//!   pub size : IsSealedLen (length file)
//!   pub tag : HasRightTag s file (last_chunk file)
//! ```
//!
//! Definitions: [`Secret`](crate::specs::format#Secret), [`HasHeader`](crate::specs::opening#HasHeader),
//! [`header_of`](crate::specs::opening#header_of), [`IsSealedLen`](crate::specs::opening#IsSealedLen),
//! [`HasRightTag`](crate::specs::opening#HasRightTag), [`last_chunk`](crate::specs::opening#last_chunk).
//!
//! <div id="LengthRefuses"></div>
//!
//! ```text
//! -- why no sealed file has this length
//! abbrev pub LengthRefuses : ℕ → FileError → Type 0
//! LengthRefuses n TooLong = 2 ^ 32 - 1 ≤ last_piece sealed_chunk_len (n - header_len)
//! LengthRefuses n EndsEarly = (last_piece sealed_chunk_len (n - header_len) < 2 ^ 32 - 1) × ¬ IsSealedLen n
//! LengthRefuses n error = ⊥
//! ```
//!
//! Definitions: [`last_piece`](crate::specs::format#last_piece),
//! [`sealed_chunk_len`](crate::specs::format#sealed_chunk_len), [`header_len`](crate::specs::opening#header_len),
//! [`IsSealedLen`](crate::specs::opening#IsSealedLen).
//!
//! <div id="ReaderRefuses"></div>
//!
//! ```text
//! -- why a file can't be read: the first of its header, its length and its last chunk that is wrong
//! abbrev pub ReaderRefuses : (s : Secret) (file : List ℕ) → FileError → Type 0
//! ReaderRefuses s file error = HeaderRefuses s (header_of file) error
//!     ⊎ ((HasHeader s (header_of file) × LengthRefuses (length file) error)
//!     ⊎ (HasHeader s (header_of file) × IsSealedLen (length file) × RefusesChunk (key_of s file) file (last_chunk file) error))
//! ```
//!
//! Definitions: [`Secret`](crate::specs::format#Secret), [`HeaderRefuses`](crate::specs::refusals#HeaderRefuses),
//! [`header_of`](crate::specs::opening#header_of), [`HasHeader`](crate::specs::opening#HasHeader),
//! [`LengthRefuses`](crate::specs::reader#LengthRefuses), [`IsSealedLen`](crate::specs::opening#IsSealedLen),
//! [`RefusesChunk`](crate::specs::refusals#RefusesChunk), [`key_of`](crate::specs::opening#key_of),
//! [`last_chunk`](crate::specs::opening#last_chunk).
