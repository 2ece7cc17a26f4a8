// Written by tools/rust from crates/sealed_file/specs/Refusals.antt. Don't edit.
//! The reason for each error of sealing and opening files.
//!
//! The definitions of `crates/sealed_file/specs/Refusals.antt` of the repository.
//!
//! <div id="SealRefuses"></div>
//!
//! ```text
//! -- why a file is not sealed
//! abbrev pub SealRefuses : List ℕ → FileError → Type 0
//! SealRefuses file TooLong = 2 ^ 32 - 1 ≤ last_piece chunk_len (length file)
//! SealRefuses file (Io error) = ⊤
//! SealRefuses file error = ⊥
//! ```
//!
//! Definitions: [`last_piece`](crate::specs::format#last_piece), [`chunk_len`](crate::specs::format#chunk_len).
//!
//! <div id="IsVersion"></div>
//!
//! ```text
//! -- the bytes begin with the magic and this version
//! pub record IsVersion (version : ℕ) (header : List ℕ) : Type 0 where
//!   pub front : take 9 header ≡ magic_and_version version
//! ```
//!
//! Definitions: [`magic_and_version`](crate::specs::format#magic_and_version).
//!
//! <div id="IsOfAnotherKey"></div>
//!
//! ```text
//! -- a whole header of the version whose commitment is not that of this key for its random bytes
//! pub record IsOfAnotherKey (s : Secret) (header : List ℕ) : Type 0 where
//!   pub version : IsVersion s.version header
//!   pub size : length header ≡ header_len
//!   pub other : drop 28 header ≢ commitment s.key (take 12 (drop 9 header))
//! ```
//!
//! Definitions: [`Secret`](crate::specs::format#Secret), [`IsVersion`](crate::specs::refusals#IsVersion),
//! [`header_len`](crate::specs::opening#header_len), [`commitment`](crate::specs::derivation#commitment).
//!
//! <div id="VersionRefuses"></div>
//!
//! ```text
//! -- why bytes don't begin with the magic and this version
//! abbrev pub VersionRefuses : (version : ℕ) (header : List ℕ) → FileError → Type 0
//! VersionRefuses version header EndsEarly = length header < 9
//! VersionRefuses version header AnotherMagic = (9 ≤ length header) × (take 8 header ≢ codes "SEALFILE")
//! VersionRefuses version header (AnotherVersion found) = (9 ≤ length header) × (take 8 header ≡ codes "SEALFILE")
//!     × (slice_index header 8 ≡ found) × (found ≢ version)
//! VersionRefuses version header error = ⊥
//! ```
//!
//! <div id="HeaderRefuses"></div>
//!
//! ```text
//! -- why the bytes are not a header under this key
//! abbrev pub HeaderRefuses : (s : Secret) (header : List ℕ) → FileError → Type 0
//! HeaderRefuses s header EndsEarly = (length header < 9) ⊎ (IsVersion s.version header × (length header < header_len))
//! HeaderRefuses s header WrongKey = IsOfAnotherKey s header
//! HeaderRefuses s header error = VersionRefuses s.version header error
//! ```
//!
//! Definitions: [`Secret`](crate::specs::format#Secret), [`IsVersion`](crate::specs::refusals#IsVersion),
//! [`header_len`](crate::specs::opening#header_len), [`IsOfAnotherKey`](crate::specs::refusals#IsOfAnotherKey),
//! [`VersionRefuses`](crate::specs::refusals#VersionRefuses).
//!
//! <div id="ChunkRefuses"></div>
//!
//! ```text
//! -- why a sealed chunk does not open: the tag of the other kind of chunk shows that the file was cut after the chunk, or goes on
//! -- after it
//! abbrev pub ChunkRefuses : (k : ChunkKey) (number : ℕ) (is_last : Bool) (sealed : List ℕ) → FileError → Type 0
//! ChunkRefuses k number is_last sealed EndsEarly =
//!     (length sealed < tag_len) ⊎ ((is_last ≡ true) × HasTag k number false sealed)
//! ChunkRefuses k number is_last sealed TrailingBytes = (is_last ≡ false) × HasTag k number true sealed
//! ChunkRefuses k number is_last sealed (Refused at) =
//!     (at ≡ number) × (tag_len ≤ length sealed) × ¬ HasTag k number true sealed × ¬ HasTag k number false sealed
//! ChunkRefuses k number is_last sealed error = ⊥
//! ```
//!
//! Definitions: [`ChunkKey`](crate::specs::format#ChunkKey), [`tag_len`](aead_ciphers::specs::gcm#tag_len),
//! [`HasTag`](crate::specs::opening#HasTag).
//!
//! <div id="RefusesChunk"></div>
//!
//! ```text
//! -- chunk i of a sealed file doesn't have its tag under this key, for which the error is the reason
//! abbrev pub RefusesChunk : (k : ChunkKey) (file : List ℕ) (i : ℕ) → FileError → Type 0
//! RefusesChunk k file i error =
//!     (¬ HasTagUnder k file i) × ChunkRefuses k i (i == last_chunk file) (chunk_of file i) error
//! ```
//!
//! Definitions: [`ChunkKey`](crate::specs::format#ChunkKey), [`HasTagUnder`](crate::specs::opening#HasTagUnder),
//! [`ChunkRefuses`](crate::specs::refusals#ChunkRefuses), [`last_chunk`](crate::specs::opening#last_chunk),
//! [`chunk_of`](crate::specs::opening#chunk_of).
//!
//! <div id="RefusesAt"></div>
//!
//! ```text
//! -- the header and the first n chunks are right, and the next chunk is not
//! pub record RefusesAt (s : Secret) (file : List ℕ) (error : FileError) (n : ℕ) : Type 0 where
//!   pub front : HasHeader s (header_of file)
//!   pub right : AreRight s file n
//!   pub in_range : n ≤ last_chunk file
//!   pub wrong : RefusesChunk (key_of s file) file n error
//! ```
//!
//! Definitions: [`Secret`](crate::specs::format#Secret), [`HasHeader`](crate::specs::opening#HasHeader),
//! [`header_of`](crate::specs::opening#header_of), [`AreRight`](crate::specs::opening#AreRight),
//! [`last_chunk`](crate::specs::opening#last_chunk), [`RefusesChunk`](crate::specs::refusals#RefusesChunk),
//! [`key_of`](crate::specs::opening#key_of).
//!
//! <div id="OpenRefuses"></div>
//!
//! ```text
//! -- why a file does not open
//! abbrev pub OpenRefuses : (s : Secret) (file : List ℕ) → FileError → Type 0
//! OpenRefuses s file TooLong =
//!     HasHeader s (header_of file) × AreRight s file (2 ^ 32 - 1) × (2 ^ 32 - 1 ≤ last_chunk file)
//! OpenRefuses s file (Io error) = ⊤
//! OpenRefuses s file error = HeaderRefuses s (header_of file) error ⊎ ((n : ℕ) × RefusesAt s file error n)
//! ```
//!
//! Definitions: [`Secret`](crate::specs::format#Secret), [`HasHeader`](crate::specs::opening#HasHeader),
//! [`header_of`](crate::specs::opening#header_of), [`AreRight`](crate::specs::opening#AreRight),
//! [`last_chunk`](crate::specs::opening#last_chunk), [`HeaderRefuses`](crate::specs::refusals#HeaderRefuses),
//! [`RefusesAt`](crate::specs::refusals#RefusesAt).
//!
//! <div id="ChunkAtRefuses"></div>
//!
//! ```text
//! -- why one chunk does not open
//! abbrev pub ChunkAtRefuses : (s : Secret) (header : List ℕ) (number : ℕ) (is_last : Bool) (sealed : List ℕ) → FileError → Type 0
//! ChunkAtRefuses s header number is_last sealed error = HeaderRefuses s (header_of header) error
//!     ⊎ (HasHeader s (header_of header) × (¬ HasTag (key_of s header) number is_last sealed)
//!     × ChunkRefuses (key_of s header) number is_last sealed error)
//! ```
//!
//! Definitions: [`Secret`](crate::specs::format#Secret), [`HeaderRefuses`](crate::specs::refusals#HeaderRefuses),
//! [`header_of`](crate::specs::opening#header_of), [`HasHeader`](crate::specs::opening#HasHeader),
//! [`HasTag`](crate::specs::opening#HasTag), [`key_of`](crate::specs::opening#key_of),
//! [`ChunkRefuses`](crate::specs::refusals#ChunkRefuses).
//!
//! <div id="FailsInMemory"></div>
//!
//! ```text
//! -- why a call over slices fails: it needed memory, or it rejects its input, but never with `Io`
//! abbrev pub FailsInMemory : (lacks_room : Type 0) (Refuses : FileError → Type 0) → FileError → Type 0
//! FailsInMemory lacks_room Refuses OutOfMemory = lacks_room
//! FailsInMemory lacks_room Refuses (Io error) = ⊥
//! FailsInMemory lacks_room Refuses error = Refuses error
//! ```
