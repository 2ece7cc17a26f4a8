// Written by tools/rust from crates/sealed_file/specs/Streams.antt. Don't edit.
//! What reading a piece, writing bytes and opening do to a reader and a writer, most of it where their bytes are known.
//!
//! The definitions of `crates/sealed_file/specs/Streams.antt` of the repository.
//!
//! <div id="AppendsBeginning"></div>
//!
//! ```text
//! -- the writer's known bytes grow by a beginning of `all`
//! abbrev pub AppendsBeginning : Option (List ℕ) → Option (List ℕ) → List ℕ → Type 0
//! AppendsBeginning old new all = (front : List ℕ) × (rest : List ℕ) × (all ≡ front ++ rest) × Appends old new front
//! ```
//!
//! <div id="TakesFront"></div>
//!
//! ```text
//! -- the piece is the first `len` bytes that the reader had left, or all of them if there are fewer
//! pub record TakesFront (len : ℕ) (bytes piece : List ℕ) (new : Option (List ℕ)) : Type 0 where
//!   pub piece_is : piece ≡ take len bytes
//!   pub left : new ≡ Some (drop len bytes)
//! ```
//!
//! <div id="AppendsAfter"></div>
//!
//! ```text
//! -- the writer's known bytes grow by a beginning of the messages of n chunks, which have their tags, after a front that is right
//! -- unless n is 0
//! abbrev pub AppendsAfter : (Front : Type 0) (s : Secret) (file : List ℕ) (old new : Option (List ℕ)) → Type 0
//! AppendsAfter Front s file old new =
//!     (n : ℕ) × (0 < n → Front) × AreRight s file n × AppendsBeginning old new (opened_chunks s file n)
//! ```
//!
//! Definitions: [`Secret`](crate::specs::format#Secret), [`AreRight`](crate::specs::opening#AreRight),
//! [`AppendsBeginning`](crate::specs::streams#AppendsBeginning),
//! [`opened_chunks`](crate::specs::opening#opened_chunks).
//!
//! <div id="AppendsRight"></div>
//!
//! ```text
//! -- the writer's known bytes grow by such a beginning, of a file that is opened under a key
//! abbrev pub AppendsRight : (s : Secret) (file : List ℕ) (old new : Option (List ℕ)) → Type 0
//! AppendsRight s file old new = AppendsAfter (HasHeader s (header_of file)) s file old new
//! ```
//!
//! Definitions: [`Secret`](crate::specs::format#Secret), [`AppendsAfter`](crate::specs::streams#AppendsAfter),
//! [`HasHeader`](crate::specs::opening#HasHeader), [`header_of`](crate::specs::opening#header_of).
//!
//! <div id="AppendsRightBy"></div>
//!
//! ```text
//! -- the writer's known bytes grow by such a beginning, of a file that is opened under a passphrase; the header also has iterations
//! -- that are allowed
//! abbrev pub AppendsRightBy : (passphrase aad file : List ℕ) (old new : Option (List ℕ)) → Type 0
//! AppendsRightBy passphrase aad file old new =
//!     let s = unlocked passphrase aad file in
//!     AppendsAfter (HasIterations file × HasHeader s (header_of file)) s (core_of file) old new
//! ```
//!
//! Definitions: [`unlocked`](crate::specs::passphrase#unlocked),
//! [`AppendsAfter`](crate::specs::streams#AppendsAfter), [`HasIterations`](crate::specs::passphrase#HasIterations),
//! [`HasHeader`](crate::specs::opening#HasHeader), [`header_of`](crate::specs::opening#header_of),
//! [`core_of`](crate::specs::passphrase#core_of).
//!
//! <div id="AreMessages"></div>
//!
//! ```text
//! -- the messages of n chunks, in order, each of which has its tag under this key: if `is_whole`, the last of them as the last chunk
//! -- of a file, and all others as chunks that are not the last
//! pub data AreMessages (k : ChunkKey) : (n : ℕ) (is_whole : Bool) → List ℕ → Type 0 where
//!   none : AreMessages k 0 false []
//!   next : (n : ℕ) (is_last : Bool) (text chunk : List ℕ) → AreMessages k n false text → HasTag k n is_last chunk
//!       → AreMessages k (n + 1) is_last (text ++ opened_chunk k n is_last chunk)
//! ```
//!
//! Definitions: [`ChunkKey`](crate::specs::format#ChunkKey), [`HasTag`](crate::specs::opening#HasTag),
//! [`opened_chunk`](crate::specs::opening#opened_chunk).
//!
//! <div id="AppendsAuthentic"></div>
//!
//! ```text
//! -- the writer's known bytes grow by the messages of chunks that have their tags under the key of a right header, up to a last chunk:
//! -- what is written of any reader, also of one whose bytes are not known
//! pub record AppendsAuthentic (s : Secret) (old new : Option (List ℕ)) : Type 0 where
//!   pub header : List ℕ
//!   pub right : HasHeader s header
//!   pub count : ℕ
//!   pub text : List ℕ
//!   pub messages : AreMessages (chunk_key s header) count true text
//!   pub written : Appends old new text
//! ```
//!
//! Definitions: [`Secret`](crate::specs::format#Secret), [`HasHeader`](crate::specs::opening#HasHeader),
//! [`AreMessages`](crate::specs::streams#AreMessages), [`chunk_key`](crate::specs::opening#chunk_key).
//!
//! <div id="BeginsAuthentic"></div>
//!
//! ```text
//! -- the writer's known bytes grow by a beginning of such messages, under the key of a header that is right unless there are none
//! pub record BeginsAuthentic (s : Secret) (old new : Option (List ℕ)) : Type 0 where
//!   pub header : List ℕ
//!   pub count : ℕ
//!   pub right : 0 < count → HasHeader s header
//!   pub is_whole : Bool
//!   pub text : List ℕ
//!   pub messages : AreMessages (chunk_key s header) count is_whole text
//!   pub written : AppendsBeginning old new text
//! ```
//!
//! Definitions: [`Secret`](crate::specs::format#Secret), [`HasHeader`](crate::specs::opening#HasHeader),
//! [`AreMessages`](crate::specs::streams#AreMessages), [`chunk_key`](crate::specs::opening#chunk_key),
//! [`AppendsBeginning`](crate::specs::streams#AppendsBeginning).
//!
//! <div id="AppendsAuthenticBy"></div>
//!
//! ```text
//! -- the same under a passphrase, with the random bytes and the iterations of a front that has allowed ones
//! abbrev pub AppendsAuthenticBy : (passphrase aad : List ℕ) (old new : Option (List ℕ)) → Type 0
//! AppendsAuthenticBy passphrase aad old new =
//!     (front : List ℕ) × HasIterations front × AppendsAuthentic (unlocked passphrase aad front) old new
//! ```
//!
//! Definitions: [`HasIterations`](crate::specs::passphrase#HasIterations),
//! [`AppendsAuthentic`](crate::specs::streams#AppendsAuthentic), [`unlocked`](crate::specs::passphrase#unlocked).
//!
//! <div id="BeginsAuthenticBy"></div>
//!
//! ```text
//! abbrev pub BeginsAuthenticBy : (passphrase aad : List ℕ) (old new : Option (List ℕ)) → Type 0
//! BeginsAuthenticBy passphrase aad old new =
//!     (front : List ℕ) × (Keeps old new ⊎ HasIterations front) × BeginsAuthentic (unlocked passphrase aad front) old new
//! ```
//!
//! Definitions: [`HasIterations`](crate::specs::passphrase#HasIterations),
//! [`BeginsAuthentic`](crate::specs::streams#BeginsAuthentic), [`unlocked`](crate::specs::passphrase#unlocked).
