// Written by tools/rust from crates/sealed_file/specs/Format.antt. Don't edit.
//! Sealed files, as SEALED_FILE.md defines them.
//!
//! The definitions of `crates/sealed_file/specs/Format.antt` of the repository.
//!
//! <div id="chunk_len"></div>
//!
//! ```text
//! -- the length of a chunk that is not the last, in bytes: 64 KiB
//! abbrev pub chunk_len : ℕ
//! chunk_len = 65536
//! ```
//!
//! <div id="sealed_chunk_len"></div>
//!
//! ```text
//! -- the length of such a chunk when it is sealed, with its tag
//! abbrev pub sealed_chunk_len : ℕ
//! sealed_chunk_len = chunk_len + tag_len
//! ```
//!
//! Definitions: [`chunk_len`](crate::specs::format#chunk_len), [`tag_len`](aead_ciphers::specs::gcm#tag_len).
//!
//! <div id="piece"></div>
//!
//! ```text
//! -- piece i of bytes that are cut into pieces of `size` bytes, of which the last may be shorter
//! abbrev pub piece : ℕ → List ℕ → ℕ → List ℕ
//! piece size bytes i = take size (drop (size * i) bytes)
//! ```
//!
//! <div id="last_piece"></div>
//!
//! ```text
//! -- the number of the last piece of so many bytes: no bytes are one empty piece
//! abbrev pub last_piece : ℕ → ℕ → ℕ
//! last_piece size n = (n - 1) / size
//! ```
//!
//! <div id="Secret"></div>
//!
//! ```text
//! -- what a file is sealed under: the version of the format, the key of 32 bytes that the file's key is derived from, and the AAD
//! -- after the first 60 bytes of the header
//! pub record Secret : Type 0 where
//!   pub version : ℕ
//!   pub key : List ℕ
//!   pub aad : List ℕ
//! ```
//!
//! <div id="secret_of"></div>
//!
//! ```text
//! abbrev pub secret_of : (version : ℕ) (key aad : List ℕ) → Secret
//! secret_of version key aad = record { version = version; key = key; aad = aad }
//! ```
//!
//! Definitions: [`Secret`](crate::specs::format#Secret).
//!
//! <div id="secret"></div>
//!
//! ```text
//! -- what a file of version 2 is sealed under: the user's key, and the AAD that the caller binds the file to, which the file
//! -- doesn't hold
//! abbrev pub secret : (key aad : List ℕ) → Secret
//! secret key aad = secret_of 2 key aad
//! ```
//!
//! Definitions: [`Secret`](crate::specs::format#Secret), [`secret_of`](crate::specs::format#secret_of).
//!
//! <div id="ChunkKey"></div>
//!
//! ```text
//! -- the key of a file's chunks: an AES-256-GCM key, the prefix of the nonces, the file's header, and the AAD of every chunk, which
//! -- is the header and then the caller's
//! pub record ChunkKey : Type 0 where
//!   pub key : List ℕ
//!   pub prefix : List ℕ
//!   pub header : List ℕ
//!   pub aad : List ℕ
//! ```
//!
//! <div id="with_header"></div>
//!
//! ```text
//! -- the key of the same chunks in a file with this header
//! abbrev pub with_header : (header : List ℕ) (k : ChunkKey) → ChunkKey
//! with_header header k = record { key = k.key; prefix = k.prefix; header = header; aad = k.aad }
//! ```
//!
//! Definitions: [`ChunkKey`](crate::specs::format#ChunkKey).
//!
//! <div id="magic_and_version"></div>
//!
//! ```text
//! -- the magic and a version
//! abbrev pub magic_and_version : ℕ → List ℕ
//! magic_and_version version = codes "SEALFILE" ++ version ∷ []
//! ```
//!
//! <div id="fresh_key"></div>
//!
//! ```text
//! -- what is made with 19 random bytes: the key derived for the first 12 as the context, the other 7 as the prefix, and a header
//! -- with the random bytes and the commitment to the key
//! unfoldable pub fresh_key : (s : Secret) (random : List ℕ) → ChunkKey
//! fresh_key s random =
//!     let context = take 12 random in
//!     let header = magic_and_version s.version ++ (random ++ commitment s.key context) in record {
//!       key = derived_key s.key context;
//!       prefix = take 7 (drop 12 random);
//!       header = header;
//!       aad = header ++ s.aad;
//!     }
//! ```
//!
//! Definitions: [`Secret`](crate::specs::format#Secret), [`ChunkKey`](crate::specs::format#ChunkKey),
//! [`magic_and_version`](crate::specs::format#magic_and_version),
//! [`commitment`](crate::specs::derivation#commitment), [`derived_key`](xaes::specs::derivation#derived_key).
//!
//! <div id="chunk_nonce"></div>
//!
//! ```text
//! -- the nonce of a chunk: the prefix, the chunk's number in four big-endian bytes, and a byte that is 1 for the last chunk and 0
//! -- otherwise
//! unfoldable pub chunk_nonce : List ℕ → ℕ → Bool → List ℕ
//! chunk_nonce prefix number is_last = prefix ++ to_be_bytes w32 number ++ (if is_last then 1 else 0) ∷ []
//! ```
//!
//! <div id="sealed_chunk"></div>
//!
//! ```text
//! -- a chunk, sealed
//! unfoldable pub sealed_chunk : (k : ChunkKey) (number : ℕ) (is_last : Bool) (chunk : List ℕ) → List ℕ
//! sealed_chunk k number is_last chunk = gcm_sealed (aes k.key) (chunk_nonce k.prefix number is_last) k.aad chunk
//! ```
//!
//! Definitions: [`ChunkKey`](crate::specs::format#ChunkKey), [`gcm_sealed`](aead_ciphers::specs::gcm#gcm_sealed),
//! [`aes`](aead_ciphers_base::specs::aes#aes), [`chunk_nonce`](crate::specs::format#chunk_nonce).
//!
//! <div id="sealed_chunk_of"></div>
//!
//! ```text
//! -- chunk i of a file, sealed
//! abbrev pub sealed_chunk_of : (k : ChunkKey) (file : List ℕ) (i : ℕ) → List ℕ
//! sealed_chunk_of k file i =
//!     sealed_chunk k i (i == last_piece chunk_len (length file)) (piece chunk_len file i)
//! ```
//!
//! Definitions: [`ChunkKey`](crate::specs::format#ChunkKey), [`sealed_chunk`](crate::specs::format#sealed_chunk),
//! [`last_piece`](crate::specs::format#last_piece), [`chunk_len`](crate::specs::format#chunk_len),
//! [`piece`](crate::specs::format#piece).
//!
//! <div id="sealed_chunks"></div>
//!
//! ```text
//! -- the first n chunks of a file, sealed
//! unfoldable pub sealed_chunks : (k : ChunkKey) (file : List ℕ) (n : ℕ) → List ℕ
//! sealed_chunks k file n = concat (each_below n (sealed_chunk_of k file))
//! ```
//!
//! Definitions: [`ChunkKey`](crate::specs::format#ChunkKey),
//! [`each_below`](aead_ciphers_base::specs::bytes#each_below),
//! [`sealed_chunk_of`](crate::specs::format#sealed_chunk_of).
//!
//! <div id="sealed_file"></div>
//!
//! ```text
//! -- a file, sealed
//! abbrev pub sealed_file : (k : ChunkKey) (file : List ℕ) → List ℕ
//! sealed_file k file = k.header ++ sealed_chunks k file (last_piece chunk_len (length file) + 1)
//! ```
//!
//! Definitions: [`ChunkKey`](crate::specs::format#ChunkKey), [`sealed_chunks`](crate::specs::format#sealed_chunks),
//! [`last_piece`](crate::specs::format#last_piece), [`chunk_len`](crate::specs::format#chunk_len).
