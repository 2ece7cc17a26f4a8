// Written by tools/rust from crates/sealed_file/specs/Opening.antt. Don't edit.
//! The sealed files that opening accepts, and the files that they open to.
//!
//! The definitions of `crates/sealed_file/specs/Opening.antt` of the repository.
//!
//! <div id="ciphertext_of"></div>
//!
//! ```text
//! -- the bytes before the tag
//! abbrev pub ciphertext_of : List ℕ → List ℕ
//! ciphertext_of sealed = take (length sealed - tag_len) sealed
//! ```
//!
//! Definitions: [`tag_len`](aead_ciphers::specs::gcm#tag_len).
//!
//! <div id="chunk_tag"></div>
//!
//! ```text
//! -- the tag defined for the ciphertext of the chunk with this number that is the last, or is not
//! abbrev pub chunk_tag : (k : ChunkKey) (number : ℕ) (is_last : Bool) (ciphertext : List ℕ) → List ℕ
//! chunk_tag k number is_last ciphertext = gcm_tag (aes k.key) (chunk_nonce k.prefix number is_last) k.aad ciphertext
//! ```
//!
//! Definitions: [`ChunkKey`](crate::specs::format#ChunkKey), [`gcm_tag`](aead_ciphers::specs::gcm#gcm_tag),
//! [`aes`](aead_ciphers_base::specs::aes#aes), [`chunk_nonce`](crate::specs::format#chunk_nonce).
//!
//! <div id="HasTag"></div>
//!
//! ```text
//! -- the bytes end with the tag defined for the chunk with this number that is the last, or is not
//! pub record HasTag (k : ChunkKey) (number : ℕ) (is_last : Bool) (sealed : List ℕ) : Type 0 where
//!   pub size : tag_len ≤ length sealed
//!   pub tag : drop (length sealed - tag_len) sealed ≡ chunk_tag k number is_last (ciphertext_of sealed)
//! ```
//!
//! Definitions: [`ChunkKey`](crate::specs::format#ChunkKey), [`tag_len`](aead_ciphers::specs::gcm#tag_len),
//! [`chunk_tag`](crate::specs::opening#chunk_tag), [`ciphertext_of`](crate::specs::opening#ciphertext_of).
//!
//! <div id="opened_chunk"></div>
//!
//! ```text
//! -- the message of a sealed chunk
//! unfoldable pub opened_chunk : (k : ChunkKey) (number : ℕ) (is_last : Bool) (sealed : List ℕ) → List ℕ
//! opened_chunk k number is_last sealed =
//!     gcm_decrypted (aes k.key) (chunk_nonce k.prefix number is_last) (ciphertext_of sealed)
//! ```
//!
//! Definitions: [`ChunkKey`](crate::specs::format#ChunkKey),
//! [`gcm_decrypted`](aead_ciphers::specs::gcm#gcm_decrypted), [`aes`](aead_ciphers_base::specs::aes#aes),
//! [`chunk_nonce`](crate::specs::format#chunk_nonce), [`ciphertext_of`](crate::specs::opening#ciphertext_of).
//!
//! <div id="header_len"></div>
//!
//! ```text
//! -- the length of a header: the magic, the version, 19 random bytes and the commitment
//! abbrev pub header_len : ℕ
//! header_len = 60
//! ```
//!
//! <div id="header_of"></div>
//!
//! ```text
//! -- a file's header, or the part of it that the file has
//! abbrev pub header_of : List ℕ → List ℕ
//! header_of file = take header_len file
//! ```
//!
//! Definitions: [`header_len`](crate::specs::opening#header_len).
//!
//! <div id="context_of"></div>
//!
//! ```text
//! -- the context in a file's header
//! abbrev pub context_of : List ℕ → List ℕ
//! context_of file = take 12 (drop 9 file)
//! ```
//!
//! <div id="body_of"></div>
//!
//! ```text
//! -- the bytes after the header
//! abbrev pub body_of : List ℕ → List ℕ
//! body_of file = drop header_len file
//! ```
//!
//! Definitions: [`header_len`](crate::specs::opening#header_len).
//!
//! <div id="chunk_key"></div>
//!
//! ```text
//! -- the key of the chunks after a header, from the 19 random bytes after its magic and version
//! abbrev pub chunk_key : (s : Secret) (header : List ℕ) → ChunkKey
//! chunk_key s header = fresh_key s (take 19 (drop 9 header))
//! ```
//!
//! Definitions: [`Secret`](crate::specs::format#Secret), [`ChunkKey`](crate::specs::format#ChunkKey),
//! [`fresh_key`](crate::specs::format#fresh_key).
//!
//! <div id="HasHeader"></div>
//!
//! ```text
//! -- the bytes are a header under this key: the one defined for its random bytes, with the commitment to this key
//! pub record HasHeader (s : Secret) (header : List ℕ) : Type 0 where
//!   pub right : header ≡ (chunk_key s header).header
//! ```
//!
//! Definitions: [`Secret`](crate::specs::format#Secret), [`chunk_key`](crate::specs::opening#chunk_key).
//!
//! <div id="key_of"></div>
//!
//! ```text
//! -- the key of the chunks of a file
//! abbrev pub key_of : (s : Secret) (file : List ℕ) → ChunkKey
//! key_of s file = chunk_key s (header_of file)
//! ```
//!
//! Definitions: [`Secret`](crate::specs::format#Secret), [`ChunkKey`](crate::specs::format#ChunkKey),
//! [`chunk_key`](crate::specs::opening#chunk_key), [`header_of`](crate::specs::opening#header_of).
//!
//! <div id="last_chunk"></div>
//!
//! ```text
//! -- the number of the last chunk
//! abbrev pub last_chunk : List ℕ → ℕ
//! last_chunk file = last_piece sealed_chunk_len (length (body_of file))
//! ```
//!
//! Definitions: [`last_piece`](crate::specs::format#last_piece),
//! [`sealed_chunk_len`](crate::specs::format#sealed_chunk_len), [`body_of`](crate::specs::opening#body_of).
//!
//! <div id="chunk_of"></div>
//!
//! ```text
//! -- chunk i of a sealed file
//! abbrev pub chunk_of : (file : List ℕ) → ℕ → List ℕ
//! chunk_of file i = piece sealed_chunk_len (body_of file) i
//! ```
//!
//! Definitions: [`piece`](crate::specs::format#piece), [`sealed_chunk_len`](crate::specs::format#sealed_chunk_len),
//! [`body_of`](crate::specs::opening#body_of).
//!
//! <div id="HasTagUnder"></div>
//!
//! ```text
//! -- chunk i of a sealed file has its tag under this key
//! abbrev pub HasTagUnder : (k : ChunkKey) (file : List ℕ) → ℕ → Type 0
//! HasTagUnder k file i = HasTag k i (i == last_chunk file) (chunk_of file i)
//! ```
//!
//! Definitions: [`ChunkKey`](crate::specs::format#ChunkKey), [`HasTag`](crate::specs::opening#HasTag),
//! [`last_chunk`](crate::specs::opening#last_chunk), [`chunk_of`](crate::specs::opening#chunk_of).
//!
//! <div id="HasRightTag"></div>
//!
//! ```text
//! -- chunk i of a sealed file has its tag
//! abbrev pub HasRightTag : (s : Secret) (file : List ℕ) → ℕ → Type 0
//! HasRightTag s file i = HasTagUnder (key_of s file) file i
//! ```
//!
//! Definitions: [`Secret`](crate::specs::format#Secret), [`HasTagUnder`](crate::specs::opening#HasTagUnder),
//! [`key_of`](crate::specs::opening#key_of).
//!
//! <div id="AreRight"></div>
//!
//! ```text
//! -- the first n chunks have their tags
//! pub record AreRight (s : Secret) (file : List ℕ) (n : ℕ) : Type 0 where
//!   pub each : (i : ℕ) → i < n → HasRightTag s file i
//! ```
//!
//! Definitions: [`Secret`](crate::specs::format#Secret), [`HasRightTag`](crate::specs::opening#HasRightTag).
//!
//! <div id="IsSealed"></div>
//!
//! ```text
//! -- the header is right, and every chunk has the tag defined for the header, its number and whether it is the last
//! pub record IsSealed (s : Secret) (file : List ℕ) : Type 0 where
//!   pub front : HasHeader s (header_of file)
//!   pub few : last_chunk file < 2 ^ 32 - 1
//!   pub tags : AreRight s file (last_chunk file + 1)
//! ```
//!
//! Definitions: [`Secret`](crate::specs::format#Secret), [`HasHeader`](crate::specs::opening#HasHeader),
//! [`header_of`](crate::specs::opening#header_of), [`last_chunk`](crate::specs::opening#last_chunk),
//! [`AreRight`](crate::specs::opening#AreRight).
//!
//! <div id="messages_under"></div>
//!
//! ```text
//! -- the messages of the first n chunks under this key, in order
//! unfoldable pub messages_under : (k : ChunkKey) (file : List ℕ) (n : ℕ) → List ℕ
//! messages_under k file n =
//!     concat (each_below n (λ i. opened_chunk k i (i == last_chunk file) (chunk_of file i)))
//! ```
//!
//! Definitions: [`ChunkKey`](crate::specs::format#ChunkKey),
//! [`each_below`](aead_ciphers_base::specs::bytes#each_below),
//! [`opened_chunk`](crate::specs::opening#opened_chunk), [`last_chunk`](crate::specs::opening#last_chunk),
//! [`chunk_of`](crate::specs::opening#chunk_of).
//!
//! <div id="plaintext_under"></div>
//!
//! ```text
//! -- the messages of all chunks under this key, in order
//! abbrev pub plaintext_under : (k : ChunkKey) (file : List ℕ) → List ℕ
//! plaintext_under k file = messages_under k file (last_chunk file + 1)
//! ```
//!
//! Definitions: [`ChunkKey`](crate::specs::format#ChunkKey),
//! [`messages_under`](crate::specs::opening#messages_under), [`last_chunk`](crate::specs::opening#last_chunk).
//!
//! <div id="opened_chunks"></div>
//!
//! ```text
//! -- the messages of the first n chunks, in order
//! abbrev pub opened_chunks : (s : Secret) (file : List ℕ) (n : ℕ) → List ℕ
//! opened_chunks s file n = messages_under (key_of s file) file n
//! ```
//!
//! Definitions: [`Secret`](crate::specs::format#Secret), [`messages_under`](crate::specs::opening#messages_under),
//! [`key_of`](crate::specs::opening#key_of).
//!
//! <div id="opened_file"></div>
//!
//! ```text
//! -- the messages of all chunks, in order
//! abbrev pub opened_file : (s : Secret) (file : List ℕ) → List ℕ
//! opened_file s file = plaintext_under (key_of s file) file
//! ```
//!
//! Definitions: [`Secret`](crate::specs::format#Secret),
//! [`plaintext_under`](crate::specs::opening#plaintext_under), [`key_of`](crate::specs::opening#key_of).
//!
//! <div id="IsSealedLen"></div>
//!
//! ```text
//! -- the length of a sealed file: a header, and fewer than 2^32 chunks that each hold a tag
//! pub record IsSealedLen (n : ℕ) : Type 0 where
//!   pub header : header_len ≤ n
//!   pub tag : sealed_chunk_len * last_piece sealed_chunk_len (n - header_len) + tag_len ≤ n - header_len
//!   pub few : last_piece sealed_chunk_len (n - header_len) < 2 ^ 32 - 1
//! ```
//!
//! Definitions: [`header_len`](crate::specs::opening#header_len),
//! [`sealed_chunk_len`](crate::specs::format#sealed_chunk_len), [`last_piece`](crate::specs::format#last_piece),
//! [`tag_len`](aead_ciphers::specs::gcm#tag_len).
//!
//! <div id="IsMade"></div>
//!
//! ```text
//! -- sealing the file made these bytes as chunk i, the last or not
//! pub record IsMade (k : ChunkKey) (file : List ℕ) (i : ℕ) (is_last : Bool) (sealed : List ℕ) : Type 0 where
//!   pub in_range : i ≤ last_piece chunk_len (length file)
//!   pub kind : is_last ≡ (i == last_piece chunk_len (length file))
//!   pub same : sealed ≡ sealed_chunk_of k file i
//! ```
//!
//! Definitions: [`ChunkKey`](crate::specs::format#ChunkKey), [`last_piece`](crate::specs::format#last_piece),
//! [`chunk_len`](crate::specs::format#chunk_len), [`sealed_chunk_of`](crate::specs::format#sealed_chunk_of).
//!
//! <div id="IsForged"></div>
//!
//! ```text
//! -- chunk i of another file has the tag defined for its number and for whether it is the last, but sealing the file made another
//! -- chunk there or none
//! pub record IsForged (k : ChunkKey) (file other : List ℕ) (i : ℕ) : Type 0 where
//!   pub in_range : i ≤ last_chunk other
//!   pub tag : HasTag k i (i == last_chunk other) (chunk_of other i)
//!   pub new : ¬ IsMade k file i (i == last_chunk other) (chunk_of other i)
//! ```
//!
//! Definitions: [`ChunkKey`](crate::specs::format#ChunkKey), [`last_chunk`](crate::specs::opening#last_chunk),
//! [`HasTag`](crate::specs::opening#HasTag), [`chunk_of`](crate::specs::opening#chunk_of),
//! [`IsMade`](crate::specs::opening#IsMade).
