// Written by tools/rust from crates/sealed_file/specs/Passphrase.antt. Don't edit.
//! Files that are sealed under a passphrase: version 3, as SEALED_FILE.md defines it.
//!
//! The definitions of `crates/sealed_file/specs/Passphrase.antt` of the repository.
//!
//! <div id="passphrase_key"></div>
//!
//! ```text
//! -- the key of 32 bytes that a passphrase has for a file: PBKDF2 with HMAC-SHA-256 (RFC 8018 section 5.2)
//! abbrev pub passphrase_key : (passphrase random : List ℕ) (iterations : ℕ) → List ℕ
//! passphrase_key passphrase random iterations = pbkdf2 sha_256 passphrase random iterations 32
//! ```
//!
//! Definitions: [`pbkdf2`](key_derivation::specs::pbkdf2#pbkdf2), [`sha_256`](key_derivation::specs::hash#sha_256).
//!
//! <div id="locked"></div>
//!
//! ```text
//! -- what a file is sealed under: the key of a passphrase for its random bytes, and the AAD, which begins with the iterations
//! abbrev pub locked : (passphrase aad random : List ℕ) (iterations : ℕ) → Secret
//! locked passphrase aad random iterations =
//!     secret_of 3 (passphrase_key passphrase random iterations) (to_be_bytes w32 iterations ++ aad)
//! ```
//!
//! Definitions: [`Secret`](crate::specs::format#Secret), [`secret_of`](crate::specs::format#secret_of),
//! [`passphrase_key`](crate::specs::passphrase#passphrase_key).
//!
//! <div id="fresh_passphrase_key"></div>
//!
//! ```text
//! -- the key of the chunks of a file of version 3, whose header ends with the iterations, after what version 2 has
//! abbrev pub fresh_passphrase_key : (passphrase aad random : List ℕ) (iterations : ℕ) → ChunkKey
//! fresh_passphrase_key passphrase aad random iterations =
//!     let k = fresh_key (locked passphrase aad random iterations) random in
//!     with_header (k.header ++ to_be_bytes w32 iterations) k
//! ```
//!
//! Definitions: [`ChunkKey`](crate::specs::format#ChunkKey), [`fresh_key`](crate::specs::format#fresh_key),
//! [`locked`](crate::specs::passphrase#locked), [`with_header`](crate::specs::format#with_header).
//!
//! <div id="random_of"></div>
//!
//! ```text
//! -- the random bytes in a file's header
//! abbrev pub random_of : List ℕ → List ℕ
//! random_of file = take 19 (drop 9 file)
//! ```
//!
//! <div id="iteration_bytes"></div>
//!
//! ```text
//! -- the iterations in the header of a file of version 3, as its four bytes and as the number
//! abbrev pub iteration_bytes : List ℕ → List ℕ
//! iteration_bytes file = take 4 (drop header_len file)
//! ```
//!
//! Definitions: [`header_len`](crate::specs::opening#header_len).
//!
//! <div id="iterations_of"></div>
//!
//! ```text
//! abbrev pub iterations_of : List ℕ → ℕ
//! iterations_of file = from_be_bytes w32 (iteration_bytes file)
//! ```
//!
//! Definitions: [`iteration_bytes`](crate::specs::passphrase#iteration_bytes).
//!
//! <div id="core_of"></div>
//!
//! ```text
//! -- a file of version 3 without its iterations
//! abbrev pub core_of : List ℕ → List ℕ
//! core_of file = header_of file ++ drop 64 file
//! ```
//!
//! Definitions: [`header_of`](crate::specs::opening#header_of).
//!
//! <div id="unlocked"></div>
//!
//! ```text
//! -- what a file of version 3 without its iterations is sealed under, if it is sealed under this passphrase
//! abbrev pub unlocked : (passphrase aad file : List ℕ) → Secret
//! unlocked passphrase aad file =
//!     secret_of 3 (passphrase_key passphrase (random_of file) (iterations_of file)) (iteration_bytes file ++ aad)
//! ```
//!
//! Definitions: [`Secret`](crate::specs::format#Secret), [`secret_of`](crate::specs::format#secret_of),
//! [`passphrase_key`](crate::specs::passphrase#passphrase_key), [`random_of`](crate::specs::passphrase#random_of),
//! [`iterations_of`](crate::specs::passphrase#iterations_of),
//! [`iteration_bytes`](crate::specs::passphrase#iteration_bytes).
//!
//! <div id="AreAllowed"></div>
//!
//! ```text
//! -- the iterations that a file may have
//! pub record AreAllowed (iterations : ℕ) : Type 0 where
//!   pub some : 0 < iterations
//!   pub few : iterations ≤ 10000000
//! ```
//!
//! <div id="OpensBy"></div>
//!
//! ```text
//! -- a file that opens under a passphrase
//! pub record OpensBy (passphrase aad file : List ℕ) : Type 0 where
//!   pub whole : 64 ≤ length file
//!   pub allowed : AreAllowed (iterations_of file)
//!   pub sealed : IsSealed (unlocked passphrase aad file) (core_of file)
//! ```
//!
//! Definitions: [`AreAllowed`](crate::specs::passphrase#AreAllowed),
//! [`iterations_of`](crate::specs::passphrase#iterations_of), [`IsSealed`](crate::specs::opening#IsSealed),
//! [`unlocked`](crate::specs::passphrase#unlocked), [`core_of`](crate::specs::passphrase#core_of).
//!
//! <div id="opened_by"></div>
//!
//! ```text
//! -- the file that it opens to
//! abbrev pub opened_by : (passphrase aad file : List ℕ) → List ℕ
//! opened_by passphrase aad file = opened_file (unlocked passphrase aad file) (core_of file)
//! ```
//!
//! Definitions: [`opened_file`](crate::specs::opening#opened_file),
//! [`unlocked`](crate::specs::passphrase#unlocked), [`core_of`](crate::specs::passphrase#core_of).
//!
//! <div id="HasIterations"></div>
//!
//! ```text
//! -- the header of a file of version 3 is whole, and its iterations are allowed
//! pub record HasIterations (file : List ℕ) : Type 0 where
//!   pub whole : 64 ≤ length file
//!   pub allowed : AreAllowed (iterations_of file)
//! ```
//!
//! Definitions: [`AreAllowed`](crate::specs::passphrase#AreAllowed),
//! [`iterations_of`](crate::specs::passphrase#iterations_of).
//!
//! <div id="FrontRefuses"></div>
//!
//! ```text
//! -- why bytes don't begin as a file of version 3
//! abbrev pub FrontRefuses : (file : List ℕ) → FileError → Type 0
//! FrontRefuses file EndsEarly = (length file < 9) ⊎ (IsVersion 3 file × (length file < 64))
//! FrontRefuses file (Iterations n) =
//!     IsVersion 3 file × (64 ≤ length file) × (n ≡ iterations_of file) × ¬ AreAllowed (iterations_of file)
//! FrontRefuses file error = VersionRefuses 3 file error
//! ```
//!
//! Definitions: [`IsVersion`](crate::specs::refusals#IsVersion),
//! [`iterations_of`](crate::specs::passphrase#iterations_of), [`AreAllowed`](crate::specs::passphrase#AreAllowed),
//! [`VersionRefuses`](crate::specs::refusals#VersionRefuses).
//!
//! <div id="PassphraseRefuses"></div>
//!
//! ```text
//! -- why a file doesn't open under a passphrase: the key is compared and chunks are opened only with iterations that are allowed
//! abbrev pub PassphraseRefuses : (passphrase aad file : List ℕ) → FileError → Type 0
//! PassphraseRefuses passphrase aad file (Io error) = ⊤
//! PassphraseRefuses passphrase aad file error = FrontRefuses file error
//!     ⊎ (HasIterations file × OpenRefuses (unlocked passphrase aad file) (core_of file) error)
//! ```
//!
//! Definitions: [`FrontRefuses`](crate::specs::passphrase#FrontRefuses),
//! [`HasIterations`](crate::specs::passphrase#HasIterations), [`OpenRefuses`](crate::specs::refusals#OpenRefuses),
//! [`unlocked`](crate::specs::passphrase#unlocked), [`core_of`](crate::specs::passphrase#core_of).
