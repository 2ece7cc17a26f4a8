// Written by tools/rust from crates/sealed_file/src/header.rt. Don't edit.
//! The header of a sealed file, and the key of the chunks after it.

use crate::aad::ChunkAad;
use crate::derivation::commitment;
use crate::error::FileError;
use crate::key::FileKey;
use crate::random::FileRandom;
use aead_ciphers::aead::{AES_256_GCM, UnboundKey};
use aead_ciphers_base::aes::AES_256_KEY_LEN;
use aead_ciphers_base::bb;
use aead_ciphers_wide::aead::LessSafeKey;
pub use xaes::{CONTEXT_LEN, Context};

/// The first bytes of a sealed file.
pub const MAGIC: [u8; 8] = *b"SEALFILE";

/// The version of the format of a file that is sealed under a key, after the magic.
pub const VERSION: u8 = 2;

/// The position of the version.
const VERSION_AT: usize = 8;

/// The length of the magic and the version, in bytes.
pub(crate) const FRONT_LEN: usize = VERSION_AT + 1;

/// The length in bytes of the prefix of a file's nonces.
pub const PREFIX_LEN: usize = 7;

/// The length in bytes of the random part of a header: a context and a prefix.
pub const RANDOM_LEN: usize = CONTEXT_LEN + PREFIX_LEN;

/// The length in bytes of the commitment to the key.
const COMMITMENT_LEN: usize = AES_256_KEY_LEN;

/// The length in bytes of a header: the magic, the version, the random bytes and the commitment to the key.
pub const HEADER_LEN: usize = FRONT_LEN + RANDOM_LEN + COMMITMENT_LEN;

/// The prefix of a file's nonces.
pub(crate) type Prefix = [u8; PREFIX_LEN];

/// The key of a file's chunks: an AES-256-GCM key, the prefix of the nonces, the header, and the AAD of
/// every chunk.
// Model:
// ghost Value = { ChunkKey };
// ghost view = { λ cipher. record {
//   key = cipher.key.bytes;
//   prefix = cipher.prefix;
//   header = cipher.header;
//   aad = cipher.aad;
// } };
pub(crate) struct ChunkCipher {
    pub(crate) key: LessSafeKey,
    pub(crate) prefix: Prefix,
    header: [u8; HEADER_LEN],
    aad: ChunkAad,
}

impl ChunkCipher {
    /// Returns the file's header.
    // ensures bytes { result.now ≡ self.now.header }
    // ensures len { length result.now ≡ header_len }
    pub(crate) fn header(&self) -> &[u8] {
        &self.header
    }

    /// Returns the AAD of each chunk.
    // ensures bytes { result.now ≡ self.now.aad }
    // ensures len { length result.now ≤ 4160 }
    pub(crate) fn aad(&self) -> &[u8] {
        self.aad.as_slice()
    }

    /// Creates the key of the chunks of a file of this version with these random bytes. `aad` is the AAD after the header.
    // requires { length aad.now ≤ 4100 }
    // ensures made { result ≡ fresh_key (secret_of version key.now aad.now) random.now }
    // ensures size { length result.header ≡ header_len }
    pub(crate) fn new(version: u8, key: &FileKey, aad: &[u8], random: &FileRandom) -> ChunkCipher {
        let random = random.as_bytes();
        let context = context_of(random);
        let xaes = key.xaes();
        let header = header_with(version, random, &commitment(&xaes, &context));
        ChunkCipher {
            key: aead_key(&xaes.derived_key(&context)),
            prefix: prefix_of(random),
            header,
            aad: ChunkAad::new(&header, aad),
        }
    }
}

/// The AES-256-GCM key with these bytes.
// ensures { result.bytes ≡ bytes.now }
fn aead_key(bytes: &[u8; AES_256_KEY_LEN]) -> LessSafeKey {
    match UnboundKey::new(&AES_256_GCM, bytes) {
        Ok(key) => LessSafeKey::new(key),
        Err(_) => unreachable!(),
    }
}

/// The context: the first of the random bytes of a header.
// ensures { result ≡ take 12 random.now }
fn context_of(random: &[u8; RANDOM_LEN]) -> Context {
    let mut context = [0; CONTEXT_LEN];
    context.copy_from_slice(&random[..CONTEXT_LEN]);
    context
}

/// The prefix: the random bytes after the context.
// ensures { result ≡ take 7 (drop 12 random.now) }
fn prefix_of(random: &[u8; RANDOM_LEN]) -> Prefix {
    let mut prefix = [0; PREFIX_LEN];
    prefix.copy_from_slice(&random[CONTEXT_LEN..RANDOM_LEN]);
    prefix
}

/// Copies `bytes` into `all`, from index `at` on.
// requires { at + length bytes.now ≤ length all.old }
// ensures { all.new ≡ take at all.old ++ (bytes.now ++ drop (at + length bytes.now) all.old) }
pub(crate) fn copy_at(bytes: &[u8], all: &mut [u8], at: usize) {
    all[at..at + bytes.len()].copy_from_slice(bytes);
}

/// Returns the header of this version with these random bytes and this commitment.
// ensures { result ≡ magic_and_version version ++ (random.now ++ commitment.now) }
fn header_with(
    version: u8,
    random: &[u8; RANDOM_LEN],
    commitment: &[u8; COMMITMENT_LEN],
) -> [u8; HEADER_LEN] {
    let mut header = [0; HEADER_LEN];
    copy_at(&MAGIC, &mut header, 0);
    copy_at(&[version], &mut header, VERSION_AT);
    copy_at(random, &mut header, FRONT_LEN);
    copy_at(commitment, &mut header, FRONT_LEN + RANDOM_LEN);
    header
}

/// Returns the header of a file that begins with these bytes, or the part of it that they hold.
// ensures { result.now ≡ header_of file.now }
pub(crate) fn header_of(file: &[u8]) -> &[u8] {
    if file.len() < HEADER_LEN {
        file
    } else {
        &file[..HEADER_LEN]
    }
}

/// The random bytes of a header.
// ensures { result ≡ take 19 (drop 9 header.now) }
fn random_in(header: &[u8; HEADER_LEN]) -> FileRandom {
    let mut random = [0; RANDOM_LEN];
    random.copy_from_slice(&header[FRONT_LEN..FRONT_LEN + RANDOM_LEN]);
    FileRandom::of_bytes(random)
}

/// # Errors
///
/// Fails unless a header begins with the magic and this version.
// ensures front { IsOk result → IsVersion version header.now }
// ensures refused { IfErr result (λ error. VersionRefuses version header.now error) }
pub(crate) fn check_front(version: u8, header: &[u8]) -> Result<(), FileError> {
    let Some(front) = header.first_chunk::<FRONT_LEN>() else {
        return Err(FileError::EndsEarly);
    };
    let [m0, m1, m2, m3, m4, m5, m6, m7, found] = *front;
    if [m0, m1, m2, m3, m4, m5, m6, m7] != MAGIC {
        return Err(FileError::AnotherMagic);
    }
    if found != version {
        return Err(FileError::AnotherVersion(found));
    }
    Ok(())
}

/// # Errors
///
/// Fails unless these bytes begin with the magic, version 2 and a whole header. The commitment is not compared.
///
/// <details><summary>Contract</summary>
///
/// ```text
/// ensures accepted { IsOk result → IsVersion 2 (header_of file.now) }
/// ensures whole { IsOk result → header_len ≤ length file.now }
/// ensures refused { (key aad : List ℕ) → IfErr result (λ error.
///     HeaderRefuses (secret key aad) (header_of file.now) error) }
/// ```
///
/// Definitions: [`IsVersion`](crate::specs::refusals#IsVersion), [`header_of`](crate::specs::opening#header_of),
/// [`header_len`](crate::specs::opening#header_len), [`HeaderRefuses`](crate::specs::refusals#HeaderRefuses),
/// [`secret`](crate::specs::format#secret).
///
/// </details>
pub fn check_header(file: &[u8]) -> Result<(), FileError> {
    check_front(VERSION, header_of(file))?;
    if file.len() < HEADER_LEN {
        return Err(FileError::EndsEarly);
    }
    Ok(())
}

/// Returns the key of the chunks after this header, if it is one of this version. `aad` is the AAD after it. The whole header is
/// compared with the one that the key defines for its random bytes.
// requires header { length header.now ≤ header_len }
// requires aad { length aad.now ≤ 4100 }
// ensures accepted { IsOk result ↔ HasHeader (secret_of version key.now aad.now) header.now }
// ensures cipher { IfOk result (λ cipher. cipher ≡ chunk_key (secret_of version key.now aad.now) header.now) }
// ensures refused { IfErr result (λ error. HeaderRefuses (secret_of version key.now aad.now) header.now error) }
fn cipher_in(
    version: u8,
    key: &FileKey,
    aad: &[u8],
    header: &[u8],
) -> Result<ChunkCipher, FileError> {
    check_front(version, header)?;
    let Some(header) = simd::array_of::<_, HEADER_LEN>(header) else {
        return Err(FileError::EndsEarly);
    };
    let cipher = ChunkCipher::new(version, key, aad, &random_in(header));
    bb::verify_slices_are_equal(header, cipher.header()).map_err(|_| FileError::WrongKey)?;
    Ok(cipher)
}

/// The key of the chunks of a file that begins with these bytes, if it has this version. `aad` is the AAD after the header.
// requires { length aad.now ≤ 4100 }
// ensures accepted { IsOk result ↔ HasHeader (secret_of version key.now aad.now) (header_of file.now) }
// ensures cipher { IfOk result (λ cipher. cipher ≡ chunk_key (secret_of version key.now aad.now) (header_of file.now)) }
// ensures refused { IfErr result (λ error. HeaderRefuses (secret_of version key.now aad.now) (header_of file.now) error) }
pub(crate) fn cipher_of(
    version: u8,
    key: &FileKey,
    aad: &[u8],
    file: &[u8],
) -> Result<ChunkCipher, FileError> {
    cipher_in(version, key, aad, header_of(file))
}
