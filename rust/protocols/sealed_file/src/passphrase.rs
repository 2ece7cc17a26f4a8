// Written by tools/rust from crates/sealed_file/src/passphrase.rt. Don't edit.
//! Sealing and opening files under a passphrase: version 3 of the format.

use crate::error::FileError;
use crate::header::{ChunkCipher, FRONT_LEN, HEADER_LEN, RANDOM_LEN, check_front, header_of};
use crate::key::FileKey;
use crate::opening::open_version;
use crate::random::FileRandom;
use crate::sealing::seal_under;
use crate::stream::read_piece;
use aead_ciphers_base::aes::AES_256_KEY_LEN;
use deerlapse::memory::TryGrow;
use key_derivation::pbkdf2::pbkdf2;
use sha2::Sha256;
use std::io::{self, Read, Write};

/// The version of the format of a file that is sealed under a passphrase.
pub const PASSPHRASE_VERSION: u8 = 3;

/// The length in bytes of the number of iterations in the header.
pub(crate) const ITERATIONS_LEN: usize = 4;

/// The length in bytes of the header of a file that is sealed under a passphrase: that of any file, and the iterations.
pub const PASSPHRASE_HEADER_LEN: usize = HEADER_LEN + ITERATIONS_LEN;

/// The number of iterations of PBKDF2 to seal a file with.
pub const ITERATIONS: u32 = 600_000;

/// The maximum number of iterations of a file.
pub const MAX_ITERATIONS: u32 = 10_000_000;

/// Derives the key of a passphrase for a file with these random bytes.
// requires { 0 < iterations }
// ensures { result ≡ passphrase_key passphrase.now random.now iterations }
fn passphrase_key(passphrase: &[u8], random: &[u8], iterations: u32) -> FileKey {
    let mut bytes = [0; AES_256_KEY_LEN];
    match pbkdf2::<Sha256>(passphrase, random, iterations, &mut bytes) {
        Ok(()) => FileKey { bytes },
        Err(_) => unreachable!(),
    }
}

/// Returns `first` followed by `second`.
// ensures { IfOk result (λ both. both.items ≡ first.now ++ second.now) }
fn concatenated(first: &[u8], second: &[u8]) -> io::Result<Vec<u8>> {
    let mut both = Vec::new();
    both.try_extend_from_slice(first)?;
    both.try_extend_from_slice(second)?;
    Ok(both)
}

/// Seals the bytes of `input` under a passphrase, and writes the sealed file to `output`.
///
/// The key is derived by PBKDF2 with HMAC-SHA-256 from the passphrase, the random bytes and the iterations, which are 1 to
/// `MAX_ITERATIONS`: `ITERATIONS`, unless the passphrase is as hard to guess as a key. The file is bound to `aad`, at most
/// `MAX_AAD_LEN` bytes, as by `seal_with_aad`.
///
/// # Errors
///
/// Fails with the errors of `seal`. What was written by then is the beginning of the sealed file.
///
/// # Panics
///
/// Panics if `iterations` is 0 or more than `MAX_ITERATIONS`, or if `aad` has more than `MAX_AAD_LEN` bytes.
///
/// <details><summary>Contract</summary>
///
/// ```text
/// requires iterations { AreAllowed iterations }
/// requires aad { length aad.now ≤ 4096 }
/// ensures few { OnOk result (IfSome (R.remaining input.old) (λ file.
///     last_piece chunk_len (length file) < 2 ^ 32 - 1)) }
/// ensures sealed { OnOk result (IfSome (R.remaining input.old) (λ file.
///     Appends (W.contents output.old) (W.contents output.new)
///     (sealed_file (fresh_passphrase_key passphrase.now aad.now random iterations) file))) }
/// ensures refused { IfErr result (λ error. IfSome (R.remaining input.old) (λ file.
///     SealRefuses file error)) }
/// ensures beginning { OnErr result (IfSome (R.remaining input.old) (λ file.
///     AppendsBeginning (W.contents output.old) (W.contents output.new)
///     (sealed_file (fresh_passphrase_key passphrase.now aad.now random iterations) file))) }
/// ```
///
/// Definitions: [`AreAllowed`](crate::specs::passphrase#AreAllowed),
/// [`last_piece`](crate::specs::format#last_piece), [`chunk_len`](crate::specs::format#chunk_len),
/// [`sealed_file`](crate::specs::format#sealed_file),
/// [`fresh_passphrase_key`](crate::specs::passphrase#fresh_passphrase_key),
/// [`SealRefuses`](crate::specs::refusals#SealRefuses),
/// [`AppendsBeginning`](crate::specs::streams#AppendsBeginning).
///
/// </details>
pub fn seal_with_passphrase<R: Read, W: Write>(
    passphrase: &[u8],
    iterations: u32,
    random: FileRandom,
    aad: &[u8],
    input: &mut R,
    output: &mut W,
) -> Result<(), FileError> {
    assert!(
        (1..=MAX_ITERATIONS).contains(&iterations),
        "iterations is 0 or more than MAX_ITERATIONS"
    );
    assert!(
        aad.len() <= crate::MAX_AAD_LEN,
        "aad has more than MAX_AAD_LEN bytes"
    );

    let bytes = iterations.to_be_bytes();
    let aad = concatenated(&bytes, aad)?;
    let key = passphrase_key(passphrase, random.as_bytes(), iterations);
    let cipher = ChunkCipher::new(PASSPHRASE_VERSION, &key, &aad, &random);
    let header = concatenated(cipher.header(), &bytes)?;
    seal_under(&header, &cipher, input, output)
}

/// Returns the iterations in the header of a file of version 3 that begins with these bytes. The commitment is not compared.
///
/// # Errors
///
/// Fails with `EndsEarly` if the bytes end within the magic or the version, and otherwise with the first that is so:
/// `AnotherMagic`; `AnotherVersion`; `EndsEarly`, if they end within the header; and `Iterations`, if those are 0 or more than
/// `MAX_ITERATIONS`.
///
/// <details><summary>Contract</summary>
///
/// ```text
/// ensures front { IsOk result → IsVersion 3 (header_of file.now) }
/// ensures whole { IsOk result → 64 ≤ length file.now }
/// ensures iterations { IfOk result (λ iterations. iterations ≡ iterations_of file.now) }
/// ensures allowed { IfOk result (λ iterations. AreAllowed iterations) }
/// ensures refused { IfErr result (λ error. FrontRefuses file.now error) }
/// ```
///
/// Definitions: [`IsVersion`](crate::specs::refusals#IsVersion), [`header_of`](crate::specs::opening#header_of),
/// [`iterations_of`](crate::specs::passphrase#iterations_of), [`AreAllowed`](crate::specs::passphrase#AreAllowed),
/// [`FrontRefuses`](crate::specs::passphrase#FrontRefuses).
///
/// </details>
pub fn iterations_in(file: &[u8]) -> Result<u32, FileError> {
    check_front(PASSPHRASE_VERSION, header_of(file))?;
    if file.len() < PASSPHRASE_HEADER_LEN {
        return Err(FileError::EndsEarly);
    }
    let mut bytes = [0; ITERATIONS_LEN];
    bytes.copy_from_slice(&file[HEADER_LEN..PASSPHRASE_HEADER_LEN]);
    let iterations = u32::from_be_bytes(bytes);
    if iterations == 0 || iterations > MAX_ITERATIONS {
        return Err(FileError::Iterations(iterations));
    }
    Ok(iterations)
}

/// What a file of version 3 is sealed under: the key of the passphrase, and the AAD after the first `HEADER_LEN` bytes of the
/// header.
struct Unlocked {
    key: FileKey,
    aad: Vec<u8>,
}

/// Derives what a file is sealed under, if it is sealed under this passphrase. It begins with these bytes, and has these
/// iterations.
// requires whole { 64 ≤ length file.now }
// requires iterations { iterations ≡ iterations_of file.now }
// requires some { 0 < iterations }
// requires aad { length aad.now ≤ 4096 }
// ensures made { IfOk result (λ made. secret_of 3 made.key made.aad.items
//     ≡ unlocked passphrase.now aad.now file.now) }
// ensures aad { IfOk result (λ made. length made.aad.items ≤ 4100) }
fn derive_key_and_aad(
    passphrase: &[u8],
    aad: &[u8],
    file: &[u8],
    iterations: u32,
) -> io::Result<Unlocked> {
    let random = &file[FRONT_LEN..FRONT_LEN + RANDOM_LEN];
    let key = passphrase_key(passphrase, random, iterations);
    let aad = concatenated(&file[HEADER_LEN..PASSPHRASE_HEADER_LEN], aad)?;
    Ok(Unlocked { key, aad })
}

/// Opens the file in `input` that is sealed under a passphrase, and writes the file to `output`, as `open_with_aad` does.
///
/// # Errors
///
/// Fails with the errors of `open`: `AnotherVersion` for a file that is sealed under a key, and `WrongKey` for another
/// passphrase. Fails with `Iterations` if a whole header of version 3 has 0 iterations or more than `MAX_ITERATIONS`, before it
/// derives the key and writes anything.
///
/// # Panics
///
/// Panics if `aad` has more than `MAX_AAD_LEN` bytes.
///
/// <details><summary>Contract</summary>
///
/// ```text
/// requires { length aad.now ≤ 4096 }
/// ensures accepted { OnOk result (IfSome (R.remaining input.old) (λ file.
///     OpensBy passphrase.now aad.now file)) }
/// ensures opened { OnOk result (IfSome (R.remaining input.old) (λ file.
///     Appends (W.contents output.old) (W.contents output.new)
///     (opened_by passphrase.now aad.now file))) }
/// ensures refused { IfErr result (λ error. IfSome (R.remaining input.old) (λ file.
///     PassphraseRefuses passphrase.now aad.now file error)) }
/// ensures nothing_past { OnErr result (IfSome (R.remaining input.old) (λ file.
///     AppendsRightBy passphrase.now aad.now file (W.contents output.old) (W.contents output.new))) }
/// ensures authentic { OnOk result
///     (AppendsAuthenticBy passphrase.now aad.now (W.contents output.old) (W.contents output.new)) }
/// ensures authentic_part { OnErr result
///     (BeginsAuthenticBy passphrase.now aad.now (W.contents output.old) (W.contents output.new)) }
/// ```
///
/// Definitions: [`OpensBy`](crate::specs::passphrase#OpensBy), [`opened_by`](crate::specs::passphrase#opened_by),
/// [`PassphraseRefuses`](crate::specs::passphrase#PassphraseRefuses),
/// [`AppendsRightBy`](crate::specs::streams#AppendsRightBy),
/// [`AppendsAuthenticBy`](crate::specs::streams#AppendsAuthenticBy),
/// [`BeginsAuthenticBy`](crate::specs::streams#BeginsAuthenticBy).
///
/// </details>
pub fn open_with_passphrase<R: Read, W: Write>(
    passphrase: &[u8],
    aad: &[u8],
    input: &mut R,
    output: &mut W,
) -> Result<(), FileError> {
    assert!(
        aad.len() <= crate::MAX_AAD_LEN,
        "aad has more than MAX_AAD_LEN bytes"
    );

    let mut header = Vec::new();
    read_piece(input, PASSPHRASE_HEADER_LEN, &mut header)?;
    let iterations = iterations_in(&header)?;
    let unlocked = derive_key_and_aad(passphrase, aad, &header, iterations)?;
    let mut core = header_of(&header).chain(input);
    open_version(
        PASSPHRASE_VERSION,
        &unlocked.key,
        &unlocked.aad,
        &mut core,
        output,
    )
}
