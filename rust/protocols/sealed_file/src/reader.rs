// Written by tools/rust from crates/sealed_file/src/reader.rt. Don't edit.
//! Reading a sealed file at any position.

use crate::chunk::{CHUNK_LEN, MAX_CHUNKS, SEALED_CHUNK_LEN, open_ciphertext};
use crate::error::FileError;
use crate::header::{ChunkCipher, HEADER_LEN, VERSION, cipher_of};
use crate::key::FileKey;
use crate::read_at::{ReadAt, read_slice_at};
use aead_ciphers::aead::MAX_TAG_LEN;
use deerlapse::memory::{TryGrow, try_with_capacity};

/// Where the chunks of a sealed file are in the input.
#[derive(Clone, Copy)]
struct Layout {
    /// The position of the sealed file.
    start: u64,
    /// The number of the last chunk.
    last: u32,
    /// The length of the last chunk's message.
    last_len: usize,
}

/// A sealed file that is read at any position.
///
/// It keeps the message of one chunk in memory: that of the last call that read bytes, or none after an error.
///
/// # Examples
///
/// A file that is sealed under a passphrase isn't read so: `new` fails with `AnotherVersion(3)`. To read parts of such a file, seal it
/// under a `FileKey` that is drawn at random, and seal the bytes of that key by `seal_with_passphrase`.
///
/// Over a `File`, making a reader moves the position of the file.
///
/// Reads a part of a sealed file that begins at byte 6 of the input. No read goes beyond the end of a chunk, so the loop makes two.
///
/// ```
/// use deerlapse_file::{CHUNK_LEN, FileError, FileKey, FileRandom, SealedReader, seal_bytes};
/// use std::fs::File;
///
/// fn main() -> Result<(), FileError> {
///     let key = FileKey::new(&[7; 32])?; // not a real key, which is drawn at random and kept secret
///     let random = FileRandom::draw(&mut File::open("/dev/urandom")?)?;
///     let file: Vec<u8> = (0..=255).cycle().take(2 * CHUNK_LEN).collect();
///     let mut input = b"before".to_vec();
///     seal_bytes(&key, random, &file, &mut input)?;
///
///     let mut reader = SealedReader::new(&key, &[], input.as_slice(), 6)?;
///     assert_eq!(reader.len(), file.len() as u64);
///
///     let at = CHUNK_LEN - 10;
///     let mut part = [0; 100];
///     let mut filled = 0;
///     while filled < part.len() {
///         match reader.read_at((at + filled) as u64, &mut part[filled..])? {
///             0 => break,
///             count => filled += count,
///         }
///     }
///     assert_eq!(part[..filled], file[at..at + 100]);
///     Ok(())
/// }
/// ```
///
/// <details><summary>Model</summary>
///
/// ```text
/// ghost Value = { ReaderState };
/// ghost view = { λ r. record {
///   key = r.cipher;
///   file = file_from r.layout.start (R.bytes r.input);
///   contents = R.contents r.input;
///   len = chunk_len * r.layout.last + r.layout.last_len;
///   start = r.layout.start;
///   last = r.layout.last;
///   held = r.held;
/// } };
/// ghost invariant = { λ r. IsReader r.cipher (file_from r.layout.start (R.bytes r.input)) (R.contents r.input)
///     r.layout.start r.layout.last r.layout.last_len r.held r.buffer.items };
/// ```
///
/// Definitions: [`ReaderState`](crate::specs::reader#ReaderState), [`file_from`](crate::specs::reader#file_from),
/// [`chunk_len`](crate::specs::format#chunk_len), [`IsReader`](crate::specs::reader#IsReader).
///
/// </details>
pub struct SealedReader<R: ReadAt> {
    input: R,
    cipher: ChunkCipher,
    layout: Layout,
    /// The number of the chunk whose message is at the front of the buffer.
    held: Option<u32>,
    buffer: Vec<u8>,
}

/// Returns the number of the last chunk of a sealed file of this length, and the length of its message.
// ensures accepted { IsOk result ↔ IsSealedLen sealed_len }
// ensures last { IfOk result (λ last. last.0 ≡ last_piece sealed_chunk_len (sealed_len - header_len)) }
// ensures len { IfOk result (λ last. last.1 ≡ sealed_len - header_len - sealed_chunk_len * last.0 - tag_len) }
// ensures short { IfOk result (λ last. last.1 ≤ chunk_len) }
// ensures refused { IfErr result (λ error. LengthRefuses sealed_len error) }
pub(crate) fn last_chunk_of_len(sealed_len: u64) -> Result<(u32, usize), FileError> {
    let Some(body) = sealed_len.checked_sub(HEADER_LEN as u64) else {
        return Err(FileError::EndsEarly);
    };
    let last = body.saturating_sub(1) / SEALED_CHUNK_LEN as u64;
    if last >= u64::from(MAX_CHUNKS) {
        return Err(FileError::TooLong);
    }
    let in_last = body - last * SEALED_CHUNK_LEN as u64;
    if in_last < MAX_TAG_LEN as u64 {
        return Err(FileError::EndsEarly);
    }
    Ok((last as u32, (in_last - MAX_TAG_LEN as u64) as usize))
}

/// The length of the message of a chunk, given the last chunk and the length of its message.
// requires { last_len ≤ chunk_len }
// ensures value { result ≡ message_len last last_len number }
// ensures short { result ≤ chunk_len }
fn message_len(number: u32, last: u32, last_len: usize) -> usize {
    if number == last { last_len } else { CHUNK_LEN }
}

/// The number of the chunk that has a byte of the file, and its place in the chunk's message. Returns `None` past the end.
// requires { last_len ≤ chunk_len }
// ensures known { IsSome result ↔ (offset < chunk_len * last + last_len) }
// ensures number { IfSome result (λ place. place.0 ≡ offset / chunk_len) }
// ensures at { IfSome result (λ place. place.1 ≡ offset % chunk_len) }
// ensures in_range { IfSome result (λ place. place.0 ≤ last) }
// ensures within { IfSome result (λ place. place.1 < message_len last last_len place.0) }
fn place_of(offset: u64, last: u32, last_len: usize) -> Option<(u32, u64)> {
    if offset >= u64::from(last) * CHUNK_LEN as u64 + last_len as u64 {
        return None;
    }
    let number = offset / CHUNK_LEN as u64;
    Some((number as u32, offset % CHUNK_LEN as u64))
}

/// Reads the header of the file that begins at `start`, and returns the key of its chunks.
// requires { length aad.now ≤ 4096 }
// ensures accepted { IfSome (file_from start (R.bytes input.old)) (λ file.
//     IsOk result ↔ HasHeader (secret key.now aad.now) (header_of file)) }
// ensures key { IfSome (file_from start (R.bytes input.old)) (λ file.
//     IfOk result (λ cipher. cipher ≡ key_of (secret key.now aad.now) file)) }
// ensures refused { IfSome (file_from start (R.bytes input.old)) (λ file.
//     IfErr result (λ error. HeaderRefuses (secret key.now aad.now) (header_of file) error)) }
// ensures authentic_key { IfOk result (λ cipher.
//     IsAuthenticKey (R.contents input.old) start (secret key.now aad.now) cipher) }
// ensures same { R.bytes input.new ≡ R.bytes input.old }
// ensures steady { R.contents input.new ≡ R.contents input.old }
fn read_chunk_cipher<R: ReadAt>(
    input: &mut R,
    start: u64,
    key: &FileKey,
    aad: &[u8],
) -> Result<ChunkCipher, FileError> {
    let mut header = [0; HEADER_LEN];
    let count = input.read_at(start, &mut header)?;
    cipher_of(VERSION, key, aad, &header[..count])
}

/// Returns the length of the sealed file that begins at `start`.
// ensures known { IfSome (file_from start (R.bytes input.old)) (λ file. IsOk result) }
// ensures value { IfSome (file_from start (R.bytes input.old)) (λ file. IfOk result (λ n. n ≡ length file)) }
// ensures fits { IfOk result (λ n. 0 < n → start + n < 2 ^ 64) }
// ensures same { R.bytes input.new ≡ R.bytes input.old }
// ensures steady { R.contents input.new ≡ R.contents input.old }
fn sealed_len_of<R: ReadAt>(input: &mut R, start: u64) -> Result<u64, FileError> {
    let end = input.size()?;
    Ok(end.saturating_sub(start))
}

/// Returns where the chunks are in the sealed file that begins at `start`, from its length.
// ensures accepted { IfSome (file_from start (R.bytes input.old)) (λ file. IsOk result ↔ IsSealedLen (length file)) }
// ensures ends { IfSome (file_from start (R.bytes input.old)) (λ file.
//     IfOk result (λ layout. EndsAt file layout.last layout.last_len)) }
// ensures start { IfOk result (λ layout. layout.start ≡ start) }
// ensures few { IfOk result (λ layout. layout.last < 2 ^ 32 - 1) }
// ensures short { IfOk result (λ layout. layout.last_len ≤ chunk_len) }
// ensures fits { IfOk result (λ layout.
//     start + header_len + sealed_chunk_len * layout.last + layout.last_len + tag_len < 2 ^ 64) }
// ensures refused { IfSome (file_from start (R.bytes input.old)) (λ file.
//     IfErr result (λ error. LengthRefuses (length file) error)) }
// ensures same { R.bytes input.new ≡ R.bytes input.old }
// ensures steady { R.contents input.new ≡ R.contents input.old }
fn layout_of<R: ReadAt>(input: &mut R, start: u64) -> Result<Layout, FileError> {
    let sealed_len = sealed_len_of(input, start)?;
    let (last, last_len) = last_chunk_of_len(sealed_len)?;
    Ok(Layout {
        start,
        last,
        last_len,
    })
}

/// Fills `buf` with the bytes from `at` on. Fails with `EndsEarly` if there are fewer.
// ensures len { length buf.new ≡ length buf.old }
// ensures known { IfSome (R.bytes input.old) (λ all. length buf.old ≤ length all - at → IsOk result) }
// ensures value { IfSome (R.bytes input.old) (λ all. OnOk result (buf.new ≡ take (length buf.old) (drop at all))) }
// ensures given { OnOk result (MayGive (R.contents input.old) at buf.new) }
// ensures same { R.bytes input.new ≡ R.bytes input.old }
// ensures steady { R.contents input.new ≡ R.contents input.old }
fn read_exact_at<R: ReadAt>(input: &mut R, at: u64, buf: &mut [u8]) -> Result<(), FileError> {
    let count = input.read_at(at, buf)?;
    if count < buf.len() {
        return Err(FileError::EndsEarly);
    }
    Ok(())
}

/// Opens a sealed chunk, of at most `CHUNK_LEN` bytes and a tag, in place. Its message is then at the front of `sealed`.
// requires { length sealed.old ≤ sealed_chunk_len }
// ensures accepted { IsOk result ↔ HasTag cipher.now number is_last sealed.old }
// ensures opened { OnOk result (take (length sealed.old - tag_len) sealed.new
//     ≡ opened_chunk cipher.now number is_last sealed.old) }
// ensures refused { IfErr result (λ error. ChunkRefuses cipher.now number is_last sealed.old error) }
// ensures len { length sealed.new ≡ length sealed.old }
fn open_slice(
    cipher: &ChunkCipher,
    number: u32,
    is_last: bool,
    sealed: &mut [u8],
) -> Result<(), FileError> {
    let Some(tag) = sealed.last_chunk::<MAX_TAG_LEN>() else {
        return Err(FileError::EndsEarly);
    };
    let tag = *tag;
    let len = sealed.len() - MAX_TAG_LEN;
    open_ciphertext(cipher, number, is_last, &tag, &mut sealed[..len])
}

/// Reads a sealed chunk of at most `SEALED_CHUNK_LEN` bytes from `at` on and opens it, so that its message is at the front of
/// `sealed`.
// requires { length sealed.old ≤ sealed_chunk_len }
// ensures accepted { IfSome (R.bytes input.old) (λ all. length sealed.old ≤ length all - at
//     → (IsOk result ↔ HasTag cipher.now number is_last (take (length sealed.old) (drop at all)))) }
// ensures opened { IfSome (R.bytes input.old) (λ all. length sealed.old ≤ length all - at
//     → OnOk result (take (length sealed.old - tag_len) sealed.new
//     ≡ opened_chunk cipher.now number is_last (take (length sealed.old) (drop at all)))) }
// ensures refused { IfSome (R.bytes input.old) (λ all. length sealed.old ≤ length all - at → IfErr result (λ error.
//     ChunkRefuses cipher.now number is_last (take (length sealed.old) (drop at all)) error)) }
// ensures authentic { OnOk result (IsAuthentic (R.contents input.old) at cipher.now number is_last
//     (take (length sealed.old - tag_len) sealed.new)) }
// ensures len { length sealed.new ≡ length sealed.old }
// ensures same { R.bytes input.new ≡ R.bytes input.old }
// ensures steady { R.contents input.new ≡ R.contents input.old }
fn open_from<R: ReadAt>(
    input: &mut R,
    at: u64,
    cipher: &ChunkCipher,
    number: u32,
    is_last: bool,
    sealed: &mut [u8],
) -> Result<(), FileError> {
    read_exact_at(input, at, sealed)?;
    open_slice(cipher, number, is_last, sealed)
}

/// Reads and opens the chunk with this number, so that its message is at the front of `buffer`.
// requires in_range { number ≤ layout.last }
// requires short { layout.last_len ≤ chunk_len }
// requires fits { layout.start + header_len + sealed_chunk_len * layout.last + layout.last_len + tag_len < 2 ^ 64 }
// requires room { length buffer.old ≡ sealed_chunk_len }
// requires ends { IfSome (file_from layout.start (R.bytes input.old)) (λ file. EndsAt file layout.last layout.last_len) }
// ensures accepted { IfSome (file_from layout.start (R.bytes input.old)) (λ file.
//     IsOk result ↔ HasTagUnder cipher.now file number) }
// ensures message { IfSome (file_from layout.start (R.bytes input.old)) (λ file. OnOk result
//     (IsMessageOf cipher.now file number (take (message_len layout.last layout.last_len number) buffer.new))) }
// ensures refused { IfSome (file_from layout.start (R.bytes input.old)) (λ file.
//     IfErr result (λ error. RefusesChunk cipher.now file number error)) }
// ensures authentic { OnOk result (IsAuthenticChunk (R.contents input.old) cipher.now layout.start layout.last number
//     (take (message_len layout.last layout.last_len number) buffer.new)) }
// ensures len { length buffer.new ≡ sealed_chunk_len }
// ensures same { R.bytes input.new ≡ R.bytes input.old }
// ensures steady { R.contents input.new ≡ R.contents input.old }
fn open_chunk_of<R: ReadAt>(
    input: &mut R,
    layout: Layout,
    cipher: &ChunkCipher,
    number: u32,
    buffer: &mut [u8],
) -> Result<(), FileError> {
    let len = message_len(number, layout.last, layout.last_len) + MAX_TAG_LEN;
    let at = layout.start + HEADER_LEN as u64 + u64::from(number) * SEALED_CHUNK_LEN as u64;
    open_from(
        input,
        at,
        cipher,
        number,
        number == layout.last,
        &mut buffer[..len],
    )
}

impl<R: ReadAt> SealedReader<R> {
    /// Begins to read the sealed file that `input` has from byte `start` on, up to its end.
    ///
    /// Compares the commitment in the header, and opens the last chunk as the last, so that a file that was cut is refused here
    /// and its length is authentic. The other chunks are opened as they are read.
    ///
    /// `aad` is what the file is bound to, at most `MAX_AAD_LEN` bytes.
    ///
    /// # Errors
    ///
    /// Fails with the errors of `open` for the header, with `TooLong` or `EndsEarly` if no sealed file has this length, with the
    /// errors of `open` for the last chunk, with `Io` if reading fails, and with `OutOfMemory` if memory cannot be allocated.
    ///
    /// # Panics
    ///
    /// Panics if `aad` has more than `MAX_AAD_LEN` bytes.
    ///
    /// <details><summary>Contract</summary>
    ///
    /// ```text
    /// requires { length aad.now ≤ 4096 }
    /// ensures file { IfOk result (λ reader. reader.file ≡ file_from start (R.bytes input)) }
    /// ensures start { IfOk result (λ reader. reader.start ≡ start) }
    /// ensures last { IfSome (file_from start (R.bytes input)) (λ file. IfOk result (λ reader.
    ///     reader.last ≡ last_chunk file)) }
    /// ensures held { IfOk result (λ reader. reader.held ≡ Some reader.last) }
    /// ensures readable { IfSome (file_from start (R.bytes input)) (λ file.
    ///     IsOk result → IsReadable (secret key.now aad.now) file) }
    /// ensures key { IfSome (file_from start (R.bytes input)) (λ file. IfOk result (λ reader.
    ///     reader.key ≡ key_of (secret key.now aad.now) file)) }
    /// ensures len { IfSome (file_from start (R.bytes input)) (λ file. IfOk result (λ reader.
    ///     reader.len ≡ length (opened_file (secret key.now aad.now) file))) }
    /// ensures refused { IfSome (file_from start (R.bytes input)) (λ file. IfErr result (λ error.
    ///     FailsInMemory ⊤ (ReaderRefuses (secret key.now aad.now) file) error)) }
    /// ensures contents { IfOk result (λ reader. reader.contents ≡ R.contents input) }
    /// ensures authentic_key { IfOk result (λ reader.
    ///     IsAuthenticKey (R.contents input) start (secret key.now aad.now) reader.key) }
    /// ensures authentic_len { IfOk result (λ reader.
    ///     IsAuthenticLen (R.contents input) reader.key start reader.last reader.len) }
    /// ```
    ///
    /// Definitions: [`file_from`](crate::specs::reader#file_from), [`last_chunk`](crate::specs::opening#last_chunk),
    /// [`IsReadable`](crate::specs::reader#IsReadable), [`secret`](crate::specs::format#secret),
    /// [`key_of`](crate::specs::opening#key_of), [`opened_file`](crate::specs::opening#opened_file),
    /// [`FailsInMemory`](crate::specs::refusals#FailsInMemory), [`ReaderRefuses`](crate::specs::reader#ReaderRefuses),
    /// [`IsAuthenticKey`](crate::specs::reader#IsAuthenticKey),
    /// [`IsAuthenticLen`](crate::specs::reader#IsAuthenticLen).
    ///
    /// </details>
    pub fn new(
        key: &FileKey,
        aad: &[u8],
        input: R,
        start: u64,
    ) -> Result<SealedReader<R>, FileError> {
        assert!(
            aad.len() <= crate::MAX_AAD_LEN,
            "aad has more than MAX_AAD_LEN bytes"
        );

        let buffer = try_with_capacity(SEALED_CHUNK_LEN)?;
        SealedReader::with_buffer(key, aad, input, start, buffer)
    }

    /// Like `new`, but the reader works in `buffer`, whose bytes it overwrites. It allocates nothing if the capacity of
    /// `buffer` is at least `SEALED_CHUNK_LEN`, and fails with `OutOfMemory` only if it is less and cannot grow.
    ///
    /// # Panics
    ///
    /// Panics if `aad` has more than `MAX_AAD_LEN` bytes.
    ///
    /// <details><summary>Contract</summary>
    ///
    /// ```text
    /// requires { length aad.now ≤ 4096 }
    /// ensures file { IfOk result (λ reader. reader.file ≡ file_from start (R.bytes input)) }
    /// ensures start { IfOk result (λ reader. reader.start ≡ start) }
    /// ensures last { IfSome (file_from start (R.bytes input)) (λ file. IfOk result (λ reader.
    ///     reader.last ≡ last_chunk file)) }
    /// ensures held { IfOk result (λ reader. reader.held ≡ Some reader.last) }
    /// ensures readable { IfSome (file_from start (R.bytes input)) (λ file.
    ///     IsOk result → IsReadable (secret key.now aad.now) file) }
    /// ensures accepted { IfSome (file_from start (R.bytes input)) (λ file. sealed_chunk_len ≤ vec_capacity buffer
    ///     → (IsOk result ↔ IsReadable (secret key.now aad.now) file)) }
    /// ensures key { IfSome (file_from start (R.bytes input)) (λ file. IfOk result (λ reader.
    ///     reader.key ≡ key_of (secret key.now aad.now) file)) }
    /// ensures len { IfSome (file_from start (R.bytes input)) (λ file. IfOk result (λ reader.
    ///     reader.len ≡ length (opened_file (secret key.now aad.now) file))) }
    /// ensures refused { IfSome (file_from start (R.bytes input)) (λ file. IfErr result (λ error.
    ///     FailsInMemory (vec_capacity buffer < sealed_chunk_len) (ReaderRefuses (secret key.now aad.now) file) error)) }
    /// ensures contents { IfOk result (λ reader. reader.contents ≡ R.contents input) }
    /// ensures authentic_key { IfOk result (λ reader.
    ///     IsAuthenticKey (R.contents input) start (secret key.now aad.now) reader.key) }
    /// ensures authentic_len { IfOk result (λ reader.
    ///     IsAuthenticLen (R.contents input) reader.key start reader.last reader.len) }
    /// ```
    ///
    /// Definitions: [`file_from`](crate::specs::reader#file_from), [`last_chunk`](crate::specs::opening#last_chunk),
    /// [`IsReadable`](crate::specs::reader#IsReadable), [`secret`](crate::specs::format#secret),
    /// [`sealed_chunk_len`](crate::specs::format#sealed_chunk_len), [`key_of`](crate::specs::opening#key_of),
    /// [`opened_file`](crate::specs::opening#opened_file), [`FailsInMemory`](crate::specs::refusals#FailsInMemory),
    /// [`ReaderRefuses`](crate::specs::reader#ReaderRefuses), [`IsAuthenticKey`](crate::specs::reader#IsAuthenticKey),
    /// [`IsAuthenticLen`](crate::specs::reader#IsAuthenticLen).
    ///
    /// </details>
    pub fn with_buffer(
        key: &FileKey,
        aad: &[u8],
        mut input: R,
        start: u64,
        mut buffer: Vec<u8>,
    ) -> Result<SealedReader<R>, FileError> {
        assert!(
            aad.len() <= crate::MAX_AAD_LEN,
            "aad has more than MAX_AAD_LEN bytes"
        );

        let cipher = read_chunk_cipher(&mut input, start, key, aad)?;
        let layout = layout_of(&mut input, start)?;
        buffer.try_resize(SEALED_CHUNK_LEN, 0)?;
        open_chunk_of(&mut input, layout, &cipher, layout.last, &mut buffer)?;
        Ok(SealedReader {
            input,
            cipher,
            layout,
            held: Some(layout.last),
            buffer,
        })
    }

    /// Returns the length of the file.
    ///
    /// <details><summary>Contract</summary>
    ///
    /// ```text
    /// ensures value { result ≡ self.now.len }
    /// ensures opened { IfSome self.now.file (λ file. result ≡ length (plaintext_under self.now.key file)) }
    /// ensures authentic { IfSome self.now.file (λ file. HasTagUnder self.now.key file (last_chunk file)) }
    /// ensures authentic_len { IsAuthenticLen self.now.contents self.now.key self.now.start self.now.last result }
    /// ```
    ///
    /// Definitions: [`plaintext_under`](crate::specs::opening#plaintext_under),
    /// [`HasTagUnder`](crate::specs::opening#HasTagUnder), [`last_chunk`](crate::specs::opening#last_chunk),
    /// [`IsAuthenticLen`](crate::specs::reader#IsAuthenticLen).
    ///
    /// </details>
    pub fn len(&self) -> u64 {
        u64::from(self.layout.last) * CHUNK_LEN as u64 + self.layout.last_len as u64
    }

    /// Reads bytes of the file from `offset` on into the front of `buf`, and returns how many: at least one, unless `offset` is
    /// at or past the end or `buf` is empty, and at most up to the end of a chunk.
    ///
    /// It allocates nothing. Fails with the errors of `open` for the chunk, with `EndsEarly` if the input has become shorter, and
    /// with `Io` if reading fails. `buf` is then unchanged, and the reader can still be used: it keeps no chunk, so that the next
    /// call reads its chunk from the input.
    ///
    /// <details><summary>Contract</summary>
    ///
    /// ```text
    /// ensures nothing { (length buf.old ≡ 0) ⊎ (self.old.len ≤ offset) → IsOk result }
    /// ensures count { IfOk result (λ n. n ≡ min (length buf.old)
    ///     (min (self.old.len - offset) (chunk_len - offset % chunk_len))) }
    /// ensures accepted { IfSome self.old.file (λ file. 0 < length buf.old → offset < self.old.len
    ///     → (IsOk result ↔ HasTagUnder self.old.key file (offset / chunk_len))) }
    /// ensures opened { IfSome self.old.file (λ file. IfOk result (λ n.
    ///     take n buf.new ≡ take n (drop offset (plaintext_under self.old.key file)))) }
    /// ensures authentic { IfOk result (λ n. 0 < n → IsAuthenticPart self.old offset (take n buf.new)) }
    /// ensures rest { IfOk result (λ n. drop n buf.new ≡ drop n buf.old) }
    /// ensures refused { IfSome self.old.file (λ file. IfErr result (λ error.
    ///     RefusesChunk self.old.key file (offset / chunk_len) error)) }
    /// ensures kept { OnErr result (buf.new ≡ buf.old) }
    /// ensures same { self.new ≡ record self.old { held = self.new.held } }
    /// ensures held { OnOk result (0 < length buf.old → offset < self.old.len
    ///     → self.new.held ≡ Some (offset / chunk_len)) }
    /// ensures idle { (length buf.old ≡ 0) ⊎ (self.old.len ≤ offset) → self.new.held ≡ self.old.held }
    /// ensures dropped { OnErr result (self.new.held ≡ None) }
    /// ```
    ///
    /// Definitions: [`chunk_len`](crate::specs::format#chunk_len), [`HasTagUnder`](crate::specs::opening#HasTagUnder),
    /// [`plaintext_under`](crate::specs::opening#plaintext_under),
    /// [`IsAuthenticPart`](crate::specs::reader#IsAuthenticPart),
    /// [`RefusesChunk`](crate::specs::refusals#RefusesChunk).
    ///
    /// </details>
    pub fn read_at(&mut self, offset: u64, buf: &mut [u8]) -> Result<usize, FileError> {
        let Layout { last, last_len, .. } = self.layout;
        let Some((number, at)) = place_of(offset, last, last_len) else {
            return Ok(0);
        };
        if buf.is_empty() {
            return Ok(0);
        }
        let len = message_len(number, last, last_len);
        if self.held == Some(number) {
            return Ok(read_slice_at(&self.buffer[..len], at, buf));
        }
        self.held = None;
        open_chunk_of(
            &mut self.input,
            self.layout,
            &self.cipher,
            number,
            &mut self.buffer,
        )?;
        let count = read_slice_at(&self.buffer[..len], at, buf);
        self.held = Some(number);
        Ok(count)
    }
}
