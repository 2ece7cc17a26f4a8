//! Reading sealed files at any position, over slices, cursors, files and inputs that fail or change.

use std::fs::{self, File};
use std::io::{self, Cursor, Seek, SeekFrom, Write};
use std::process;
use std::sync::atomic::{AtomicUsize, Ordering};

use deerlapse_protocols_vectors::files::{
    Failure, assert_fails_as, end_of, file_of, key, random, sealed_of,
};
use sealed_file::{
    CHUNK_LEN, FileKey, HEADER_LEN, ReadAt, SEALED_CHUNK_LEN, SealedReader, seal_with_aad,
};

/// The length of a file of two whole chunks and a short one.
const LEN: usize = 2 * CHUNK_LEN + 5;

/// What is before the sealed file in some inputs.
const BEFORE: &[u8] = b"before";

/// The position of the sealed file in these inputs.
const START: u64 = BEFORE.len() as u64;

/// Returns the test file of this length, sealed, after `BEFORE`.
fn input_of(len: usize) -> Vec<u8> {
    [BEFORE, &sealed_of(len)].concat()
}

/// Returns a file of these bytes, which has no name. Its cursor is at the end.
fn file_with(bytes: &[u8]) -> File {
    static COUNT: AtomicUsize = AtomicUsize::new(0);
    let count = COUNT.fetch_add(1, Ordering::Relaxed);
    let folder = env!("CARGO_TARGET_TMPDIR");
    let name = format!("{folder}/files_reader-{}-{count}", process::id());
    let mut options = File::options();
    options.read(true).write(true).create_new(true);
    let mut file = options.open(&name).expect("a new file");
    fs::remove_file(&name).expect("a file with a name");
    file.write_all(bytes).expect("room for the file");
    file
}

/// Asserts that a call reads as many bytes of the file as there are up to the end of `buf`, of the chunk and of the file, and
/// changes no more of `buf`.
#[track_caller]
fn assert_reads<R: ReadAt>(reader: &mut SealedReader<R>, file: &[u8], at: usize, asked: usize) {
    let rest = file.get(at..).unwrap_or(&[]);
    let wanted = asked.min(rest.len()).min(CHUNK_LEN - at % CHUNK_LEN);
    let mut buf = vec![0xa5; asked];
    let count = reader.read_at(at as u64, &mut buf).expect("a right chunk");
    assert_eq!(count, wanted, "{asked} bytes at {at}");
    assert!(buf[..count] == rest[..count], "{asked} bytes at {at}");
    assert!(buf[count..].iter().all(|byte| *byte == 0xa5));
}

/// Asserts that each part of the test file of this length is read from an input in which it begins at `start`.
fn assert_reads_all<R: ReadAt>(input: R, start: u64, len: usize) {
    let file = file_of(len);
    let mut reader = SealedReader::new(&key(), &[], input, start).expect("a sealed file");
    assert_eq!(reader.len(), len as u64);
    let ends = [0, 1, 3, CHUNK_LEN - 1, CHUNK_LEN, 70_000, 2 * CHUNK_LEN];
    for at in ends.into_iter().chain([len - len.min(3), len, len + 1]) {
        for asked in [0, 1, 2, 100, CHUNK_LEN, CHUNK_LEN + 1] {
            assert_reads(&mut reader, &file, at, asked);
        }
    }
    for at in (0..100).map(|i| i * 48_271 % (len + 100)) {
        assert_reads(&mut reader, &file, at, at % 5000);
    }
    assert_reads(&mut reader, &file, usize::MAX, 100);
}

#[test]
fn over_a_slice_a_cursor_and_a_file() {
    for len in [0, 1, 65535, 65536, 65537, 131_072, LEN] {
        for bytes in [sealed_of(len), input_of(len)] {
            let start = (bytes.len() - sealed_of(len).len()) as u64;
            assert_reads_all(bytes.as_slice(), start, len);
            assert_reads_all(Cursor::new(bytes.as_slice()), start, len);
            let mut cursor = Cursor::new(bytes.clone());
            cursor.set_position(17);
            assert_reads_all(cursor, start, len);
            let mut file = file_with(&bytes);
            assert_reads_all(file.try_clone().expect("a second handle"), start, len);
            file.seek(SeekFrom::Start(17)).expect("a position");
            assert_reads_all(file, start, len);
        }
    }
}

/// Asserts that an input has these bytes, at each of some positions.
fn assert_has(mut input: impl ReadAt, bytes: &[u8]) {
    for at in (0..=bytes.len() + 3).chain([1 << 20, 1 << 40]) {
        assert_eq!(input.size().expect("a size"), bytes.len() as u64);
        for asked in [0, 1, 2, 100] {
            let rest = bytes.get(at..).unwrap_or(&[]);
            let wanted = &rest[..asked.min(rest.len())];
            let mut buf = vec![0xa5; asked];
            let count = input.read_at(at as u64, &mut buf).expect("bytes");
            assert_eq!(&buf[..count], wanted, "{asked} bytes at {at}");
        }
    }
}

#[test]
fn inputs() {
    for len in [0, 1, 30] {
        let bytes = file_of(len);
        assert_has(bytes.as_slice(), &bytes);
        assert_has(file_with(&bytes), &bytes);
        for position in [0, 1, 100] {
            let mut cursor = Cursor::new(bytes.clone());
            cursor.set_position(position);
            assert_has(cursor, &bytes);
            let mut cursor = Cursor::new(bytes.as_slice());
            cursor.set_position(position);
            assert_has(cursor, &bytes);
        }
    }
    assert_has(Cursor::new("text"), b"text");
    assert_has(Cursor::new([1, 2, 3]), &[1, 2, 3]);
}

/// Asserts that no reader is made over these bytes, from `start` on, with this error.
#[track_caller]
fn assert_refused(bytes: &[u8], start: u64, end: &str) {
    let result = SealedReader::new(&key(), &[], bytes, start);
    assert_eq!(end_of(result), end);
}

#[test]
fn cut_files() {
    let input = input_of(LEN);
    let chunk = SEALED_CHUNK_LEN;
    for (len, end) in [
        (0, "EndsEarly"),
        (HEADER_LEN - 1, "EndsEarly"),
        (HEADER_LEN, "EndsEarly"),
        (HEADER_LEN + 15, "EndsEarly"),
        (HEADER_LEN + 16, "Refused(0)"),
        (HEADER_LEN + chunk, "EndsEarly"),
        (HEADER_LEN + chunk + 15, "EndsEarly"),
        (HEADER_LEN + chunk + 16, "Refused(1)"),
        (HEADER_LEN + 2 * chunk, "EndsEarly"),
        (HEADER_LEN + 2 * chunk + 20, "Refused(2)"),
        (HEADER_LEN + 2 * chunk + 21, "Ok"),
    ] {
        assert_refused(&input[..BEFORE.len() + len], START, end);
    }
    for (start, end) in [
        (0, "AnotherMagic"),
        (START + 1, "AnotherMagic"),
        (input.len() as u64 - 8, "EndsEarly"),
        (input.len() as u64, "EndsEarly"),
        (u64::MAX, "EndsEarly"),
    ] {
        assert_refused(&input, start, end);
    }
    assert_refused(&[&input[..], b"x"].concat(), START, "Refused(2)");
    let longer = [sealed_of(CHUNK_LEN), vec![0; 16]].concat();
    assert_refused(&longer, 0, "Refused(1)");
}

#[test]
fn another_key_or_aad() {
    let (mut sealed, mut file) = (Vec::new(), &b"hello"[..]);
    seal_with_aad(&key(), random(), b"name", &mut file, &mut sealed).expect("streams");
    let other = FileKey::new(&[7; 32]).expect("a key of its length");
    for (key, aad, end) in [
        (&key(), &b"name"[..], "Ok"),
        (&key(), b"nam", "Refused(0)"),
        (&key(), b"", "Refused(0)"),
        (&other, b"name", "WrongKey"),
    ] {
        let result = SealedReader::new(key, aad, sealed.as_slice(), 0);
        assert_eq!(end_of(result), end);
    }
    sealed[8] = 3;
    assert_refused(&sealed, 0, "AnotherVersion(3)");
}

#[test]
fn a_changed_chunk() {
    let (file, mut sealed) = (file_of(LEN), sealed_of(LEN));
    sealed[HEADER_LEN + SEALED_CHUNK_LEN] ^= 1;
    let mut reader = SealedReader::new(&key(), &[], sealed.as_slice(), 0).expect("a sealed file");
    for _ in 0..2 {
        assert_reads(&mut reader, &file, 5, 4);
        let mut buf = [7; 4];
        let result = reader.read_at(CHUNK_LEN as u64, &mut buf);
        assert_eq!(end_of(result), "Refused(1)");
        assert_eq!(buf, [7; 4]);
        assert_reads(&mut reader, &file, LEN - 4, 4);
    }
}

#[test]
fn a_buffer_of_the_caller() {
    let (file, sealed) = (file_of(LEN), sealed_of(LEN));
    for buffer in [
        Vec::new(),
        vec![7; 10],
        vec![7; SEALED_CHUNK_LEN],
        vec![7; 2 * SEALED_CHUNK_LEN],
    ] {
        let mut reader = SealedReader::with_buffer(&key(), &[], sealed.as_slice(), 0, buffer)
            .expect("a sealed file");
        for at in [LEN - 4, 0, CHUNK_LEN, LEN - 4] {
            assert_reads(&mut reader, &file, at, 100);
        }
    }
}

/// An input of which one call fails, a read after it has overwritten half of `buf`. Later calls succeed.
struct Failing<'a> {
    bytes: &'a [u8],
    calls: usize,
    failing: usize,
}

impl Failing<'_> {
    fn count(&mut self) -> io::Result<()> {
        let call = self.calls;
        self.calls += 1;
        if call == self.failing {
            return Err(Failure::of(call));
        }
        Ok(())
    }
}

impl ReadAt for Failing<'_> {
    fn size(&mut self) -> io::Result<u64> {
        self.count()?;
        self.bytes.size()
    }

    fn read_at(&mut self, at: u64, buf: &mut [u8]) -> io::Result<usize> {
        let half = buf.len() / 2;
        buf[..half].fill(0xee);
        self.count()?;
        self.bytes.read_at(at, buf)
    }
}

#[test]
fn each_call_of_an_input_fails() {
    let (file, bytes) = (file_of(LEN), input_of(LEN));
    let input = |failing| Failing {
        bytes: &bytes,
        calls: 0,
        failing,
    };
    for failing in 0..3 {
        let result = SealedReader::new(&key(), &[], input(failing), START);
        assert_fails_as(result, failing);
    }
    // The reader holds the last chunk, so its first call reads none of the input.
    for failing in 3..6 {
        let mut reader =
            SealedReader::new(&key(), &[], input(failing), START).expect("a sealed file");
        let places = [LEN - 1, 0, CHUNK_LEN, 0];
        for at in &places[..failing - 2] {
            assert_reads(&mut reader, &file, *at, 4);
        }
        let mut buf = [7; 4];
        let result = reader.read_at(places[failing - 2] as u64, &mut buf);
        assert_fails_as(result, failing);
        assert_eq!(buf, [7; 4]);
        // The failed read has overwritten the chunk that the reader held.
        for at in places {
            assert_reads(&mut reader, &file, at, 4);
        }
        assert_eq!(reader.len(), LEN as u64);
    }
}

#[test]
fn a_file_that_is_cut_and_written_again() {
    let (file, bytes) = (file_of(LEN), input_of(LEN));
    let mut other = file_with(&bytes);
    let input = other.try_clone().expect("a second handle");
    let mut reader = SealedReader::new(&key(), &[], input, START).expect("a sealed file");
    assert_reads(&mut reader, &file, 0, 4);

    let cut = BEFORE.len() + HEADER_LEN + SEALED_CHUNK_LEN + 100;
    other.set_len(cut as u64).expect("a file that can be cut");
    for at in [CHUNK_LEN, LEN - 1] {
        let mut buf = [7; 4];
        assert_eq!(end_of(reader.read_at(at as u64, &mut buf)), "EndsEarly");
        assert_eq!(buf, [7; 4]);
        assert_reads(&mut reader, &file, 1, 4);
    }
    assert_eq!(reader.len(), LEN as u64);

    other.seek(SeekFrom::Start(0)).expect("a position");
    other.write_all(&bytes).expect("room for the file");
    assert_reads(&mut reader, &file, LEN - 1, 4);
    assert_reads(&mut reader, &file, CHUNK_LEN, 4);
}

/// An input that has some bytes from a position on, and says that it has a size.
struct Far<'a> {
    bytes: &'a [u8],
    start: u64,
    size: u64,
}

impl ReadAt for Far<'_> {
    fn size(&mut self) -> io::Result<u64> {
        Ok(self.size)
    }

    fn read_at(&mut self, at: u64, buf: &mut [u8]) -> io::Result<usize> {
        self.bytes.read_at(at - self.start, buf)
    }
}

#[test]
fn sizes_that_no_file_has() {
    let sealed = sealed_of(LEN);
    let max = (HEADER_LEN + SEALED_CHUNK_LEN * u32::MAX as usize) as u64;
    for (size, end) in [
        (0, "EndsEarly"),
        (sealed.len() as u64 - 1, "Refused(2)"),
        (sealed.len() as u64, "Ok"),
        (sealed.len() as u64 + 1, "EndsEarly"),
        (max, "EndsEarly"),
        (max + 1, "TooLong"),
        (u64::MAX, "TooLong"),
    ] {
        let input = Far {
            bytes: &sealed,
            start: 0,
            size,
        };
        let result = SealedReader::new(&key(), &[], input, 0);
        assert_eq!(end_of(result), end, "{size}");
    }
}

#[test]
fn a_file_at_the_last_position() {
    for len in [0, 5, LEN] {
        let sealed = sealed_of(len);
        let start = u64::MAX - sealed.len() as u64;
        let input = Far {
            bytes: &sealed,
            start,
            size: u64::MAX,
        };
        assert_reads_all(input, start, len);
    }
}
