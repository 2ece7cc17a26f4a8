//! Sealing and opening over streams that move few bytes in a call, are interrupted, fail, or take nothing more.

use std::io::{ErrorKind, Read};

use deerlapse_protocols_vectors::files::{
    CALLS, Call, Stream, assert_fails_as, end_of, file_of, key, random, sealed_of,
};
use sealed_file::{
    CHUNK_LEN, FileError, FileRandom, HEADER_LEN, SEALED_CHUNK_LEN, open, seal_bytes,
};

/// What a call over a failing reader and a failing writer did.
struct Ended {
    result: Result<(), FileError>,
    written: Vec<u8>,
    reads: usize,
    writes: usize,
}

/// Makes a call over streams that move at most `most` bytes at a time, and of which the read or the write with this number fails.
fn ended(
    call: Call,
    input: &[u8],
    most: usize,
    failing_read: Option<usize>,
    failing_write: Option<usize>,
) -> Ended {
    let mut input = Stream::new(input, most, failing_read);
    let mut output = Stream::new(Vec::new(), most, failing_write);
    Ended {
        result: call(&mut input, &mut output),
        written: output.inner,
        reads: input.calls,
        writes: output.calls,
    }
}

/// Asserts that a call writes `all`, and that with each read and each write that fails it returns the error of that one. It has
/// then written a beginning.
fn assert_fails_in_turn(call: Call, input: &[u8], all: &[u8]) {
    let whole = ended(call, input, 50_000, None, None);
    assert_eq!(end_of(whole.result), "Ok");
    assert!(whole.written == all, "{} bytes", whole.written.len());
    assert!(whole.reads > 5 && whole.writes > 3);
    for read in 0..whole.reads {
        let ended = ended(call, input, 50_000, Some(read), None);
        assert_fails_as(ended.result, read);
        assert_eq!(ended.reads, read + 1);
        assert!(all.starts_with(&ended.written));
    }
    for write in 0..whole.writes {
        let ended = ended(call, input, 50_000, None, Some(write));
        assert_fails_as(ended.result, write);
        assert_eq!(ended.writes, write + 1);
        assert!(all.starts_with(&ended.written));
    }
}

/// Returns the test file of this length, as one of the calls seals it.
fn sealed_by(seal: Call, len: usize) -> Vec<u8> {
    let mut sealed = Vec::new();
    seal(&mut file_of(len).as_slice(), &mut sealed).expect("streams");
    sealed
}

#[test]
fn each_call_of_a_stream_fails() {
    let file = file_of(CHUNK_LEN + 5);
    for calls in CALLS {
        let sealed = sealed_by(calls.seal, file.len());
        assert_fails_in_turn(calls.seal, &file, &sealed);
        assert_fails_in_turn(calls.open, &sealed, &file);
    }
}

#[test]
fn few_bytes_at_a_time() {
    for len in [0, 1, CHUNK_LEN, 2 * CHUNK_LEN + 5] {
        let file = file_of(len);
        for calls in CALLS {
            let sealed = sealed_by(calls.seal, len);
            for most in [1, 61, CHUNK_LEN - 1] {
                let sealing = ended(calls.seal, &file, most, None, None);
                assert_eq!(end_of(sealing.result), "Ok", "{}", calls.what);
                assert!(sealing.written == sealed, "{most} bytes at a time");
                let opening = ended(calls.open, &sealed, most, None, None);
                assert_eq!(end_of(opening.result), "Ok", "{}", calls.what);
                assert!(opening.written == file, "{most} bytes at a time");
            }
        }
    }
}

/// A slice as a writer takes what fits, and then 0 bytes.
#[test]
fn a_writer_that_takes_nothing_more() {
    let file = file_of(CHUNK_LEN + 5);
    for calls in CALLS {
        let sealed = sealed_by(calls.seal, file.len());
        for (call, input, all) in [(calls.seal, &file, &sealed), (calls.open, &sealed, &file)] {
            for room in [0, 1, 60, 70, CHUNK_LEN, all.len() - 1] {
                let mut place = vec![0; room];
                let result = call(&mut input.as_slice(), &mut place.as_mut_slice());
                let Err(FileError::Io(error)) = result else {
                    panic!("{} with room for {room} bytes", calls.what);
                };
                assert_eq!(error.kind(), ErrorKind::WriteZero);
                assert!(place == all[..room], "{room} bytes");
            }
        }
    }
}

/// A file of which each chunk is refused in turn: the messages before it are written, and no byte after it is read.
#[test]
fn no_message_of_a_refused_chunk() {
    let (file, sealed) = (file_of(4 * CHUNK_LEN), sealed_of(4 * CHUNK_LEN));
    for number in 0..4 {
        let mut changed = sealed.clone();
        changed[HEADER_LEN + number * SEALED_CHUNK_LEN + 100] ^= 1;
        let (mut input, mut opened) = (changed.as_slice(), Vec::new());
        let end = end_of(open(&key(), &mut input, &mut opened));
        assert_eq!(end, format!("Refused({number})"));
        assert!(opened == file[..number * CHUNK_LEN]);
        let read = (number + 2).min(4) * SEALED_CHUNK_LEN;
        assert_eq!(input.len(), sealed.len() - HEADER_LEN - read);
    }
}

/// No chunk is read of a file whose header is refused.
#[test]
fn a_refused_header_is_all_that_is_read() {
    for (at, end) in [
        (0, "AnotherMagic"),
        (8, "AnotherVersion(3)"),
        (30, "WrongKey"),
    ] {
        let mut changed = sealed_of(5);
        changed[at] ^= 1;
        let mut input = changed.as_slice();
        assert_eq!(end_of(open(&key(), &mut input, &mut Vec::new())), end);
        assert_eq!(input.len(), changed.len() - HEADER_LEN);
    }
}

/// The random bytes of a file are those of the source, however few it gives at a time, and no more are taken.
#[test]
fn drawn_random_bytes() {
    for most in [1, 18, 19, 100] {
        let bytes: Vec<u8> = (1..=30).collect();
        let mut source = Stream::new(bytes.as_slice(), most, None);
        let drawn = FileRandom::draw(&mut source).expect("a source of 30 bytes");
        assert_eq!(source.inner, &bytes[19..]);
        let (mut of_drawn, mut of_bytes) = (Vec::new(), Vec::new());
        seal_bytes(&key(), drawn, b"hello", &mut of_drawn).expect("memory");
        seal_bytes(&key(), random(), b"hello", &mut of_bytes).expect("memory");
        assert_eq!(of_drawn, of_bytes);
    }
}

#[test]
fn a_source_that_ends_early_or_fails() {
    for len in [0, 1, 18] {
        let error = FileRandom::draw(&mut [1; 18][..len].chain(&[][..])).err();
        let kind = error.expect("too few bytes").kind();
        assert_eq!(kind, ErrorKind::UnexpectedEof);
    }
    for failing in [0, 2, 3] {
        let mut source = Stream::new(&[1; 30][..], 5, Some(failing));
        let error = FileRandom::draw(&mut source).err().expect("a failed call");
        assert_fails_as::<()>(Err(FileError::Io(error)), failing);
    }
}
