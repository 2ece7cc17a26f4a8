//! What the tests of sealed files share: keys, files, calls over streams, and streams that fail.

use std::array;
use std::error::Error;
use std::fmt;
use std::io::{self, ErrorKind, Read, Write};

use sealed_file::{
    FileError, FileKey, FileRandom, open, open_with_aad, open_with_passphrase, seal, seal_with_aad,
    seal_with_passphrase,
};
use sha2::{Digest, Sha256};
use vectors::hex;

/// The passphrase of the tests.
pub const PASSPHRASE: &[u8] = b"correct horse";

/// The key of the tests: the bytes 0 to 31.
pub fn key() -> FileKey {
    let bytes: [u8; 32] = array::from_fn(|i| i as u8);
    FileKey::new(&bytes).expect("a key of its length")
}

/// The random bytes of the tests: 1 to 19.
pub fn random() -> FileRandom {
    FileRandom::from_bytes_for_tests(array::from_fn(|i| i as u8 + 1))
}

/// Returns the test file of this length: byte i is i modulo 251.
pub fn file_of(len: usize) -> Vec<u8> {
    (0..len).map(|i| (i % 251) as u8).collect()
}

/// Returns the test file of this length, sealed under the key.
pub fn sealed_of(len: usize) -> Vec<u8> {
    let mut sealed = Vec::new();
    seal(&key(), random(), &mut file_of(len).as_slice(), &mut sealed).expect("streams");
    sealed
}

/// Returns the SHA-256 of some bytes in hex.
pub fn digest(bytes: &[u8]) -> String {
    hex::text(&Sha256::digest(bytes))
}

/// Returns how a call ended: `Ok`, or the variant of the error with its values.
pub fn end_of<T>(result: Result<T, FileError>) -> String {
    match result {
        Ok(_) => "Ok".into(),
        Err(error) => format!("{error:?}"),
    }
}

/// A call that reads one stream and writes another.
pub type Call = fn(&mut dyn Read, &mut dyn Write) -> Result<(), FileError>;

/// A call that seals, and the one that opens what it sealed.
pub struct Calls {
    pub what: &'static str,
    pub seal: Call,
    pub open: Call,
}

/// The calls over streams, with a passphrase of few iterations.
pub const CALLS: [Calls; 3] = [
    Calls {
        what: "a key",
        seal: |mut input, mut output| seal(&key(), random(), &mut input, &mut output),
        open: |mut input, mut output| open(&key(), &mut input, &mut output),
    },
    Calls {
        what: "a key and an AAD",
        seal: |mut input, mut output| {
            seal_with_aad(&key(), random(), b"name", &mut input, &mut output)
        },
        open: |mut input, mut output| open_with_aad(&key(), b"name", &mut input, &mut output),
    },
    Calls {
        what: "a passphrase and an AAD",
        seal: |mut input, mut output| {
            seal_with_passphrase(PASSPHRASE, 2, random(), b"name", &mut input, &mut output)
        },
        open: |mut input, mut output| {
            open_with_passphrase(PASSPHRASE, b"name", &mut input, &mut output)
        },
    },
];

/// The error of a call of a stream, with the number of the call.
#[derive(Debug, PartialEq, Eq)]
pub struct Failure(pub usize);

impl fmt::Display for Failure {
    fn fmt(&self, f: &mut fmt::Formatter<'_>) -> fmt::Result {
        write!(f, "call {} failed", self.0)
    }
}

impl Error for Failure {}

impl Failure {
    /// Returns the error of a call.
    pub fn of(call: usize) -> io::Error {
        io::Error::new(ErrorKind::ConnectionAborted, Failure(call))
    }
}

/// Asserts that a call returned the error of this call of a stream, with its kind and its source.
#[track_caller]
pub fn assert_fails_as<T>(result: Result<T, FileError>, call: usize) {
    let Err(FileError::Io(error)) = result else {
        panic!("{} instead of the error of call {call}", end_of(result));
    };
    assert_eq!(error.kind(), ErrorKind::ConnectionAborted);
    let source = error.get_ref().and_then(|source| source.downcast_ref());
    assert_eq!(source, Some(&Failure(call)));
    assert_eq!(error.to_string(), format!("call {call} failed"));
}

/// A stream over another. It moves few bytes in a call, and every third call is interrupted.
pub struct Stream<T> {
    pub inner: T,
    /// The number of calls so far.
    pub calls: usize,
    most: usize,
    failing: Option<usize>,
}

impl<T> Stream<T> {
    /// Creates a stream that moves at most `most` bytes in a call. The call with the number `failing`, counted from 0, fails.
    pub fn new(inner: T, most: usize, failing: Option<usize>) -> Self {
        Stream {
            inner,
            calls: 0,
            most,
            failing,
        }
    }

    /// Counts a call for `len` bytes, and returns how many it moves.
    fn count(&mut self, len: usize) -> io::Result<usize> {
        let call = self.calls;
        self.calls += 1;
        if self.failing == Some(call) {
            return Err(Failure::of(call));
        }
        if call % 3 == 1 {
            return Err(ErrorKind::Interrupted.into());
        }
        Ok(len.min(self.most))
    }
}

impl<T: Read> Read for Stream<T> {
    fn read(&mut self, buf: &mut [u8]) -> io::Result<usize> {
        let len = self.count(buf.len())?;
        self.inner.read(&mut buf[..len])
    }
}

impl<T: Write> Write for Stream<T> {
    fn write(&mut self, buf: &[u8]) -> io::Result<usize> {
        let len = self.count(buf.len())?;
        self.inner.write(&buf[..len])
    }

    fn flush(&mut self) -> io::Result<()> {
        self.inner.flush()
    }
}
