//! Seals a file in chunks under a key of that file alone, and opens it. A file that was cut, one in which chunks were exchanged and
//! one with a chunk of another file are refused.
//!
//! The sealed file begins with 32 random bytes. HKDF of the caller's key and these gives a key and an IV for this file alone: a
//! sealer begins at the same number for each file, so two files under one key and IV would use the same nonces. Then come chunks
//! of 64 KiB, each followed by its tag. The last, which may be shorter or empty, is marked in its AAD.
//!
//! This shows the calls, and is no format: no byte says the version, and a file that two keys open can be made. The program
//! `seal_file` of the repository has a format.

use deerlapse::{hkdf_expand, hkdf_extract, Opener, Sealer, Unspecified, NONCE_LEN, TAG_LEN};
use std::error::Error;
use std::fs::File;
use std::io::{self, Read, Write};
use std::ops::Range;

type Result<T> = std::result::Result<T, Box<dyn Error>>;

const CHUNK_LEN: usize = 64 * 1024;
const NUMBERS: Range<u64> = 0..1 << 32; // of the chunks of a file

/// Returns the key and the IV of the file that begins with these random bytes (RFC 5869, with SHA-256).
fn of_file(key: &[u8; 32], random: &[u8; 32]) -> Result<([u8; 32], [u8; NONCE_LEN])> {
    let (mut prk, mut derived) = ([0; 32], [0; 32 + NONCE_LEN]);
    hkdf_extract(random, key, &mut prk)?;
    hkdf_expand(&prk, b"deerlapse example file", &mut derived)?;
    let (key, iv) = derived.split_at(32);
    Ok((key.try_into()?, iv.try_into()?))
}

/// Reads the next `len` bytes, or fewer at the end.
fn next_chunk(from: &mut impl Read, len: usize) -> io::Result<Vec<u8>> {
    let mut chunk = Vec::with_capacity(CHUNK_LEN + TAG_LEN);
    from.take(len as u64).read_to_end(&mut chunk)?;
    Ok(chunk)
}

/// Seals what it reads. The caller draws `random`, anew for each file.
fn seal(key: &[u8; 32], random: &[u8; 32], mut from: impl Read, mut to: impl Write) -> Result<()> {
    let (key, iv) = of_file(key, random)?;
    let mut sealer = Sealer::new(&key, &iv, NUMBERS)?;
    to.write_all(random)?;
    let mut chunk = next_chunk(&mut from, CHUNK_LEN)?;
    loop {
        let next = next_chunk(&mut from, CHUNK_LEN)?;
        let is_last = next.is_empty();
        sealer.seal_in_place_append_tag(&[is_last.into()], &mut chunk)?;
        to.write_all(&chunk)?;
        if is_last {
            return Ok(());
        }
        chunk = next;
    }
}

/// Opens what `seal` wrote. It writes each chunk that is authentic, and only the last shows that none is missing: after an error,
/// throw away what was written.
fn open(key: &[u8; 32], mut from: impl Read, mut to: impl Write) -> Result<()> {
    let mut random = [0; 32];
    from.read_exact(&mut random)?;
    let (key, iv) = of_file(key, &random)?;
    let mut opener = Opener::new(&key, &iv, NUMBERS)?;
    let mut chunk = next_chunk(&mut from, CHUNK_LEN + TAG_LEN)?;
    loop {
        let next = next_chunk(&mut from, CHUNK_LEN + TAG_LEN)?;
        let is_last = next.is_empty();
        to.write_all(opener.open_in_place(&[is_last.into()], &mut chunk)?)?;
        if is_last {
            return Ok(());
        }
        chunk = next;
    }
}

/// Returns random bytes, on Unix. This package depends on no other: a program takes the crate `getrandom`, on any system.
fn random() -> io::Result<[u8; 32]> {
    let mut bytes = [0; 32];
    File::open("/dev/urandom")?.read_exact(&mut bytes)?;
    Ok(bytes)
}

fn main() -> Result<()> {
    let key = random()?;
    let sealed = |text: &[u8]| {
        let mut file = Vec::new(); // or a `File`
        seal(&key, &random()?, text, &mut file).map(|()| file)
    };
    let text = b"hello, ".repeat(20_000); // two whole chunks, and one that is shorter
    for len in [0, 1, CHUNK_LEN, text.len()] {
        let mut opened = Vec::new();
        open(&key, &*sealed(&text[..len])?, &mut opened)?;
        assert_eq!(opened, text[..len]);
    }
    println!("opened: hello, .. of {} bytes", text.len());

    let (file, other) = (sealed(&text)?, sealed(&text)?);
    let start = |chunk| 32 + chunk * (CHUNK_LEN + TAG_LEN);
    let [one, two] = [0, 1].map(|chunk| &file[start(chunk)..start(chunk + 1)]);
    let (random, three, other) = (&file[..32], &file[start(2)..], &other[start(1)..start(2)]);
    let forged: [(&str, &[&[u8]]); 4] = [
        ("a cut file", &[random, one, two]),
        ("a file cut in a chunk", &[random, one, &two[..100]]),
        ("exchanged chunks", &[random, two, one, three]),
        ("a chunk of another file", &[random, one, other, three]),
    ];
    for (what, pieces) in forged {
        let refused = open(&key, &*pieces.concat(), io::sink()).expect_err(what);
        assert!(refused.is::<Unspecified>());
        println!("refused: {what}");
    }
    Ok(())
}
