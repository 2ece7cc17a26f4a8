//! Files as another program seals them, and files that don't open, each with the error and with what is written by then.
//!
//! The expected bytes and digests were made by `tools/open-sealed-file` of the repository, which implements the format in Python
//! over `cryptography` and `hashlib`. It also made the examples of `SEALED_FILE.md`.

use std::error::Error;
use std::io;

use deerlapse::memory::AllocError;
use deerlapse_protocols_vectors::files::{
    CALLS, PASSPHRASE, digest, end_of, file_of, key, random, sealed_of,
};
use sealed_file::{
    CHUNK_LEN, FileError, FileKey, FileRandom, HEADER_LEN, ITERATIONS, MAX_AAD_LEN, MAX_ITERATIONS,
    PASSPHRASE_HEADER_LEN, SEALED_CHUNK_LEN, check_header, iterations_in, open, open_bytes,
    open_chunk_at, open_with_aad, open_with_passphrase, plaintext_len, seal_bytes, seal_with_aad,
    seal_with_passphrase,
};
use vectors::hex;

/// Lengths of files, each with the SHA-256 of the file sealed under the key, and under the passphrase with 2 iterations.
const SEALED: [(usize, &str, &str); 8] = [
    (
        0,
        "630ca2b555d8649e6cab3cc5b62121fa49c6d07cfbed6bb3a70219805d0fe1f7",
        "040609ac0f3aa829b2830bf35136281aae0eb5edf29d57cabf5dbb52dd814d5e",
    ),
    (
        1,
        "1ac5c35439b206d372dbeac31d6706bcca95edd64d588fc8ecf86afd8fe1ceb1",
        "073a387cef1fe0dbecc1a1434ee62523963e2440ed3ce868f25063ddba1633cd",
    ),
    (
        65535,
        "dbfb7a1d0b956f60125504253139a4df873aaab31ea5d04c2d2752a8524ec397",
        "220ac704b41f8d78d3ebabe0b6eec96cef331c1ad0fb01ff36b8a44d20a7f4ac",
    ),
    (
        65536,
        "51486b19634590d58e9cdcf64dba119340a7f481579e47fd652f2f418929bbca",
        "c07349f5eabf2ac7ae075d650c69250e3cd8af1583c055a0713a8b316064f4b4",
    ),
    (
        65537,
        "111faa6e082200753f12696a7e4708b8e897ab64f6459dbb74200fb806d405a1",
        "bcbfa2506e3a0d574db144c120b86d1e2cd8e074a0366eb927b1bfbfc5868287",
    ),
    (
        131_072,
        "58f63a5279ed00dc8f2380b7b455407bc5f45092fed5088597c1f731ba7ffd88",
        "ba564eb14f1e86cc3e012a578be169d7150fb943c65346f043a5fda6da7600c7",
    ),
    (
        131_077,
        "623a0bfad2b430a68d8996dc0080a83d86eff657acfb2924f2d2a9bff8b686d3",
        "82eabd2316834588b2a0ab2c76557b496ddb24fd0bb5b3d21c91bacb616dcaef",
    ),
    (
        196_608,
        "1ebe3fef6ece7ff6a9455dcf618e76d48f6851d17d88e459486fa63438146b29",
        "01231f4404b8be1540c0a4054d656b411197707082f1d549f2b429cea72e7a91",
    ),
];

/// What `out` of a call in memory holds before the call.
const BEFORE: &[u8] = b"before";

fn sealed_under(passphrase: &[u8], iterations: u32, aad: &[u8], file: &[u8]) -> Vec<u8> {
    let (mut input, mut sealed) = (file, Vec::new());
    seal_with_passphrase(
        passphrase,
        iterations,
        random(),
        aad,
        &mut input,
        &mut sealed,
    )
    .expect("streams");
    sealed
}

/// Opening these bytes under a key and an AAD gives this file and ends so.
#[track_caller]
fn assert_opens_by(key: &FileKey, aad: &[u8], sealed: &[u8], file: &[u8], end: &str) {
    let mut opened = Vec::new();
    let result = open_with_aad(key, aad, &mut { sealed }, &mut opened);
    assert_eq!(end_of(result), end);
    assert!(opened == file, "{} bytes are written", opened.len());
}

/// Opening these bytes under the key writes the first `len` bytes of the test file and ends so. In memory it ends so too, and an
/// error leaves what was there.
#[track_caller]
fn assert_opens(sealed: &[u8], len: usize, end: &str) {
    let file = file_of(len);
    let mut opened = Vec::new();
    assert_eq!(end_of(open(&key(), &mut { sealed }, &mut opened)), end);
    assert!(opened == file, "{} bytes are written", opened.len());
    assert_opens_by(&key(), &[], sealed, &file, end);
    let mut out = BEFORE.to_vec();
    assert_eq!(end_of(open_bytes(&key(), sealed, &mut out)), end);
    let appended = if end == "Ok" { file.as_slice() } else { &[] };
    assert!(out == [BEFORE, appended].concat(), "{} bytes", out.len());
}

/// Opening these bytes under a passphrase gives this file and ends so.
#[track_caller]
fn assert_unlocks(passphrase: &[u8], aad: &[u8], sealed: &[u8], file: &[u8], end: &str) {
    let mut opened = Vec::new();
    let result = open_with_passphrase(passphrase, aad, &mut { sealed }, &mut opened);
    assert_eq!(end_of(result), end);
    assert!(opened == file, "{} bytes are written", opened.len());
}

/// The first example of `SEALED_FILE.md`, with the tag for an AAD.
fn first_example(tag: &str) -> Vec<u8> {
    let random = "01".repeat(19);
    let commitment = "3ac5048d5c00f0550363582baf61fbe83cf4f4870c461b5928756adae73df622";
    hex::bytes(&format!("5345414c46494c4502{random}{commitment}85{tag}"))
}

#[test]
fn first_example_of_sealed_file_md() {
    let key = FileKey::new(&[7; 32]).expect("a key of its length");
    for (aad, tag) in [
        (&b""[..], "957c7bf0da74a6c0389c0ba26cea6630"),
        (b"name", "f07a0a1a53299ad26509c98dda54101a"),
    ] {
        let random = FileRandom::from_bytes_for_tests([1; 19]);
        let mut sealed = Vec::new();
        seal_with_aad(&key, random, aad, &mut &b"a"[..], &mut sealed).expect("streams");
        assert_eq!(sealed, first_example(tag));
        assert_opens_by(&key, aad, &sealed, b"a", "Ok");
        for other in [&b"nam"[..], b"Name", b"name\0"] {
            assert_opens_by(&key, other, &sealed, b"", "Refused(0)");
        }
    }
}

/// The second example of `SEALED_FILE.md`.
fn second_example() -> Vec<u8> {
    hex::bytes(concat!(
        "5345414c46494c45030102030405060708090a0b0c0d0e0f10111213",
        "1c866f7848c4f090d8879b66b8d7f1e36367db57c9b62f74ae9966339bb75907",
        "000000039e60dfb3295f024c988f386352cb5f9624053b3e11"
    ))
}

#[test]
fn second_example_of_sealed_file_md() {
    let sealed = second_example();
    assert_eq!(sealed_under(PASSPHRASE, 3, b"", b"hello"), sealed);
    assert_unlocks(PASSPHRASE, b"", &sealed, b"hello", "Ok");
    for other in [&b""[..], b"correct horsf", b"correct horse\n"] {
        assert_unlocks(other, b"", &sealed, b"", "WrongKey");
    }
    assert_unlocks(PASSPHRASE, b"name", &sealed, b"", "Refused(0)");
}

#[test]
fn derived_key_and_commitment() {
    // The derived key is that of the second vector of XAES-256-GCM (C2SP).
    let derived = "e9c621d4cdd9b11b00a6427ad7e559aeedd66b3857646677748f8ca796cb3fd8";
    let commitment = "6eeed565f0c9d2332b86a5141da7a2458828269731bf51d3c539d6fe28f7fdda";
    let key = FileKey::new(&[3; 32]).expect("a key of its length");
    assert_eq!(key.derived_key(b"ABCDEFGHIJKL")[..], hex::bytes(derived));
    assert_eq!(key.commitment(b"ABCDEFGHIJKL")[..], hex::bytes(commitment));
}

#[test]
fn keys_of_another_length() {
    for len in [0, 16, 31, 33, 64] {
        assert_eq!(end_of(FileKey::new(&vec![1; len])), "KeyLength");
    }
}

#[test]
fn sealed_by_another_program() {
    for (len, under_key, under_passphrase) in SEALED {
        let file = file_of(len);
        let sealed = sealed_of(len);
        assert_eq!(digest(&sealed), under_key, "{len}");
        assert_opens(&sealed, len, "Ok");

        let mut out = BEFORE.to_vec();
        seal_bytes(&key(), random(), &file, &mut out).expect("memory");
        assert!(out == [BEFORE, &sealed].concat(), "{len} in memory");

        let sealed = sealed_under(PASSPHRASE, 2, b"", &file);
        assert_eq!(digest(&sealed), under_passphrase, "{len}");
        assert_unlocks(PASSPHRASE, b"", &sealed, &file, "Ok");
    }
}

#[test]
fn bound_to_an_aad_by_another_program() {
    let file = file_of(CHUNK_LEN + 5);
    for (len, under_key, under_passphrase) in [
        (
            1,
            "3b7c7d4c09d6cf2157e1cfb96022190a976de04d1f1212892145faa7625e1881",
            "d3a0d69bbdf416b743cc4eff77c95febb30754319b89008490d45966d40a3cdc",
        ),
        (
            64,
            "126fb0802fb22650109df15f55de5dfbb09e994fe1cb1a1e162d29fb3d2a77d6",
            "fc97387a014e0a222c66ce0a64bbbf188752cd472fd61505dc8300a1f768c809",
        ),
        (
            MAX_AAD_LEN,
            "6742f44c26d81f2b19266bf964a4cf1224b047203a131f5d7d63f8fc726e8eea",
            "f26ec8725e4d9803c58c853a27dc50d0a38b38fe7d4d87b560ef34eeeb448cc6",
        ),
    ] {
        let aad: Vec<u8> = (0..len).map(|i| (7 * i) as u8).collect();
        let mut sealed = Vec::new();
        seal_with_aad(&key(), random(), &aad, &mut file.as_slice(), &mut sealed).expect("streams");
        assert_eq!(digest(&sealed), under_key, "{len}");
        assert_opens_by(&key(), &aad, &sealed, &file, "Ok");
        assert_opens_by(&key(), &aad[1..], &sealed, b"", "Refused(0)");

        let sealed = sealed_under(PASSPHRASE, 2, &aad, &file);
        assert_eq!(digest(&sealed), under_passphrase, "{len}");
        assert_unlocks(PASSPHRASE, &aad, &sealed, &file, "Ok");
        assert_unlocks(PASSPHRASE, &aad[1..], &sealed, b"", "Refused(0)");
    }
}

#[test]
fn passphrases_by_another_program() {
    for (passphrase, iterations, wanted) in [
        (
            Vec::new(),
            1000,
            "5c23c0d8f8bb740334a7b68f0d5f35e3d449bdae528827de2735c93f47077e01",
        ),
        (
            vec![b'x'; 64],
            1,
            "29f43661e5ddeabe9c64e5d9072d12233a6b186f03b22b33a2d9a7a92978a82c",
        ),
        (
            vec![b'x'; 65],
            2,
            "2906d1721e2159db3ffae6a4dbdd96c37929c0fce50eef6730e2ba00fac6beba",
        ),
    ] {
        let sealed = sealed_under(&passphrase, iterations, b"", b"hello");
        assert_eq!(digest(&sealed), wanted, "{iterations} iterations");
        assert_eq!(iterations_in(&sealed).expect("a header"), iterations);
        assert_unlocks(&passphrase, b"", &sealed, b"hello", "Ok");
    }
    // HMAC appends zeros to a key that is shorter than a block (RFC 2104 section 2).
    assert_unlocks(b"correct horse\0", b"", &second_example(), b"hello", "Ok");
}

#[test]
fn an_empty_last_chunk_after_another() {
    let end = HEADER_LEN + SEALED_CHUNK_LEN;
    let tag = hex::bytes("1d637b951d781024775fd476dd1fab2d");
    let sealed = [&sealed_of(CHUNK_LEN + 5)[..end], &tag].concat();
    assert_opens(&sealed, CHUNK_LEN, "Ok");
}

/// A chunk whose tag is right under the key and under the bytes 7: its first block solves the equation that both tags are one. Once
/// it follows a header without a commitment, and once the header of the key.
#[test]
fn a_chunk_of_two_keys() {
    let other = FileKey::new(&[7; 32]).expect("a key of its length");
    let bare = hex::bytes(concat!(
        "5345414c46494c450101020304050607",
        "804648f4f58000b4a8a28db036efb41ef56669b39baa40b9a22d346fabc7567d"
    ));
    let chunk = hex::bytes("69c7b4dc31f8b17de51651c85e7f5a92493423d2ce0f713eaeefc49f5ec81038");
    let sealed = [&sealed_of(0)[..HEADER_LEN], &chunk].concat();
    for key in [key(), other] {
        assert_opens_by(&key, &[], &bare, b"", "AnotherVersion(1)");
    }
    let opened = hex::bytes("87d9d8f1124632cf48f05a1acf04789a");
    let other = FileKey::new(&[7; 32]).expect("a key of its length");
    assert_opens_by(&key(), &[], &sealed, &opened, "Ok");
    assert_opens_by(&other, &[], &sealed, b"", "WrongKey");
}

#[test]
fn each_version_is_of_its_calls() {
    assert_opens(&second_example(), 0, "AnotherVersion(3)");
    let sealed = sealed_of(5);
    assert_unlocks(PASSPHRASE, b"", &sealed, b"", "AnotherVersion(2)");
    assert_eq!(end_of(iterations_in(&sealed)), "AnotherVersion(2)");
    assert_eq!(end_of(check_header(&second_example())), "AnotherVersion(3)");
}

#[test]
fn headers_of_a_key() {
    let sealed = sealed_of(5);
    let other = FileKey::new(&[7; 32]).expect("a key of its length");
    for len in [HEADER_LEN, sealed.len()] {
        assert_eq!(end_of(check_header(&sealed[..len])), "Ok");
        assert!(key().is_of(&sealed[..len]));
        assert!(!other.is_of(&sealed[..len]));
    }
    assert_eq!(end_of(check_header(&sealed[..HEADER_LEN - 1])), "EndsEarly");
    assert!(!key().is_of(&sealed[..HEADER_LEN - 1]));
}

/// Returns the bytes with one bit flipped.
fn flipped(bytes: &[u8], at: usize, bit: u32) -> Vec<u8> {
    let mut bytes = bytes.to_vec();
    bytes[at] ^= 1 << bit;
    bytes
}

#[test]
fn each_bit_of_a_file() {
    let sealed = sealed_of(5);
    for (at, bit) in (0..sealed.len()).flat_map(|at| (0..8).map(move |bit| (at, bit))) {
        let changed = flipped(&sealed, at, bit);
        let end = match at {
            0..8 => "AnotherMagic".into(),
            8 => format!("AnotherVersion({})", changed[8]),
            9..21 | 28..60 => "WrongKey".into(),
            _ => "Refused(0)".into(),
        };
        assert_opens(&changed, 0, &end);
    }
}

#[test]
fn each_bit_of_a_file_under_a_passphrase() {
    let sealed = second_example();
    for (at, bit) in (0..sealed.len()).flat_map(|at| (0..8).map(move |bit| (at, bit))) {
        let changed = flipped(&sealed, at, bit);
        let iterations = u32::from_be_bytes(changed[60..64].try_into().expect("four bytes"));
        let end = match at {
            0..8 => "AnotherMagic".into(),
            8 => format!("AnotherVersion({})", changed[8]),
            60..64 if iterations > MAX_ITERATIONS => format!("Iterations({iterations})"),
            // The key of so many iterations takes seconds.
            60..64 if iterations > 100_000 => continue,
            9..64 => "WrongKey".into(),
            _ => "Refused(0)".into(),
        };
        assert_unlocks(PASSPHRASE, b"", &changed, b"", &end);
    }
}

#[test]
fn each_length_of_a_short_file() {
    let sealed = sealed_of(5);
    for len in 0..sealed.len() {
        let end = if len < HEADER_LEN + 16 {
            "EndsEarly"
        } else {
            "Refused(0)"
        };
        assert_opens(&sealed[..len], 0, end);
    }
    let sealed = second_example();
    for len in 0..sealed.len() {
        let end = if len < PASSPHRASE_HEADER_LEN + 16 {
            "EndsEarly"
        } else {
            "Refused(0)"
        };
        assert_unlocks(PASSPHRASE, b"", &sealed[..len], b"", end);
    }
}

#[test]
fn cut_files() {
    let sealed = sealed_of(CHUNK_LEN + 5);
    let second = HEADER_LEN + SEALED_CHUNK_LEN;
    for (len, opened, end) in [
        (second - 1, 0, "Refused(0)"),
        (second, 0, "EndsEarly"),
        (second + 1, CHUNK_LEN, "EndsEarly"),
        (second + 15, CHUNK_LEN, "EndsEarly"),
        (second + 16, CHUNK_LEN, "Refused(1)"),
        (second + 20, CHUNK_LEN, "Refused(1)"),
        (second + 21, CHUNK_LEN + 5, "Ok"),
    ] {
        assert_opens(&sealed[..len], opened, end);
    }
}

#[test]
fn extended_files() {
    for (len, opened, end) in [
        (0, 0, "Refused(0)"),
        (5, 0, "Refused(0)"),
        (CHUNK_LEN, 0, "TrailingBytes"),
        (CHUNK_LEN + 5, CHUNK_LEN, "Refused(1)"),
        (2 * CHUNK_LEN, CHUNK_LEN, "TrailingBytes"),
    ] {
        for after in [&b"x"[..], &[0; 16], &[0; SEALED_CHUNK_LEN]] {
            assert_opens(&[&sealed_of(len), after].concat(), opened, end);
        }
    }
}

#[test]
fn swapped_repeated_and_lost_chunks() {
    let sealed = sealed_of(3 * CHUNK_LEN);
    let (header, body) = sealed.split_at(HEADER_LEN);
    let chunks: Vec<&[u8]> = body.chunks(SEALED_CHUNK_LEN).collect();
    for (order, opened, end) in [
        (&[0, 1, 2][..], 3, "Ok"),
        (&[1, 0, 2], 0, "Refused(0)"),
        (&[0, 2, 1], 1, "Refused(1)"),
        (&[0, 0, 1, 2], 1, "Refused(1)"),
        (&[0, 1, 1, 2], 2, "Refused(2)"),
        (&[1, 2], 0, "Refused(0)"),
        (&[0, 2], 1, "Refused(1)"),
        (&[0, 1], 1, "EndsEarly"),
        (&[0], 0, "EndsEarly"),
        (&[], 0, "EndsEarly"),
        (&[0, 1, 2, 2], 2, "TrailingBytes"),
        (&[0, 1, 2, 0], 2, "TrailingBytes"),
    ] {
        let order: Vec<&[u8]> = order.iter().map(|number: &usize| chunks[*number]).collect();
        let file = [header, &order.concat()].concat();
        assert_opens(&file, opened * CHUNK_LEN, end);
    }
}

#[test]
fn a_chunk_of_another_file() {
    let (sealed, mut other) = (sealed_of(2 * CHUNK_LEN), Vec::new());
    let random = FileRandom::from_bytes_for_tests([9; 19]);
    seal_bytes(&key(), random, &file_of(2 * CHUNK_LEN), &mut other).expect("memory");
    let second = HEADER_LEN + SEALED_CHUNK_LEN;
    let mixed = [&sealed[..second], &other[second..]].concat();
    assert_opens(&mixed, CHUNK_LEN, "Refused(1)");
}

#[test]
fn chunks_alone() {
    for (len, ..) in SEALED {
        let (file, sealed) = (file_of(len), sealed_of(len));
        let (header, body) = sealed.split_at(HEADER_LEN);
        let last = len.saturating_sub(1) / CHUNK_LEN;
        let mut out = BEFORE.to_vec();
        for (number, chunk) in body.chunks(SEALED_CHUNK_LEN).enumerate() {
            let is_last = number == last;
            open_chunk_at(&key(), &[], header, number as u32, is_last, chunk, &mut out)
                .expect("a chunk of the file");
        }
        assert!(out == [BEFORE, &file].concat(), "{len}");
        assert_eq!(plaintext_len(sealed.len() as u64), Some(len as u64));
    }
}

#[test]
fn chunks_that_are_refused_alone() {
    let sealed = sealed_of(CHUNK_LEN + 5);
    let (header, body) = sealed.split_at(HEADER_LEN);
    let (first, second) = body.split_at(SEALED_CHUNK_LEN);
    let wrong_key = flipped(header, 30, 0);
    for (aad, header, number, is_last, chunk, end) in [
        (&b""[..], header, 1, true, second, "Ok"),
        (b"", &sealed, 0, false, first, "Ok"),
        (b"", header, 0, true, second, "Refused(0)"),
        (b"", header, 2, true, second, "Refused(2)"),
        (b"", header, 1 << 31, true, second, "Refused(2147483648)"),
        (b"", header, 1, false, second, "TrailingBytes"),
        (b"", header, 0, true, first, "EndsEarly"),
        (b"", header, 1, true, &second[..15], "EndsEarly"),
        (b"", header, 1, true, &[], "EndsEarly"),
        (b"", header, 1, true, &second[..16], "Refused(1)"),
        (b"", header, 1, true, &second[1..], "Refused(1)"),
        (b"name", header, 1, true, second, "Refused(1)"),
        (b"", &header[..59], 1, true, second, "EndsEarly"),
        (b"", &wrong_key, 1, true, second, "WrongKey"),
    ] {
        let mut out = BEFORE.to_vec();
        let result = open_chunk_at(&key(), aad, header, number, is_last, chunk, &mut out);
        assert_eq!(end_of(result), end);
        if end != "Ok" {
            assert_eq!(out, BEFORE);
        }
    }
    let (mut out, other) = (BEFORE.to_vec(), FileKey::new(&[7; 32]).expect("a key"));
    let result = open_chunk_at(&other, &[], header, 1, true, second, &mut out);
    assert_eq!(end_of(result), "WrongKey");
    assert_eq!(out, BEFORE);
}

/// The lengths of sealed files by `SEALED_FILE.md`, of which each but the last chunk has 65552 bytes, and the last has 16 to 65552.
#[test]
fn lengths_of_files() {
    let max_chunks: u64 = (1 << 32) - 1;
    for (sealed_len, len) in [
        (0, None),
        (59, None),
        (75, None),
        (76, Some(0)),
        (77, Some(1)),
        (60 + 65552, Some(65536)),
        (60 + 65553, None),
        (60 + 65567, None),
        (60 + 65568, Some(65536)),
        (60 + 65569, Some(65537)),
        (60 + 65552 * max_chunks, Some(65536 * max_chunks)),
        (
            60 + 65552 * max_chunks - 65536,
            Some(65536 * (max_chunks - 1)),
        ),
        (60 + 65552 * max_chunks + 1, None),
        (60 + 65552 * max_chunks + 16, None),
        (u64::MAX, None),
    ] {
        assert_eq!(plaintext_len(sealed_len), len, "{sealed_len}");
    }
}

#[test]
fn iterations_in_headers() {
    let file = second_example();
    for (iterations, end) in [
        (0, "Iterations(0)".into()),
        (1, "Ok".into()),
        (ITERATIONS, "Ok".into()),
        (MAX_ITERATIONS, "Ok".into()),
        (MAX_ITERATIONS + 1, "Iterations(10000001)".into()),
        (u32::MAX, format!("Iterations({})", u32::MAX)),
    ] {
        let header = [&file[..HEADER_LEN], &u32::to_be_bytes(iterations)].concat();
        let found = iterations_in(&header);
        if let Ok(found) = &found {
            assert_eq!(*found, iterations);
        } else {
            assert_unlocks(PASSPHRASE, b"", &header, b"", &end);
        }
        assert_eq!(end_of(found), end);
    }
    for len in [0, 8, 9, 59, 60, 63] {
        assert_eq!(end_of(iterations_in(&file[..len])), "EndsEarly");
    }
    assert_eq!(end_of(iterations_in(b"SEALFILF\x03")), "AnotherMagic");
}

#[test]
fn texts_of_errors() {
    for (error, text) in [
        (FileError::KeyLength, "the key is not 32 bytes long"),
        (FileError::AnotherMagic, "not a sealed file"),
        (
            FileError::AnotherVersion(2),
            "a sealed file of version 2, which a key opens",
        ),
        (
            FileError::AnotherVersion(3),
            "a sealed file of version 3, which a passphrase opens",
        ),
        (
            FileError::AnotherVersion(4),
            "a sealed file of version 4, which is neither 2 nor 3",
        ),
        (
            FileError::WrongKey,
            "the key or passphrase is wrong, or the header was changed",
        ),
        (
            FileError::Iterations(0),
            "the header says 0 iterations, which must be from 1 to 10000000",
        ),
        (FileError::EndsEarly, "the sealed file ends early"),
        (
            FileError::TrailingBytes,
            "there are bytes after the last chunk",
        ),
        (FileError::Refused(7), "chunk 7 was changed or cut"),
        (
            FileError::TooLong,
            "the file is too long: it has 2^32 chunks or more",
        ),
        (FileError::OutOfMemory, "out of memory"),
        (FileError::from(AllocError), "out of memory"),
        (
            FileError::from(io::Error::other("the reason")),
            "the reason",
        ),
    ] {
        assert_eq!(error.to_string(), text);
    }
}

#[test]
fn an_error_crosses_threads() {
    let error: Box<dyn Error + Send + Sync> = FileError::Refused(1).into();
    assert!(error.downcast_ref::<FileError>().is_some());
}

#[test]
fn each_pair_of_calls_opens_only_its_own() {
    let file = file_of(5);
    for (which, calls) in CALLS.iter().enumerate() {
        let mut sealed = Vec::new();
        (calls.seal)(&mut file.as_slice(), &mut sealed).expect("streams");
        for (other, opening) in CALLS.iter().enumerate() {
            let mut opened = Vec::new();
            let result = (opening.open)(&mut sealed.as_slice(), &mut opened);
            assert_eq!(
                result.is_ok(),
                which == other,
                "{}, {}",
                calls.what,
                opening.what
            );
            assert_eq!(opened.is_empty(), which != other);
        }
    }
}
