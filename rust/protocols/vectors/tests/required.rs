//! A call that doesn't keep what its contract requires panics, and says what isn't so.

use std::panic::{self, AssertUnwindSafe};

use deerlapse::aead::AES_128_GCM;
use deerlapse::tls_messages::Stage;
use key_derivation::Secret;
use quic_packets::connection::Connection as QuicConnection;
use quic_packets::{FixedBit, Space};
use records::connection::Connection;
use records::{EarlyData, Reader, Writer};
use sealed_file::{FileKey, FileRandom, MAX_AAD_LEN, MAX_ITERATIONS, SEALED_CHUNK_LEN};

const RANDOM: [u8; 19] = [5; 19];

/// Returns what a call panics with, or `None` if it returns.
fn panic_of(call: impl FnOnce()) -> Option<String> {
    let panic = panic::catch_unwind(AssertUnwindSafe(call)).err()?;
    let text = panic.downcast_ref::<&str>().map(|it| it.to_string());
    Some(text.unwrap_or_default())
}

fn panics(call: impl FnOnce(), wanted: &str) {
    assert_eq!(panic_of(call).as_deref(), Some(wanted));
}

fn secret() -> Secret {
    Secret::aes_128_gcm([7; 32])
}

#[test]
fn windows_of_quic() {
    let wanted = "W isn't from 2 to 64";
    panics(|| _ = Space::<1>::new(), wanted);
    panics(|| _ = Space::<65>::new(), wanted);
    panics(
        || drop(QuicConnection::<1>::new(FixedBit::Required)),
        wanted,
    );
    panics(
        || drop(QuicConnection::<65>::new(FixedBit::Required)),
        wanted,
    );
    assert_eq!(panic_of(|| _ = Space::<64>::new()), None);
}

#[test]
fn ends_of_tls() {
    let end = |reader, writer, len| {
        drop(Connection::new(
            reader,
            writer,
            &mut vec![0; len],
            Stage::Client,
        ))
    };
    let (reader, writer) = (
        || Reader::from_secret(secret()),
        || Writer::from_secret(secret()),
    );
    let without = "reader has no secret, which Reader::from_secret gives it";
    panics(
        || {
            end(
                Reader::new(&AES_128_GCM, &[7; 16], [8; 12]).expect("a reader"),
                writer(),
                4,
            )
        },
        without,
    );
    let without = "writer has no secret, which Writer::from_secret gives it";
    panics(
        || {
            end(
                reader(),
                Writer::new(&AES_128_GCM, &[7; 16], [8; 12]).expect("a writer"),
                4,
            )
        },
        without,
    );
    panics(
        || end(reader(), writer(), 3),
        "buffer has fewer than 4 bytes",
    );
    assert_eq!(panic_of(|| end(reader(), writer(), 4)), None);
}

#[test]
fn ranges_of_records() {
    for (filled, at, end, wanted) in [
        (0, 3, 2, "at and end aren't a range of bytes"),
        (0, 0, 31, "at and end aren't a range of bytes"),
        (8, 2, 30, "filled is beyond the header at at"),
    ] {
        let mut reader = Reader::from_secret(secret());
        panics(|| _ = reader.gather(&mut [0; 30], filled, at, end), wanted);
        let mut early = EarlyData::rejected(100);
        panics(
            || _ = reader.gather_past_early_data(&mut early, &mut [0; 30], filled, at, end),
            wanted,
        );
    }
    panics(|| _ = records::header_of(65_536), "len is 65,536 or more");
    let wanted = "inner has no byte after the content";
    panics(
        || records::write_type_and_padding(&mut [0; 3], 23, 3),
        wanted,
    );
}

#[test]
fn aad_and_iterations_of_files() {
    let key = FileKey::new(&[7; 32]).expect("32 bytes");
    let random = || FileRandom::from_bytes_for_tests(RANDOM);
    let (long, out) = (vec![0; MAX_AAD_LEN + 1], || Vec::new());
    let wanted = "aad has more than MAX_AAD_LEN bytes";
    panics(
        || _ = sealed_file::seal_with_aad(&key, random(), &long, &mut &b""[..], &mut out()),
        wanted,
    );
    panics(
        || _ = sealed_file::open_with_aad(&key, &long, &mut &b""[..], &mut out()),
        wanted,
    );
    panics(
        || _ = sealed_file::open_with_passphrase(b"p", &long, &mut &b""[..], &mut out()),
        wanted,
    );
    panics(
        || _ = sealed_file::SealedReader::new(&key, &long, &b""[..], 0),
        wanted,
    );
    panics(
        || _ = sealed_file::SealedReader::with_buffer(&key, &long, &b""[..], 0, out()),
        wanted,
    );
    panics(
        || _ = sealed_file::open_chunk_at(&key, &long, b"", 0, true, b"", &mut out()),
        wanted,
    );
    let sealed = vec![0; SEALED_CHUNK_LEN + 1];
    let wanted_of_chunk = "sealed has more than SEALED_CHUNK_LEN bytes";
    panics(
        || _ = sealed_file::open_chunk_at(&key, &[], b"", 0, true, &sealed, &mut out()),
        wanted_of_chunk,
    );
    let seal = |iterations, aad: &[u8]| {
        _ = sealed_file::seal_with_passphrase(
            b"p",
            iterations,
            random(),
            aad,
            &mut &b""[..],
            &mut out(),
        );
    };
    panics(|| seal(1, &long), wanted);
    for iterations in [0, MAX_ITERATIONS + 1] {
        panics(
            || seal(iterations, &[]),
            "iterations is 0 or more than MAX_ITERATIONS",
        );
    }
}
