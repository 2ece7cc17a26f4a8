//! Tests of both levels of x86-64 on one machine.

use crate::asm::{tests::say, TEXTS};
use crate::{
    cpu, nonce_of, HeaderProtectionKey, LessSafeKey, Opener, QuicKey, QuicVersion, RecordKey,
    Sealer, Unspecified, Xaes256Gcm, XaesNonce,
};
use std::error::Error;
use std::sync::atomic::Ordering;

#[path = "../tests/vectors.rs"]
mod vectors;

/// Has all calls from here on take the functions of a level. The tests beside this one pass at either.
fn take(level: u8) {
    cpu::LEVEL.store(level, Ordering::Relaxed);
}

/// Why the levels can't both be tried.
fn obstacle() -> Option<&'static str> {
    if TEXTS.len() < 2 {
        Some("this package has the text of one")
    } else if cpu::V3 {
        Some("the program is compiled for v3")
    } else if cpu::asked_level() < 3 {
        Some("this processor lacks v3")
    } else {
        None
    }
}

/// What is sealed under keys that are made at one level and used at another. It is opened at each.
fn sealed(made: u8, used: u8, key_bytes: &[u8], message: &[u8]) -> Result<Vec<u8>, Unspecified> {
    let (iv, aad) = ([9; 12], b"v1");
    take(made);
    let key = LessSafeKey::new(key_bytes)?;
    let mut sealer = Sealer::new(key_bytes, &iv, 0..1)?;
    let opener = Opener::new(key_bytes, &iv, 0..1)?;

    take(used);
    let mut sealed = message.to_vec();
    sealer.seal_in_place_append_tag(aad, &mut sealed)?;
    let mut whole = message.to_vec();
    key.seal_in_place_append_tag(nonce_of(&iv, 0), aad, &mut whole)?;
    assert_eq!(whole, sealed);
    let mut cut = message.to_vec();
    let mut pieces = key.begin(nonce_of(&iv, 0), aad)?;
    for piece in cut.chunks_mut(1 + message.len() / 2) {
        pieces.update(piece)?;
    }
    cut.extend(pieces.finish());
    assert_eq!(cut, sealed);

    for level in [2, 3] {
        take(level);
        let opened = key.open_in_place(nonce_of(&iv, 0), aad, &mut whole)?;
        assert_eq!(opened, message);
        whole.clone_from(&sealed);
        assert_eq!(opener.open_number_in_place(0, aad, &mut whole)?, message);
        whole.clone_from(&sealed);
    }
    Ok(sealed)
}

/// What is sealed under a key of XAES-256-GCM that is made at one level and used at another. It is opened at each.
fn sealed_by_xaes(
    made: u8,
    used: u8,
    key_bytes: &[u8; 32],
    message: &[u8],
) -> Result<Vec<u8>, Unspecified> {
    let nonce = || XaesNonce::assume_unique_for_key([9; 24]);
    take(made);
    let key = Xaes256Gcm::new(key_bytes);

    take(used);
    let mut sealed = message.to_vec();
    key.seal_in_place_append_tag(nonce(), b"v1", &mut sealed)?;

    for level in [2, 3] {
        take(level);
        let mut sealed = sealed.clone();
        let opened = key.open_in_place(nonce(), b"v1", &mut sealed)?;
        assert_eq!(opened, message);
    }
    Ok(sealed)
}

/// A payload that is protected as a packet's and as a record's, and a mask, under keys that are made from a secret at one level
/// and used at another. Each payload is opened at each level.
fn protected(made: u8, used: u8, secret: &[u8], content: &[u8]) -> Result<Vec<u8>, Unspecified> {
    take(made);
    let of_packets = QuicKey::from_secret(QuicVersion::V2, secret)?;
    let of_headers = HeaderProtectionKey::from_secret(QuicVersion::V2, secret)?;
    let of_records = RecordKey::from_secret(secret)?;

    take(used);
    let mut packet = content.to_vec();
    let tag = of_packets.seal_in_place_separate_tag(3, b"header", &mut packet)?;
    packet.extend(tag);
    let mut record = content.to_vec();
    record.resize(content.len() + 20, 0);
    of_records.seal_in_place(3, 23, &mut record, content.len())?;
    let mask = of_headers.new_mask(&tag);

    for level in [2, 3] {
        take(level);
        let opened = of_packets
            .open_in_place(3, b"header", &mut packet.clone())?
            .to_vec();
        assert_eq!(opened, content);
        let mut record = record.clone();
        let (content_type, opened) = of_records.open_in_place(3, &mut record)?;
        assert_eq!((content_type, &*opened), (23, content));
        assert_eq!(of_headers.new_mask(&tag), mask);
    }
    Ok([packet, record, mask.to_vec()].concat())
}

/// Tries keys that are made at each level and used at each.
fn each_pair_of_levels() -> Result<(), Unspecified> {
    let bytes: Vec<u8> = (0..2000).map(|i| (i * i / 7) as u8).collect();
    for len in (0..=600).chain([1350, 2000]) {
        let message = &bytes[..len];
        for key_len in [16, 32] {
            let key = &bytes[100..100 + key_len];
            let wanted = sealed(2, 2, key, message)?;
            for (made, used) in [(2, 3), (3, 2), (3, 3)] {
                assert_eq!(sealed(made, used, key, message)?, wanted);
            }
        }
        let key = bytes[100..132].try_into().expect("32 bytes");
        let wanted = sealed_by_xaes(2, 2, key, message)?;
        for (made, used) in [(2, 3), (3, 2), (3, 3)] {
            assert_eq!(sealed_by_xaes(made, used, key, message)?, wanted);
        }
        for secret_len in [32, 48] {
            let secret = &bytes[100..100 + secret_len];
            let wanted = protected(2, 2, secret, message)?;
            for (made, used) in [(2, 3), (3, 2), (3, 3)] {
                assert_eq!(protected(made, used, secret, message)?, wanted);
            }
        }
    }
    Ok(())
}

#[test]
fn each_level() -> Result<(), Box<dyn Error>> {
    if let Some(text) = obstacle() {
        say(&format!("keys of two levels were not tried, since {text}"))?;
        return Ok(());
    }
    take(2);
    let (narrow, narrow_xaes) = (LessSafeKey::new(&[7; 16])?, Xaes256Gcm::new(&[7; 32]));
    take(3);
    let (wide, wide_xaes) = (LessSafeKey::new(&[7; 16])?, Xaes256Gcm::new(&[7; 32]));
    assert!(
        narrow.0.words != wide.0.words && narrow_xaes.0.words != wide_xaes.0.words,
        "a key says the width of its planes, which is the level's"
    );
    for level in [2, 3] {
        take(level);
        vectors::seals_and_opens()?;
        vectors::seals_and_opens_with_the_tag_after_the_ciphertext()?;
        vectors::seals_and_opens_from_one_buffer_to_another()?;
        vectors::seals_in_pieces()?;
        vectors::threads_share_a_key()?;
        vectors::a_refusal_leaves_the_buffer()?;
        vectors::seals_and_opens_under_nonces_of_24_bytes()?;
        vectors::opens_what_it_sealed_under_a_nonce_of_24_bytes()?;
        vectors::a_changed_byte_in_each_half_of_the_nonce_is_refused()?;
        vectors::a_refusal_of_a_nonce_of_24_bytes_leaves_the_buffer()?;
        vectors::a_sealer_counts()?;
        vectors::an_opener_counts_what_it_opens()?;
        vectors::a_dropped_key_is_wiped()?;
        vectors::masks_and_streams()?;
        vectors::derives()?;
        vectors::derives_the_secrets_of_tls()?;
        vectors::refuses_to_derive();
        vectors::derives_the_keys_of_quic()?;
        vectors::derives_the_next_secrets()?;
        vectors::protects_packets()?;
        vectors::protects_records()?;
        vectors::a_record_has_padding_and_limits()?;
    }
    each_pair_of_levels()?;
    Ok(())
}
