//! What ring does otherwise, or doesn't promise.

use deerlapse_ring::aead::{
    Aad, BoundKey, LessSafeKey, Nonce, NonceSequence, OpeningKey, Tag, UnboundKey, AES_128_GCM,
};
use deerlapse_ring::error::Unspecified;

fn nonce() -> Nonce {
    Nonce::assume_unique_for_key([7; 12])
}

struct Always;

impl NonceSequence for Always {
    fn advance(&mut self) -> Result<Nonce, Unspecified> {
        Ok(nonce())
    }
}

fn unbound() -> Result<UnboundKey, Unspecified> {
    UnboundKey::new(&AES_128_GCM, &[7; 16])
}

#[test]
fn a_refusal_leaves_the_buffer() -> Result<(), Unspecified> {
    let (key, mut bound) = (
        LessSafeKey::new(unbound()?),
        OpeningKey::new(unbound()?, Always),
    );
    let sealed: Vec<u8> = (0..200).collect();
    let mut buffer = sealed.clone();
    for start in [0, 1, 100, 184, 185, 200, 201, usize::MAX] {
        let aad = Aad::from(b"header");
        assert!(key.open_within(nonce(), aad, &mut buffer, start..).is_err());
        assert!(bound.open_within(aad, &mut buffer, start..).is_err());
        let tag = Tag::from([0; 16]);
        let opened = key.open_in_place_separate_tag(nonce(), aad, tag, &mut buffer, start..);
        assert!(opened.is_err());
    }
    assert!(key
        .open_in_place(nonce(), Aad::empty(), &mut buffer)
        .is_err());
    assert!(bound.open_in_place(Aad::empty(), &mut buffer).is_err());
    assert_eq!(buffer, sealed);
    Ok(())
}

#[test]
fn the_bytes_after_a_plaintext_stay() -> Result<(), Unspecified> {
    let key = LessSafeKey::new(unbound()?);
    let mut sealed = b"hello".to_vec();
    key.seal_in_place_append_tag(nonce(), Aad::empty(), &mut sealed)?;
    let mut packet = [b"header".as_slice(), &sealed].concat();
    let before = packet.clone();
    assert_eq!(
        key.open_within(nonce(), Aad::empty(), &mut packet, 6..)?,
        b"hello"
    );
    assert_eq!(packet[5..], before[5..]);
    Ok(())
}

#[test]
fn an_error_prints_its_own_name() {
    assert_eq!(
        Unspecified.to_string(),
        "deerlapse_ring::error::Unspecified"
    );
}
