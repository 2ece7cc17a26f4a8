//! XAES-256-GCM.

use deerlapse::aead::{Aad, Tag};
use deerlapse::aes_gcm::Width;
use deerlapse::xaes::{ExpandedKey, XNonce, Xaes256Gcm};

use super::{Lengths, Openings, TAG_LEN, all_lengths};
use crate::marks::{secret, secrets, told};

fn nonce() -> XNonce {
    XNonce::assume_unique_for_key(secret())
}

/// Seals a message, by each call that seals, and returns it with its tag.
fn seal(key: &Xaes256Gcm, lengths: Lengths, aad: Aad<'_>) -> Vec<u8> {
    let mut apart = secrets(lengths.message);
    let tag = key
        .seal_in_place_separate_tag(nonce(), aad, &mut apart)
        .expect("lengths that fit");
    let mut other = vec![0; lengths.message];
    let other_tag = key
        .seal_to(nonce(), aad, &secrets(lengths.message), &mut other)
        .expect("lengths that fit");
    let mut sealed = secrets(lengths.message);
    key.seal_in_place_append_tag(nonce(), aad, &mut sealed)
        .expect("memory");
    assert_eq!(told(&sealed), told(&[&apart[..], tag.as_ref()].concat()));
    assert_eq!(
        told(&sealed),
        told(&[&other[..], other_tag.as_ref()].concat())
    );
    sealed
}

fn under_nonces(key: &Xaes256Gcm, lengths: Lengths, openings: &mut Openings) {
    let aad = secrets(lengths.aad);
    let aad = Aad::from(&aad[..]);
    let start = lengths.start;
    let sealed = seal(key, lengths, aad);
    let shifted = [&secrets(start)[..], &sealed].concat();

    openings.open(&sealed, |it| {
        key.open_in_place_to_front(nonce(), aad, it).ok()
    });
    openings.open(&shifted, |it| {
        key.open_within_to_front(nonce(), aad, it, start..).ok()
    });
    openings.open(&shifted, |it| {
        let (it, tag) = it.split_last_chunk_mut::<TAG_LEN>()?;
        let tag = Tag::from(*tag);
        key.open_in_place_separate_tag_to_front(nonce(), aad, tag, it, start..)
            .ok()
    });
    openings.open(&sealed, |it| {
        let (ciphertext, tag) = it.split_last_chunk::<TAG_LEN>()?;
        let mut out = vec![0; ciphertext.len()];
        key.open_to(nonce(), aad, Tag::from(*tag), ciphertext, &mut out)
            .ok()?;
        *it = out;
        Some(it.len())
    });
}

pub fn make(openings: &mut Openings) {
    let mut narrow = ExpandedKey::zeros();
    narrow.expand(&secret(), Width::Bits128);
    let keys = [
        Xaes256Gcm::new(&secret()),
        Xaes256Gcm::from_expanded(narrow),
    ];
    for key in keys {
        let derived = key.derived_key(&secret());
        assert_eq!(told(&derived), told(&key.derived_blocks(&secret(), 1, 2)));
        for lengths in all_lengths() {
            under_nonces(&key, lengths, openings);
        }
    }
}
