//! AES-GCM, by the keys over vectors and by those over words.

use std::hint::black_box;

use deerlapse::aead::generic::{LessSafeKey, OpeningKey, SealingKey};
use deerlapse::aead::{
    AES_128_GCM, AES_256_GCM, Aad, Algorithm, BoundKey, CounterSequence, NonceSequence, Tag,
    UnboundKey, XoredSequence,
};
use deerlapse::aes_gcm::{ExpandedKey, GcmKey, KeyBytes, Width, Work};
use deerlapse::session::{self, Job, Operation, Outcome};

use super::{Lengths, Openings, TAG_LEN, all_lengths, nonce};
use crate::marks::{secret, secrets, told};

fn unbound(algorithm: &'static Algorithm) -> UnboundKey {
    UnboundKey::new(algorithm, &secrets(algorithm.key_len())).expect("a key of its length")
}

fn expanded(algorithm: &Algorithm, width: Width) -> ExpandedKey {
    let bytes = secrets(algorithm.key_len());
    let bytes = KeyBytes::from_slice(&bytes).expect("a key of its length");
    let mut key = ExpandedKey::zeros();
    key.expand_with_width(bytes, width, &mut Work::new());
    key
}

/// Seals a message, by each call that seals, and returns it with its tag.
fn seal<K: GcmKey>(key: &LessSafeKey<K>, lengths: Lengths, aad: Aad<'_>) -> Vec<u8> {
    let mut apart = secrets(lengths.message);
    let tag = key
        .seal_in_place_separate_tag(nonce(), aad, &mut apart)
        .expect("lengths that fit");
    let mut sealed = secrets(lengths.message);
    key.seal_in_place_append_tag(nonce(), aad, &mut sealed)
        .expect("memory");
    assert_eq!(told(&sealed), told(&[&apart[..], tag.as_ref()].concat()));
    sealed
}

/// The calls of a key that take the nonce.
fn under_nonces<K: GcmKey>(key: &LessSafeKey<K>, lengths: Lengths, openings: &mut Openings) {
    let aad = secrets(lengths.aad);
    let aad = Aad::from(&aad[..]);
    let start = lengths.start;
    let sealed = seal(key, lengths, aad);
    let shifted = [&secrets(start)[..], &sealed].concat();

    openings.open(&sealed, |it| {
        Some(key.open_in_place(nonce(), aad, it).ok()?.len())
    });
    openings.open(&shifted, |it| {
        Some(key.open_within(nonce(), aad, it, start..).ok()?.len())
    });
    openings.open(&shifted, |it| {
        let (it, tag) = it.split_last_chunk_mut::<TAG_LEN>()?;
        let opened = key.open_in_place_separate_tag(nonce(), aad, Tag::from(*tag), it, start..);
        Some(opened.ok()?.len())
    });
    openings.open(&sealed, |it| {
        let (ciphertext, tag) = it.split_last_chunk::<TAG_LEN>()?;
        let mut out = vec![0; ciphertext.len()];
        key.open_to(nonce(), aad, Tag::from(*tag), ciphertext, &mut out)
            .ok()?;
        *it = out;
        Some(it.len())
    });
}

/// A packet of QUIC, whose header is the AAD.
fn packet<K: GcmKey>(key: &LessSafeKey<K>, lengths: Lengths, openings: &mut Openings) {
    let mut packet = secrets(lengths.aad + lengths.message + TAG_LEN);
    key.seal_packet_in_place(nonce(), &mut packet, lengths.aad)
        .expect("room for a tag");
    openings.open(&packet, |it| {
        let opened = key.open_packet_in_place_after_header(nonce(), it, lengths.aad);
        let count = opened.ok()?;
        it.drain(..lengths.aad);
        Some(count)
    });
}

/// The calls of an expanded key that a `LessSafeKey` doesn't have.
fn of_expanded(key: &ExpandedKey, lengths: Lengths, openings: &mut Openings) {
    let (aad, mut sealed) = (secrets(lengths.aad), secrets(lengths.message));
    let (front, back) = aad.split_at(lengths.aad / 3);
    let aad = Aad::from(&aad[..]);
    let nothing = key.begin(nonce(), aad).expect("lengths that fit");
    let tag_of_nothing = key.finish(nothing);
    let mut state = key
        .begin_with_parts(nonce(), &[front, back])
        .expect("lengths that fit");
    let (first, others) = sealed.split_at_mut(lengths.message / 5);
    for piece in std::iter::once(first).chain(others.chunks_mut(100)) {
        key.update(&mut state, piece).expect("lengths that fit");
    }
    sealed.extend(key.finish(state).as_ref());
    openings.open(&sealed, |it| {
        key.open_within_to_front(nonce(), aad, it, 0..).ok()
    });
    openings.open(tag_of_nothing.as_ref(), |it| {
        key.open_within_to_front(nonce(), aad, it, 0..).ok()
    });
}

/// Bound keys, which take the nonces of a sequence, and a run of jobs under them.
fn bound<K: GcmKey, N: NonceSequence>(
    algorithm: &'static Algorithm,
    sequence: impl Fn() -> N,
    openings: &mut Openings,
) {
    let sealing = || SealingKey::<K, N>::new(unbound(algorithm), sequence());
    let opening = || OpeningKey::<K, N>::new(unbound(algorithm), sequence());
    for lengths in all_lengths() {
        let aad = secrets(lengths.aad);
        let mut jobs = [Job::new(
            Operation::Seal,
            aad.clone(),
            secrets(lengths.message),
        )];
        session::run(&mut sealing(), &mut opening(), &mut jobs);
        let sealed = &jobs[0].buffer;
        openings.open(sealed, |it| {
            Some(opening().open_in_place(Aad::from(&aad[..]), it).ok()?.len())
        });
        openings.open(sealed, |it| {
            let mut jobs = [Job::new(Operation::Open(0), aad.clone(), it.clone())];
            session::run(&mut sealing(), &mut opening(), &mut jobs);
            let [job] = jobs;
            *it = job.buffer;
            match job.outcome {
                Outcome::Opened(count) => Some(count),
                _ => None,
            }
        });
    }
}

/// The calls of a key that was made of bytes, by a cipher and a hash.
fn of<K: GcmKey>(algorithm: &'static Algorithm, openings: &mut Openings) {
    let key = LessSafeKey::<K>::new(unbound(algorithm)).clone();
    for lengths in all_lengths() {
        under_nonces(&key, lengths, openings);
        packet(&key, lengths, openings);
    }
    let counter = || CounterSequence::new(secret(), 5, 1).expect("numbers that fit");
    bound::<K, _>(algorithm, counter, openings);
    let xored = || XoredSequence::new(secret(), 5, 6).expect("numbers that fit");
    bound::<K, _>(algorithm, xored, openings);
}

pub fn make(openings: &mut Openings) {
    for algorithm in [&AES_128_GCM, &AES_256_GCM] {
        of::<ExpandedKey>(algorithm, openings);
        of::<aead_ciphers::aes_gcm::ExpandedKey>(algorithm, openings);
        for width in [Width::Bits128, Width::Bits256] {
            let expanded = expanded(algorithm, width);
            let is_of = expanded.is_of(&secrets(algorithm.key_len()));
            assert_eq!(told(&[u8::from(is_of)]), [1]);
            black_box(expanded.new_mask(secret()));
            let key = LessSafeKey::from_expanded(algorithm, expanded.clone());
            for lengths in all_lengths() {
                of_expanded(&expanded, lengths, openings);
                under_nonces(&key, lengths, openings);
            }
        }
    }
}
