//! What keys have beside ciphertexts and tags: clones, tallies of work, limits of lengths, derived keys, the width of planes, and
//! what an expansion leaves of an older key.

use aead_ciphers::{aes_gcm, gcm};
use deerlapse::aead::{AES_256_GCM, Aad, LessSafeKey, Nonce, Tag, UnboundKey};
use deerlapse::aes_gcm::{ExpandedKey, GcmKey, KeyBytes, Width, Work};
use deerlapse::xaes::{XNonce, Xaes256Gcm};
use vectors::drawn::Drawn;
use vectors::{levels, model};

fn nonce() -> Nonce {
    Nonce::assume_unique_for_key([2; 12])
}

fn less_safe_key() -> LessSafeKey {
    LessSafeKey::new(UnboundKey::new(&AES_256_GCM, &[9; 32]).expect("a key of its length"))
}

fn expanded<K: GcmKey>(bytes: &[u8]) -> K {
    let mut key = K::zeros();
    let bytes = KeyBytes::from_slice(bytes).expect("16 or 32 bytes");
    key.expand(bytes, &mut Work::new());
    key
}

#[test]
fn clones_seal_as_their_keys() {
    levels::enter();
    let sealed = |key: LessSafeKey| {
        let mut buffer = b"a message".to_vec();
        key.seal_in_place_append_tag(nonce(), Aad::empty(), &mut buffer)
            .expect("memory");
        buffer
    };
    let key = less_safe_key();
    assert_eq!(sealed(key.clone()), sealed(key));

    let sealed = |key: Xaes256Gcm| {
        let nonce = XNonce::assume_unique_for_key([2; 24]);
        let mut buffer = b"a message".to_vec();
        key.seal_in_place_append_tag(nonce, Aad::empty(), &mut buffer)
            .expect("memory");
        buffer
    };
    let key = Xaes256Gcm::new(&[9; 32]);
    assert_eq!(sealed(key.clone()), sealed(key));

    let sealed = |key: aes_gcm::Key| {
        let mut buffer = *b"a message";
        let tag = aes_gcm::seal(&key, nonce(), Aad::empty(), &mut buffer, &mut Work::new());
        (buffer, tag.expect("lengths that fit").as_ref().to_vec())
    };
    let key = aes_gcm::Key::new(KeyBytes::AES_256(&[9; 32]), &mut Work::new()).expect("a key");
    assert_eq!(sealed(key.clone()), sealed(key));
}

/// Seals and opens messages, and compares the tallies with the numbers of blocks and of products (SP 800-38D section 7): a block
/// for each of the message and one for the tag, and a product for each block that is hashed. A false tag costs one block.
fn counts_work<K: GcmKey>() {
    let drawn = &mut Drawn::new(7);
    for len in (0..300).chain([3071, 3072, 3073]) {
        let key = expanded::<K>(&drawn.bytes(32));
        let (aad, mut buffer) = (drawn.bytes(len % 40), drawn.bytes(len));
        let aad = Aad::from(aad.as_slice());
        let blocks = len.div_ceil(16) as u64 + 1;
        let products = aad.as_ref().len().div_ceil(16) as u64 + blocks;
        let mut work = Work::new();
        let tag = key.seal(nonce(), aad, &mut buffer, &mut work);
        let tag = tag.expect("lengths that fit");
        assert_eq!((work.blocks(), work.products()), (blocks, products));

        let mut work = Work::new();
        let forged = Tag::from([0; 16]);
        assert!(
            key.open(nonce(), aad, forged, &mut buffer, 0.., &mut work)
                .is_err()
        );
        assert_eq!((work.blocks(), work.products()), (1, products));
        let mut work = Work::new();
        key.open(nonce(), aad, tag, &mut buffer, 0.., &mut work)
            .expect("the defined tag");
        assert_eq!((work.blocks(), work.products()), (blocks, products));
    }
}

#[test]
fn counts_work_of_each_key() {
    levels::enter();
    counts_work::<ExpandedKey>();
    counts_work::<aes_gcm::ExpandedKey>();
}

/// The limits of SP 800-38D section 5.2.1.1, in bytes.
#[test]
fn limits_of_lengths() {
    let (aad, message) = ((1 << 61) - 1, (1 << 36) - 32);
    assert!(gcm::fits(aad, message));
    assert!(!gcm::fits(aad + 1, 0));
    assert!(!gcm::fits(0, message + 1));
}

#[test]
fn derived_blocks_are_in_order() {
    levels::enter();
    let drawn = &mut Drawn::new(8);
    let (key, nonce): ([u8; 32], [u8; 24]) = (drawn.array(), drawn.array());
    let (derived, _) = model::xaes_derived(&key, nonce);
    let (first, second) = derived.split_at(16);
    let context = nonce[..12].try_into().expect("12 bytes");
    let key = Xaes256Gcm::new(&key);
    assert_eq!(key.derived_key(&context), derived);
    assert_eq!(key.derived_blocks(&context, 1, 2), derived);
    assert_eq!(
        key.derived_blocks(&context, 2, 1)[..],
        [second, first].concat()
    );
}

#[test]
fn planes_are_as_wide_as_the_vectors() {
    levels::enter();
    let width = if simd::has_256_bits() { 256 } else { 128 };
    assert_eq!(Width::of_processor().bits(), width);
    assert_eq!(less_safe_key().expanded().width, width);
}

#[test]
fn nothing_of_an_older_key_stays() {
    levels::enter();
    let fields = |key: &ExpandedKey| {
        let (planes, round_keys) = (key.planes.concat(), key.round_keys.concat());
        (planes, round_keys, key.rounds, key.products, key.squares)
    };
    let mut key = expanded::<ExpandedKey>(&[7; 32]);
    key.expand(KeyBytes::AES_128(&[9; 16]), &mut Work::new());
    assert_eq!(fields(&key), fields(&expanded(&[9; 16])));
}

#[test]
fn at_each_level() {
    levels::run_lower("at_each_level");
}
