//! Each call of the packages beside the plain model: starts, lengths about each border, false tags, refusals that change nothing,
//! and sequences that end.

use deerlapse::aead::quic::{self, HeaderProtectionKey};
use deerlapse::aead::{
    AES_128_GCM, AES_256_GCM, Aad, BoundKey, CounterSequence, LessSafeKey, Nonce, OpeningKey,
    SealingKey, Tag, UnboundKey, XoredSequence,
};
use deerlapse::aes_gcm::ExpandedKey;
use deerlapse::session::{self, Job, Operation, Outcome};
use deerlapse::xaes::{XNonce, Xaes256Gcm};
use vectors::drawn::Drawn;
use vectors::model::{self, Aes};
use vectors::{hex, levels};

/// Lengths about the borders of blocks, of batches and of chunks.
const LENGTHS: [usize; 24] = [
    0, 1, 15, 16, 17, 31, 32, 33, 63, 64, 65, 127, 128, 129, 240, 255, 256, 257, 1350, 3071, 3072,
    3073, 4097, 6200,
];
/// Starts about the borders of blocks.
const STARTS: [usize; 6] = [0, 1, 15, 16, 31, 200];

/// A key, its model, and what a message is sealed with.
struct Case {
    key: LessSafeKey,
    aes: Aes,
    nonce: [u8; 12],
    aad: Vec<u8>,
    message: Vec<u8>,
}

fn case(drawn: &mut Drawn, len: usize) -> Case {
    let key_len = [16, 32][drawn.below(2)];
    let bytes = drawn.bytes(key_len);
    let algorithm = if bytes.len() == 16 {
        &AES_128_GCM
    } else {
        &AES_256_GCM
    };
    let aad_len = drawn.below(40);
    Case {
        key: LessSafeKey::new(UnboundKey::new(algorithm, &bytes).expect("a key of its length")),
        aes: Aes::new(&bytes),
        nonce: drawn.array(),
        aad: drawn.bytes(aad_len),
        message: drawn.bytes(len),
    }
}

impl Case {
    fn nonce(&self) -> Nonce {
        Nonce::assume_unique_for_key(self.nonce)
    }

    fn aad(&self) -> Aad<'_> {
        Aad::from(self.aad.as_slice())
    }

    /// The ciphertext and the tag, by the model.
    fn sealed(&self) -> (Vec<u8>, [u8; 16]) {
        let ciphertext = model::gcm_crypted(&self.aes, self.nonce, &self.message);
        let tag = model::gcm_tag(&self.aes, self.nonce, &self.aad, &ciphertext);
        (ciphertext, tag)
    }
}

#[test]
fn seals() {
    levels::enter();
    let drawn = &mut Drawn::new(1);
    for len in LENGTHS {
        let case = case(drawn, len);
        let (ciphertext, tag) = case.sealed();
        let mut apart = case.message.clone();
        let made = case
            .key
            .seal_in_place_separate_tag(case.nonce(), case.aad(), &mut apart)
            .expect("lengths that fit");
        assert_eq!(
            (&apart, made.as_ref()),
            (&ciphertext, &tag[..]),
            "{len} bytes"
        );

        let mut appended = case.message.clone();
        case.key
            .seal_in_place_append_tag(case.nonce(), case.aad(), &mut appended)
            .expect("memory");
        assert_eq!(appended, [&ciphertext[..], &tag].concat(), "{len} bytes");

        let mut packet = [&case.aad[..], &case.message, &[0; 16]].concat();
        case.key
            .seal_packet_in_place(case.nonce(), &mut packet, case.aad.len())
            .expect("room");
        assert_eq!(
            packet,
            [&case.aad[..], &ciphertext, &tag].concat(),
            "{len} bytes"
        );
    }
}

#[test]
fn opens_from_each_start() {
    levels::enter();
    let drawn = &mut Drawn::new(2);
    for (len, start) in LENGTHS
        .into_iter()
        .flat_map(|len| STARTS.map(|start| (len, start)))
    {
        let case = case(drawn, len);
        let (ciphertext, tag) = case.sealed();
        let front = drawn.bytes(start);
        let whole = [&front[..], &ciphertext, &tag].concat();
        let after = whole[len..].to_vec();

        let mut buffer = whole.clone();
        let opened = case
            .key
            .open_within(case.nonce(), case.aad(), &mut buffer, start..)
            .expect("the defined tag");
        assert_eq!(opened, case.message);
        assert_eq!(
            buffer,
            [&case.message[..], &after].concat(),
            "{len} bytes from {start}"
        );

        let mut buffer = whole[..start + len].to_vec();
        let tag = Tag::from(tag);
        let opened = case.key.open_in_place_separate_tag(
            case.nonce(),
            case.aad(),
            tag,
            &mut buffer,
            start..,
        );
        assert_eq!(
            opened.expect("the defined tag"),
            case.message,
            "{len} bytes from {start}"
        );
        assert_eq!(
            buffer,
            [&case.message[..], &whole[len..start + len]].concat()
        );
    }
}

#[test]
fn opens_packets() {
    levels::enter();
    let drawn = &mut Drawn::new(7);
    for len in LENGTHS {
        let case = case(drawn, len);
        let (ciphertext, tag) = case.sealed();
        let packet = [&case.aad[..], &ciphertext, &tag].concat();
        let header_len = case.aad.len();
        let mut buffer = packet.clone();
        let count =
            case.key
                .open_packet_in_place_after_header(case.nonce(), &mut buffer, header_len);
        assert_eq!(count, Ok(len));
        assert_eq!(buffer, [&case.aad[..], &case.message, &tag].concat());

        let mut buffer = packet.clone();
        for header_len in [header_len + 1, packet.len() - 15, packet.len() + 1] {
            assert!(
                case.key
                    .open_packet_in_place_after_header(case.nonce(), &mut buffer, header_len)
                    .is_err()
            );
        }
        assert_eq!(buffer, packet);
    }
}

#[test]
fn opens_to_another_buffer() {
    levels::enter();
    let drawn = &mut Drawn::new(8);
    for len in LENGTHS {
        let case = case(drawn, len);
        let (ciphertext, tag) = case.sealed();
        let mut out = vec![1; len];
        let mut open = |tag: [u8; 16]| {
            let tag = Tag::from(tag);
            let opened = case
                .key
                .open_to(case.nonce(), case.aad(), tag, &ciphertext, &mut out);
            (opened.is_ok(), out.clone())
        };
        assert_eq!(open(tag.map(|byte| !byte)), (false, vec![1; len]));
        assert_eq!(open(tag), (true, case.message.clone()), "{len} bytes");
    }
}

#[test]
fn refuses_and_changes_nothing() {
    levels::enter();
    let drawn = &mut Drawn::new(3);
    for len in LENGTHS {
        let case = case(drawn, len);
        let (ciphertext, tag) = case.sealed();
        let whole = [&ciphertext[..], &tag].concat();
        for _ in 0..8 {
            let mut changed = whole.clone();
            let bit = drawn.below(8 * changed.len());
            changed[bit / 8] ^= 1 << (bit % 8);
            let before = changed.clone();
            assert!(
                case.key
                    .open_in_place(case.nonce(), case.aad(), &mut changed)
                    .is_err(),
                "bit {bit} of {len} bytes"
            );
            assert_eq!(changed, before);
        }
        let mut buffer = whole.clone();
        let forged = [&case.aad[..], b"x"].concat();
        assert!(
            case.key
                .open_in_place(case.nonce(), Aad::from(forged.as_slice()), &mut buffer)
                .is_err()
        );
        assert!(
            case.key
                .open_within(case.nonce(), case.aad(), &mut buffer, len + 1..)
                .is_err()
        );
        assert!(
            case.key
                .open_in_place(case.nonce(), case.aad(), &mut buffer[..15.min(len)])
                .is_err()
        );
        assert_eq!(buffer, whole);
    }
}

#[test]
fn refuses_lengths() {
    levels::enter();
    for len in [0, 15, 17, 31, 33] {
        assert!(UnboundKey::new(&AES_128_GCM, &vec![1; len]).is_err());
        assert!(UnboundKey::new(&AES_256_GCM, &vec![1; len]).is_err());
        assert!(HeaderProtectionKey::new(&quic::AES_128, &vec![1; len]).is_err());
        assert!(Tag::try_from(&vec![1; len][..]).is_err());
        assert!(Nonce::try_assume_unique_for_key(&vec![1; len]).is_err());
    }
    assert!(UnboundKey::new(&AES_128_GCM, &[1; 32]).is_err());
    assert!(CounterSequence::new([0; 4], u64::MAX, 2).is_err());
}

#[test]
fn sequences_end() {
    levels::enter();
    let unbound = || UnboundKey::new(&AES_128_GCM, &[9; 16]).expect("a key of its length");
    let sequence = || CounterSequence::new([1, 2, 3, 4], 5, 2).expect("numbers that fit");
    let (mut sealing, mut opening) = (
        SealingKey::new(unbound(), sequence()),
        OpeningKey::new(unbound(), sequence()),
    );
    let aes = Aes::new(&[9; 16]);
    for number in [5, 6] {
        let mut buffer = b"a message".to_vec();
        sealing
            .seal_in_place_append_tag(Aad::empty(), &mut buffer)
            .expect("a nonce");
        let nonce = [1, 2, 3, 4, 0, 0, 0, 0, 0, 0, 0, number];
        let ciphertext = model::gcm_crypted(&aes, nonce, b"a message");
        assert_eq!(
            buffer,
            [
                &ciphertext[..],
                &model::gcm_tag(&aes, nonce, b"", &ciphertext)
            ]
            .concat()
        );
        assert_eq!(
            opening
                .open_in_place(Aad::empty(), &mut buffer)
                .expect("the defined tag"),
            b"a message"
        );
    }
    let mut buffer = b"a message".to_vec();
    assert!(
        sealing
            .seal_in_place_append_tag(Aad::empty(), &mut buffer)
            .is_err()
    );
    assert!(
        sealing
            .seal_in_place_separate_tag(Aad::empty(), &mut buffer)
            .is_err()
    );
    assert!(opening.open_in_place(Aad::empty(), &mut buffer).is_err());
    assert_eq!(buffer, b"a message");
}

#[test]
fn sequences_for_tls_and_quic() {
    levels::enter();
    let iv = [3; 12];
    let sequence = XoredSequence::new(iv, 1, 2).expect("numbers that fit");
    let mut key = SealingKey::new(
        UnboundKey::new(&AES_128_GCM, &[9; 16]).expect("a key of its length"),
        sequence,
    );
    let mut buffer = b"a message".to_vec();
    let tag = key
        .seal_in_place_separate_tag(Aad::empty(), &mut buffer)
        .expect("a nonce");
    let nonce = [3, 3, 3, 3, 3, 3, 3, 3, 3, 3, 3, 2];
    let aes = Aes::new(&[9; 16]);
    assert_eq!(buffer, model::gcm_crypted(&aes, nonce, b"a message"));
    assert_eq!(tag.as_ref(), model::gcm_tag(&aes, nonce, b"", &buffer));
}

#[test]
fn sessions() {
    levels::enter();
    let unbound = || UnboundKey::new(&AES_256_GCM, &[9; 32]).expect("a key of its length");
    let sequence = || CounterSequence::new([0; 4], 0, 1).expect("numbers that fit");
    let (mut sealing, mut opening) = (
        SealingKey::new(unbound(), sequence()),
        OpeningKey::new(unbound(), sequence()),
    );
    let mut jobs = vec![
        Job::new(Operation::Seal, b"aad".to_vec(), b"a message".to_vec()),
        Job::new(Operation::Seal, b"aad".to_vec(), b"another".to_vec()),
    ];
    session::run(&mut sealing, &mut opening, &mut jobs);
    assert_eq!(
        (jobs[0].outcome, jobs[1].outcome),
        (Outcome::Sealed, Outcome::Refused)
    );
    assert_eq!(jobs[1].buffer, b"another");
    let mut opened = vec![Job::new(
        Operation::Open(0),
        b"aad".to_vec(),
        jobs[0].buffer.clone(),
    )];
    session::run(&mut sealing, &mut opening, &mut opened);
    assert_eq!(opened[0].outcome, Outcome::Opened(9));
    assert_eq!(&opened[0].buffer[..9], b"a message");
}

#[test]
fn pieces() {
    levels::enter();
    let drawn = &mut Drawn::new(4);
    for len in LENGTHS {
        let case = case(drawn, len);
        let (ciphertext, tag) = case.sealed();
        let key: &ExpandedKey = case.key.expanded();
        let (front, back) = case.aad.split_at(case.aad.len() / 2);
        let mut state = key
            .begin_with_parts(case.nonce(), &[front, back])
            .expect("lengths that fit");
        let mut buffer = case.message.clone();
        let mut done = 0;
        while done < len {
            let count = (1 + drawn.below(300)).min(len - done);
            key.update(&mut state, &mut buffer[done..done + count])
                .expect("lengths that fit");
            done += count;
        }
        assert_eq!(
            (buffer, key.finish(state).as_ref()),
            (ciphertext, &tag[..]),
            "{len} bytes"
        );
    }
}

#[test]
fn xaes() {
    levels::enter();
    let drawn = &mut Drawn::new(5);
    for len in LENGTHS {
        let (key, nonce): ([u8; 32], [u8; 24]) = (drawn.array(), drawn.array());
        let (aad, message) = (drawn.bytes(len % 50), drawn.bytes(len));
        let (derived, inner) = model::xaes_derived(&key, nonce);
        let aes = Aes::new(&derived);
        let ciphertext = model::gcm_crypted(&aes, inner, &message);
        let tag = model::gcm_tag(&aes, inner, &aad, &ciphertext);

        let key = Xaes256Gcm::new(&key);
        let mut buffer = message.clone();
        let aad = Aad::from(aad.as_slice());
        key.seal_in_place_append_tag(XNonce::assume_unique_for_key(nonce), aad, &mut buffer)
            .expect("memory");
        assert_eq!(buffer, [&ciphertext[..], &tag].concat(), "{len} bytes");
        let count =
            key.open_in_place_to_front(XNonce::assume_unique_for_key(nonce), aad, &mut buffer);
        assert_eq!(&buffer[..count.expect("the defined tag")], message);
        let before = buffer.clone();
        assert!(
            key.open_in_place_to_front(XNonce::assume_unique_for_key([0; 24]), aad, &mut buffer)
                .is_err()
        );
        assert_eq!(buffer, before);
    }
}

#[test]
fn masks() {
    levels::enter();
    let drawn = &mut Drawn::new(6);
    for _ in 0..100 {
        let (short, long, sample): ([u8; 16], [u8; 32], [u8; 16]) =
            (drawn.array(), drawn.array(), drawn.array());
        let mask = |algorithm, key: &[u8]| {
            HeaderProtectionKey::new(algorithm, key)
                .expect("a key of its length")
                .new_mask(&sample)
        };
        assert_eq!(
            mask(&quic::AES_128, &short).expect("a sample of 16 bytes"),
            Aes::new(&short).mask(sample)
        );
        assert_eq!(
            mask(&quic::AES_256, &long).expect("a sample of 16 bytes"),
            Aes::new(&long).mask(sample)
        );
        let [n0, n1, n2, n3, nonce @ ..] = sample;
        let wanted = model::chacha20(&long, u32::from_le_bytes([n0, n1, n2, n3]), nonce, &[0; 5]);
        assert_eq!(
            mask(&quic::CHACHA20, &long).expect("a sample of 16 bytes")[..],
            wanted
        );
    }
    let key = HeaderProtectionKey::new(&quic::AES_128, &[1; 16]).expect("a key of its length");
    assert!(key.new_mask(&[0; 15]).is_err() && key.new_mask(&[0; 17]).is_err());
}

#[test]
fn the_model_is_that_of_the_standards() {
    let block = hex::bytes("00112233445566778899aabbccddeeff")
        .try_into()
        .expect("a block");
    let key = hex::bytes("000102030405060708090a0b0c0d0e0f101112131415161718191a1b1c1d1e1f");
    // FIPS 197 appendix C.1 and C.3.
    assert_eq!(
        hex::text(&Aes::new(&key[..16]).encrypt(block)),
        "69c4e0d86a7b0430d8cdb78070b4c55a"
    );
    assert_eq!(
        hex::text(&Aes::new(&key).encrypt(block)),
        "8ea2b7ca516745bfeafc49904b496089"
    );
    // Test case 2 of the GCM specification.
    let aes = Aes::new(&[0; 16]);
    let ciphertext = model::gcm_crypted(&aes, [0; 12], &[0; 16]);
    assert_eq!(hex::text(&ciphertext), "0388dace60b6a392f328c2b971b2fe78");
    assert_eq!(
        hex::text(&model::gcm_tag(&aes, [0; 12], b"", &ciphertext)),
        "ab6e47d42cec13bdf53a67b21257bddf"
    );
    // RFC 8439 appendix A.1, test vector 1.
    let stream = model::chacha20(&[0; 32], 0, [0; 12], &[0; 16]);
    assert_eq!(hex::text(&stream), "76b8e0ada0f13d90405d6ae55386bd28");
}

#[test]
fn at_each_level() {
    levels::run_lower("at_each_level");
}
