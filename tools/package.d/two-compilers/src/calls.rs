//! The random calls. Each function makes calls with the same arguments on both sides, fails if a result or a byte differs, and
//! returns whether the calls were accepted.

use std::fmt::Debug;

use deerlapse::aead::quic::{self, HeaderProtectionKey};
use deerlapse::aead::{
    nonce_of, Aad, Algorithm, BoundKey, LessSafeKey, Nonce, OpeningKey, SealingKey, UnboundKey,
    XoredSequence, AES_128_GCM, AES_256_GCM,
};
use deerlapse::chacha;
use deerlapse::xaes::Xaes256Gcm;
use vectors::drawn::Drawn;

use crate::assembly;
use crate::cipher::{Cipher, TAG_LEN};
use crate::drawn::{bytes, length, short_length, Message, Sealed};
use crate::plain::bytes_of;

/// Whether calls were accepted, or how the sides differ.
type Accepted = Result<bool, String>;

/// Makes a call on both sides, each with its own copy of a buffer, and returns what both returned and left in the buffer.
fn both<R: PartialEq + Debug>(
    call: &str,
    buffer: &[u8],
    ours: impl FnOnce(&mut [u8]) -> R,
    theirs: impl FnOnce(&mut [u8]) -> R,
) -> Result<(R, Vec<u8>), String> {
    let (mut our_bytes, mut their_bytes) = (buffer.to_vec(), buffer.to_vec());
    let (our_result, their_result) = (ours(&mut our_bytes), theirs(&mut their_bytes));
    if our_result != their_result {
        return Err(format!(
            "{call}: the Rust returns {our_result:?}, the assembly {their_result:?}"
        ));
    }
    let mut pairs = our_bytes.iter().zip(&their_bytes);
    match pairs.position(|(a, b)| a != b) {
        Some(at) => Err(format!("{call}: byte {at} of {} differs", buffer.len())),
        None => Ok((our_result, our_bytes)),
    }
}

/// The same keys on both sides.
pub struct Keys {
    algorithm: &'static Algorithm,
    bytes: Vec<u8>,
    gcm: (LessSafeKey, assembly::Key),
    xaes: (Xaes256Gcm, assembly::Xaes),
}

impl Keys {
    /// Draws a key of AES-GCM and one of XAES-256-GCM.
    pub fn drawn(drawn: &mut Drawn) -> Result<Self, String> {
        let algorithm = [&AES_128_GCM, &AES_256_GCM][drawn.below(2)];
        let bytes = drawn.bytes(algorithm.key_len());
        let ours = LessSafeKey::new(unbound(algorithm, &bytes)?);
        let theirs = assembly::Key::new(&bytes).ok_or("the assembly refuses a key")?;
        let xaes_bytes = drawn.array();
        Ok(Keys {
            algorithm,
            bytes,
            gcm: (ours, theirs),
            xaes: (
                Xaes256Gcm::new(&xaes_bytes),
                assembly::Xaes::new(&xaes_bytes),
            ),
        })
    }

    /// Makes calls of a kind that is drawn.
    pub fn call(&self, drawn: &mut Drawn) -> Accepted {
        match drawn.below(16) {
            0..=6 => under(drawn, &self.gcm.0, &self.gcm.1),
            7..=9 => under(drawn, &self.xaes.0, &self.xaes.1),
            10 | 11 => self.in_pieces(drawn),
            12 => self.in_sequence(drawn),
            13 => self.packet(drawn),
            14 => self.masks(drawn),
            _ => stream(drawn),
        }
    }

    /// Seals a message in pieces. The Rust takes the AAD in two parts.
    fn in_pieces(&self, drawn: &mut Drawn) -> Accepted {
        let message = Message::<12>::drawn(drawn);
        let (front, back) = message.aad.split_at(drawn.below(message.aad.len() + 1));
        let (ours, theirs) = (self.gcm.0.expanded(), &self.gcm.1);
        let nonce = Nonce::assume_unique_for_key(message.nonce);
        let mut our_state = ours
            .begin_with_parts(nonce, &[front, back])
            .map_err(|_| "the Rust begins no message")?;
        let mut their_state = theirs
            .begin(message.given())
            .ok_or("the assembly begins no message")?;
        let mut left = &message.text[..];
        while !left.is_empty() {
            let (piece, rest) = left.split_at(short_length(drawn).min(left.len()));
            both(
                "a piece",
                piece,
                |it| ours.update(&mut our_state, it).ok(),
                |it| theirs.update(&mut their_state, it),
            )?;
            left = rest;
        }
        let (tag, _) = both(
            "the tag of pieces",
            &[],
            |_| Some(bytes_of(&ours.finish(our_state))),
            |_| theirs.finish(their_state),
        )?;
        Ok(tag.is_some())
    }

    /// Seals and opens messages under the nonces of a sequence, until its numbers end.
    fn in_sequence(&self, drawn: &mut Drawn) -> Accepted {
        let iv = drawn.array();
        let first = match drawn.below(4) {
            0 => u64::MAX - drawn.below(4) as u64,
            _ => drawn.number(),
        };
        let limit = first.wrapping_add(drawn.below(4) as u64);
        let sequence = || XoredSequence::new(iv, first, limit).ok();
        let sealer = assembly::Sealer::new(&self.bytes, iv, first, limit);
        let opener = assembly::Opener::new(&self.bytes, iv, first, limit);
        match (sequence(), sequence(), sealer, opener) {
            (Some(to_seal), Some(to_open), Some(sealer), Some(opener)) => {
                let sealing = SealingKey::new(unbound(self.algorithm, &self.bytes)?, to_seal);
                let opening = OpeningKey::new(unbound(self.algorithm, &self.bytes)?, to_open);
                let count = limit - first;
                until_the_end(drawn, count, (sealing, sealer), (opening, opener))
            }
            (None, None, None, None) => Ok(false),
            _ => Err("one side alone refuses the numbers".into()),
        }
    }

    /// Seals a packet of QUIC and opens it.
    fn packet(&self, drawn: &mut Drawn) -> Accepted {
        let (iv, number) = (drawn.array(), drawn.number() >> 2);
        let key = assembly::QuicKey::new(&self.bytes, iv).ok_or("the assembly refuses a key")?;
        let Message {
            aad: header, text, ..
        } = Message::<12>::drawn(drawn);
        let header_len = header.len();
        let packet = [&header[..], &text, &[0; TAG_LEN]].concat();
        let (_, sealed) = both(
            "seal a packet",
            &packet,
            |it| {
                let nonce = nonce_of(&iv, number);
                let ours = &self.gcm.0;
                ours.seal_packet_in_place(nonce, it, header_len).ok()
            },
            |it| {
                let (header, body) = it.split_at_mut(header_len);
                let (payload, tag) = body.split_at_mut(text.len());
                tag.copy_from_slice(&key.seal(number, header, payload)?);
                Some(())
            },
        )?;
        let (opened, _) = both(
            "open a packet",
            &sealed,
            |it| {
                let nonce = nonce_of(&iv, number);
                let ours = &self.gcm.0;
                ours.open_packet_in_place_after_header(nonce, it, header_len)
                    .ok()
            },
            |it| {
                let (header, body) = it.split_at_mut(header_len);
                key.open(number, header, body)
            },
        )?;
        Ok(opened.is_some())
    }

    /// Computes the masks of a sample.
    fn masks(&self, drawn: &mut Drawn) -> Accepted {
        let (key, sample): ([u8; 32], [u8; 16]) = (drawn.array(), drawn.array());
        let mask = |algorithm, key: &[u8]| {
            let key = HeaderProtectionKey::new(algorithm, key).ok()?;
            key.new_mask(&sample).ok()
        };
        let by_aes = |algorithm, key: &[u8]| {
            both(
                "a mask by AES",
                &[],
                |_| (mask(algorithm, key), mask(algorithm, key)),
                |_| {
                    (
                        assembly::mask_aes(key, &sample),
                        assembly::mask_aes_once(key, &sample),
                    )
                },
            )
        };
        by_aes(&quic::AES_128, &key[..16])?;
        by_aes(&quic::AES_256, &key)?;
        let (mask, _) = both(
            "a mask by ChaCha20",
            &[],
            |_| mask(&quic::CHACHA20, &key),
            |_| Some(assembly::mask_chacha20(&key, &sample)),
        )?;
        Ok(mask.is_some())
    }
}

/// Seals and opens so many messages, and one more, which is refused.
fn until_the_end(
    drawn: &mut Drawn,
    count: u64,
    (mut sealing, mut sealer): (SealingKey<XoredSequence>, assembly::Sealer),
    (mut opening, mut opener): (OpeningKey<XoredSequence>, assembly::Opener),
) -> Accepted {
    for number in 0..=count {
        let message = Message::<12>::drawn(drawn);
        let aad = Aad::from(&message.aad[..]);
        let (tag, mut sealed) = both(
            "seal in a sequence",
            &message.text,
            |it| {
                let tag = sealing.seal_in_place_separate_tag(aad, it);
                tag.ok().as_ref().map(bytes_of)
            },
            |it| sealer.seal(&message.aad, it),
        )?;
        sealed.extend(tag.unwrap_or_default());
        let (opened, _) = both(
            "open in a sequence",
            &sealed,
            |it| opening.open_within_to_front(aad, it, 0..).ok(),
            |it| opener.open(&message.aad, it, 0),
        )?;
        if opened.is_some() == (number == count) {
            return Err("a sequence ends early or late".into());
        }
    }
    Ok(true)
}

fn unbound(algorithm: &'static Algorithm, bytes: &[u8]) -> Result<UnboundKey, String> {
    UnboundKey::new(algorithm, bytes).map_err(|_| "the Rust refuses a key".into())
}

/// Seals or opens a message under a key.
fn under<const N: usize>(
    drawn: &mut Drawn,
    ours: &impl Cipher<N>,
    theirs: &impl Cipher<N>,
) -> Accepted {
    match drawn.below(8) {
        0 | 1 => seal(&Message::drawn(drawn), ours, theirs),
        2 => seal_append_tag(&Message::drawn(drawn), ours, theirs),
        3 | 4 => open(&Sealed::drawn(drawn, ours)?, drawn, ours, theirs),
        5 => open(&Sealed::drawn(drawn, theirs)?, drawn, ours, theirs),
        6 => open_separate_tag(&Sealed::drawn(drawn, theirs)?, drawn, ours, theirs),
        _ => open_to(&Sealed::drawn(drawn, ours)?, ours, theirs),
    }
}

fn seal<const N: usize>(
    message: &Message<N>,
    ours: &impl Cipher<N>,
    theirs: &impl Cipher<N>,
) -> Accepted {
    let given = message.given();
    let (tag, _) = both(
        "seal",
        &message.text,
        |it| ours.seal(given, it),
        |it| theirs.seal(given, it),
    )?;
    Ok(tag.is_some())
}

fn seal_append_tag<const N: usize>(
    message: &Message<N>,
    ours: &impl Cipher<N>,
    theirs: &impl Cipher<N>,
) -> Accepted {
    let given = message.given();
    let room = vec![0; message.text.len() + TAG_LEN];
    let (sealed, _) = both(
        "seal with an appended tag",
        &room,
        |it| {
            ours.seal_append_tag(given, &message.text)
                .map(|sealed| it.copy_from_slice(&sealed))
        },
        |it| {
            theirs
                .seal_append_tag(given, &message.text)
                .map(|sealed| it.copy_from_slice(&sealed))
        },
    )?;
    Ok(sealed.is_some())
}

/// Opens from a start, which is sometimes another one than that of the ciphertext.
fn open<const N: usize>(
    sealed: &Sealed<N>,
    drawn: &mut Drawn,
    ours: &impl Cipher<N>,
    theirs: &impl Cipher<N>,
) -> Accepted {
    let front = bytes(drawn, short_length);
    let buffer = [&front[..], &sealed.with.text].concat();
    let start = match drawn.below(16) {
        0 => drawn.below(buffer.len() + 3),
        _ => front.len(),
    };
    let given = sealed.with.given();
    let (opened, left) = both(
        "open",
        &buffer,
        |it| ours.open(given, it, start),
        |it| theirs.open(given, it, start),
    )?;
    if start == front.len() {
        sealed.judged(opened, &left)
    } else if opened.is_none() {
        Ok(false)
    } else {
        Err("open: a part of a message is opened".into())
    }
}

fn open_separate_tag<const N: usize>(
    sealed: &Sealed<N>,
    drawn: &mut Drawn,
    ours: &impl Cipher<N>,
    theirs: &impl Cipher<N>,
) -> Accepted {
    let front = bytes(drawn, short_length);
    let buffer = [&front[..], sealed.ciphertext()].concat();
    let (given, tag) = (sealed.with.given(), sealed.tag());
    let (opened, left) = both(
        "open with a separate tag",
        &buffer,
        |it| ours.open_separate_tag(given, tag, it, front.len()),
        |it| theirs.open_separate_tag(given, tag, it, front.len()),
    )?;
    sealed.judged(opened, &left)
}

fn open_to<const N: usize>(
    sealed: &Sealed<N>,
    ours: &impl Cipher<N>,
    theirs: &impl Cipher<N>,
) -> Accepted {
    let (given, tag, ciphertext) = (sealed.with.given(), sealed.tag(), sealed.ciphertext());
    let room = vec![0xc3; ciphertext.len()];
    let (opened, left) = both(
        "open to another buffer",
        &room,
        |it| ours.open_to(given, tag, ciphertext, it),
        |it| theirs.open_to(given, tag, ciphertext, it),
    )?;
    sealed.judged(opened, &left)
}

/// XORs with the ChaCha20 stream. The Rust reads from a start on, and writes to the front.
fn stream(drawn: &mut Drawn) -> Accepted {
    let (key, nonce) = (drawn.array(), drawn.array());
    let text = bytes(drawn, length);
    let start = short_length(drawn).min(text.len());
    let last = (1 << 32) - text.len().div_ceil(64).max(1);
    let counter = [last, drawn.below(last)][drawn.below(2)] as u32;
    let (done, _) = both(
        "ChaCha20",
        &text,
        |it| {
            let nonce = Nonce::assume_unique_for_key(nonce);
            let counter = chacha::Counter::from_nonce_and_ctr(nonce, counter);
            let it = chacha::Overlapping::new(it, start..).ok()?;
            chacha::Key::new(key).encrypt(counter, it);
            Some(())
        },
        |it| {
            let mut out = it[start..].to_vec();
            assembly::chacha20(&key, nonce, counter, &mut out)?;
            it[..out.len()].copy_from_slice(&out);
            Some(())
        },
    )?;
    Ok(done.is_some())
}
