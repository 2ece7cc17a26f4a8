//! The same calls of both packages.

use ::ring::rand::{SecureRandom, SystemRandom};
use std::ops::RangeFrom;

/// The arguments of a round, of which each call takes some.
struct Arguments {
    is_256: bool,
    key: [u8; 32],
    nonce: [u8; 12],
    aad: Vec<u8>,
    message: Vec<u8>,
    start: usize,
    sample: [u8; 16],
}

/// What the calls of a round returned, and what they left.
#[derive(Debug, PartialEq)]
struct Results {
    sealed: Vec<u8>,
    tag: Vec<u8>,
    opened: [Vec<u8>; 3],
    refused: [bool; 4],
    masks: [[u8; 5]; 3],
}

/// Defines the calls of a round for a package.
macro_rules! calls_of {
    ($package:ident) => {
        mod $package {
            use super::{Arguments, RangeFrom, Results};
            use ::$package::aead::quic::{self, HeaderProtectionKey};
            use ::$package::aead::{self, Aad, LessSafeKey, Nonce, Tag, UnboundKey};
            use ::$package::error::Unspecified;

            struct Call<'a> {
                key: LessSafeKey,
                arguments: &'a Arguments,
            }

            impl Call<'_> {
                fn nonce(&self) -> Nonce {
                    Nonce::assume_unique_for_key(self.arguments.nonce)
                }

                fn aad(&self) -> Aad<&[u8]> {
                    Aad::from(self.arguments.aad.as_slice())
                }

                /// Opens a copy of a buffer, and returns a copy of the plaintext.
                fn open(
                    &self,
                    buffer: &[u8],
                    from: RangeFrom<usize>,
                ) -> Result<Vec<u8>, Unspecified> {
                    let mut buffer = buffer.to_vec();
                    let opened = self
                        .key
                        .open_within(self.nonce(), self.aad(), &mut buffer, from);
                    opened.map(|it| it.to_vec())
                }

                /// The same with the tag apart.
                fn open_apart(
                    &self,
                    buffer: &[u8],
                    tag: &[u8],
                    from: RangeFrom<usize>,
                ) -> Result<Vec<u8>, Unspecified> {
                    let mut buffer = buffer.to_vec();
                    let (nonce, tag) = (self.nonce(), Tag::try_from(tag)?);
                    let opened = self.key.open_in_place_separate_tag(
                        nonce,
                        self.aad(),
                        tag,
                        &mut buffer,
                        from,
                    );
                    opened.map(|it| it.to_vec())
                }
            }

            fn masks(arguments: &Arguments) -> Result<[[u8; 5]; 3], Unspecified> {
                let of = |algorithm: &'static quic::Algorithm| {
                    let key = &arguments.key[..algorithm.key_len()];
                    HeaderProtectionKey::new(algorithm, key)?.new_mask(&arguments.sample)
                };
                Ok([
                    of(&quic::AES_128)?,
                    of(&quic::AES_256)?,
                    of(&quic::CHACHA20)?,
                ])
            }

            pub(super) fn results(arguments: &Arguments) -> Result<Results, Unspecified> {
                let algorithm = match arguments.is_256 {
                    true => &aead::AES_256_GCM,
                    false => &aead::AES_128_GCM,
                };
                let key = UnboundKey::new(algorithm, &arguments.key[..algorithm.key_len()])?;
                let key = LessSafeKey::new(key);
                let call = Call { key, arguments };
                let (key, start) = (&call.key, arguments.start);
                let mut sealed = arguments.message.clone();
                key.seal_in_place_append_tag(call.nonce(), call.aad(), &mut sealed)?;
                let mut ciphertext = arguments.message.clone();
                let tag =
                    key.seal_in_place_separate_tag(call.nonce(), call.aad(), &mut ciphertext)?;
                let packet = [vec![7; start], sealed.clone()].concat();
                let apart = [vec![7; start], ciphertext].concat();
                let mut changed = packet.clone();
                changed[start + usize::from(arguments.key[0]) % sealed.len()] ^= 1;
                let opened = [
                    call.open(&sealed, 0..)?,
                    call.open(&packet, start..)?,
                    call.open_apart(&apart, tag.as_ref(), start..)?,
                ];
                let refused = [
                    call.open(&changed, start..).is_err(),
                    call.open(&packet, packet.len() - 15..).is_err(),
                    call.open(&packet, packet.len() + 1..).is_err(),
                    call.open_apart(&apart, &[0; 16], start..).is_err(),
                ];
                Ok(Results {
                    sealed,
                    tag: tag.as_ref().to_vec(),
                    opened,
                    refused,
                    masks: masks(arguments)?,
                })
            }
        }
    };
}

calls_of!(ring);
calls_of!(deerlapse_ring);

fn bytes<const N: usize>(random: &SystemRandom) -> [u8; N] {
    let mut bytes = [0; N];
    random.fill(&mut bytes).expect("random bytes");
    bytes
}

/// A random number below a bound.
fn below(random: &SystemRandom, bound: u32) -> usize {
    (u32::from_le_bytes(bytes(random)) % bound) as usize
}

fn some_bytes(random: &SystemRandom, len: usize) -> Vec<u8> {
    let mut bytes = vec![0; len];
    random.fill(&mut bytes).expect("random bytes");
    bytes
}

fn arguments(random: &SystemRandom) -> Arguments {
    let (aad, message) = (below(random, 64), below(random, 400));
    Arguments {
        is_256: below(random, 2) == 1,
        key: bytes(random),
        nonce: bytes(random),
        aad: some_bytes(random, aad),
        message: some_bytes(random, message),
        start: below(random, 40),
        sample: bytes(random),
    }
}

/// Compares the calls, and says how many they were.
pub(crate) fn run(rounds: u64) -> String {
    let random = SystemRandom::new();
    for _ in 0..rounds {
        let arguments = arguments(&random);
        let theirs = ring::results(&arguments).expect("ring's calls succeed");
        let ours = deerlapse_ring::results(&arguments).expect("deerlapse-ring's calls succeed");
        assert_eq!(ours, theirs);
        assert!(ours.opened.iter().all(|it| *it == arguments.message));
        assert_eq!(ours.refused, [true; 4]);
    }
    format!(
        "{} seals, {} openings, {} refusals and {} masks are ring's",
        2 * rounds,
        3 * rounds,
        4 * rounds,
        3 * rounds
    )
}
