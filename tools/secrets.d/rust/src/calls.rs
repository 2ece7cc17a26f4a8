//! The calls of the packages: those of AES-GCM, of XAES-256-GCM and of ChaCha20, and the masks.

mod gcm;
mod stream;
mod xaes;

use deerlapse::aead::Nonce;

use crate::marks::{assert_are_those, secret, told};

/// The length of a tag, in bytes.
const TAG_LEN: usize = 16;

/// Lengths about the borders of blocks and of batches.
const LENGTHS: [usize; 15] = [
    0, 1, 15, 16, 17, 63, 64, 65, 128, 255, 256, 257, 300, 1200, 4097,
];

/// The lengths that a call has, and where in its buffer a message begins that is opened.
#[derive(Clone, Copy)]
struct Lengths {
    message: usize,
    aad: usize,
    start: usize,
}

/// Returns each length as that of a message, and as that of an AAD with a message that doesn't begin where its buffer does.
fn all_lengths() -> impl Iterator<Item = Lengths> {
    LENGTHS.into_iter().enumerate().flat_map(|(i, len)| {
        let of_message = Lengths {
            message: len,
            aad: i,
            start: 0,
        };
        let of_aad = Lengths {
            message: 40,
            aad: len,
            start: 1 + i,
        };
        [of_message, of_aad]
    })
}

/// Returns the nonce of each message of AES-GCM.
fn nonce() -> Nonce {
    Nonce::assume_unique_for_key(secret())
}

/// How many openings came as far as comparing the tag.
#[derive(Default)]
struct Openings(usize);

impl Openings {
    /// Opens a message that ends with its tag: with a false tag, which is refused and changes nothing, and with the right one.
    ///
    /// `open` returns the length of the plaintext, which it leaves at the front.
    fn open(&mut self, sealed: &[u8], open: impl Fn(&mut Vec<u8>) -> Option<usize>) {
        let mut forged = sealed.to_vec();
        forged[sealed.len() - 1 - sealed.len() % TAG_LEN] ^= 0x10;
        let before = told(&forged);
        assert!(open(&mut forged).is_none());
        assert_eq!(told(&forged), before);

        let mut right = sealed.to_vec();
        let count = open(&mut right).expect("the right tag");
        assert_are_those(&right[..count]);
        self.0 += 2;
    }
}

/// Makes all calls, and returns the number of openings that compared a tag.
pub fn make() -> usize {
    let mut openings = Openings::default();
    gcm::make(&mut openings);
    xaes::make(&mut openings);
    stream::make();
    openings.0
}
