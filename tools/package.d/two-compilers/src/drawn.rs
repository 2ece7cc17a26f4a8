//! What is drawn for a call.

use vectors::drawn::Drawn;

use crate::cipher::{Cipher, Given, TAG_LEN};

/// Draws the length of a message: up to 300, about the borders of blocks and batches, or, seldom, a long one.
pub fn length(drawn: &mut Drawn) -> usize {
    match drawn.below(64) {
        0 => drawn.below(20_001),
        1..=40 => drawn.below(301),
        _ => {
            let unit = [16, 64, 128, 240, 256][drawn.below(5)];
            unit * (1 + drawn.below(8)) + drawn.below(5) - 2
        }
    }
}

/// Draws a number of bytes that isn't the length of the message: of AAD, or before what is opened.
pub fn short_length(drawn: &mut Drawn) -> usize {
    match drawn.below(8) {
        0 => length(drawn),
        1 | 2 => 0,
        _ => drawn.below(65),
    }
}

/// Draws bytes of a length that `len` draws.
pub fn bytes(drawn: &mut Drawn, len: fn(&mut Drawn) -> usize) -> Vec<u8> {
    let len = len(drawn);
    drawn.bytes(len)
}

/// A message, and what it is sealed with.
pub struct Message<const N: usize> {
    pub nonce: [u8; N],
    pub aad: Vec<u8>,
    pub text: Vec<u8>,
}

impl<const N: usize> Message<N> {
    pub fn drawn(drawn: &mut Drawn) -> Self {
        Message {
            nonce: drawn.array(),
            aad: bytes(drawn, short_length),
            text: bytes(drawn, length),
        }
    }

    pub fn given(&self) -> Given<'_, N> {
        Given {
            nonce: self.nonce,
            aad: &self.aad,
        }
    }
}

/// A sealed message: what it is opened with, and as `text` the ciphertext with the tag after it.
pub struct Sealed<const N: usize> {
    pub with: Message<N>,
    plaintext: Vec<u8>,
    /// Whether none of it was changed.
    is_right: bool,
}

impl<const N: usize> Sealed<N> {
    /// Draws a message, which `cipher` seals. Of three, two stay as they are.
    pub fn drawn(drawn: &mut Drawn, cipher: &impl Cipher<N>) -> Result<Self, String> {
        let mut with = Message::<N>::drawn(drawn);
        let sealed = cipher
            .seal_append_tag(with.given(), &with.text)
            .ok_or("a short message is refused")?;
        let plaintext = std::mem::replace(&mut with.text, sealed);
        let len = plaintext.len();
        let flip = 1 << drawn.below(8);
        let mut is_right = false;
        match drawn.below(12) {
            0 => with.nonce[drawn.below(N)] ^= flip,
            1 => with.aad.push(flip),
            2 => with.text[drawn.below(len + TAG_LEN)] ^= flip,
            3 => with.text[len + drawn.below(TAG_LEN)] ^= flip,
            _ => is_right = true,
        }
        Ok(Sealed {
            with,
            plaintext,
            is_right,
        })
    }

    pub fn ciphertext(&self) -> &[u8] {
        &self.with.text[..self.plaintext.len()]
    }

    pub fn tag(&self) -> [u8; TAG_LEN] {
        self.with.text[self.plaintext.len()..]
            .try_into()
            .expect("16 bytes after the ciphertext")
    }

    /// Returns whether the message was opened, or an error if that is wrong.
    pub fn judged(&self, opened: Option<usize>, buffer: &[u8]) -> Result<bool, String> {
        let plaintext = opened.map(|count| &buffer[..count]);
        if plaintext == self.is_right.then_some(&self.plaintext[..]) {
            Ok(self.is_right)
        } else if self.is_right {
            Err("what was sealed isn't opened".into())
        } else {
            Err("what was changed is opened".into())
        }
    }
}
