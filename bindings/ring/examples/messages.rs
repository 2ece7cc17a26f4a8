//! Seals two messages under the nonces of a counter, and opens them in order. For ring, one line is another: `use ring::..`.

use deerlapse_ring::{aead, error};

use aead::{Aad, BoundKey, Nonce, NonceSequence, OpeningKey, SealingKey, UnboundKey, AES_256_GCM};
use error::Unspecified;

/// The numbers of messages, as nonces of one key.
struct Counter(u64);

impl NonceSequence for Counter {
    fn advance(&mut self) -> Result<Nonce, Unspecified> {
        let number = self.0;
        self.0 = number.checked_add(1).ok_or(Unspecified)?;
        let mut nonce = [0; 12];
        nonce[4..].copy_from_slice(&number.to_be_bytes());
        Ok(Nonce::assume_unique_for_key(nonce))
    }
}

fn main() -> Result<(), Unspecified> {
    let key = [0; 32]; // a real key comes from a key exchange or a random generator
    let mut sealing = SealingKey::new(UnboundKey::new(&AES_256_GCM, &key)?, Counter(0));
    let mut opening = OpeningKey::new(UnboundKey::new(&AES_256_GCM, &key)?, Counter(0));
    for message in ["hello", "bye"] {
        let mut buffer = message.as_bytes().to_vec();
        sealing.seal_in_place_append_tag(Aad::from("v1"), &mut buffer)?;
        let opened = opening.open_in_place(Aad::from("v1"), &mut buffer)?;
        println!("opened: {}", String::from_utf8_lossy(opened));
    }
    Ok(())
}
