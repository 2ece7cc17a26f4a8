//! A program in ring's style: keys that are bound to a sequence of nonces of the program's own.

use deerlapse::aead::{
    AES_256_GCM, Aad, BoundKey, NONCE_LEN, Nonce, NonceSequence, OpeningKey, SealingKey,
    UnboundKey, Unspecified,
};

/// The nonces 0, 1 and so on.
struct Counter(u64);

impl NonceSequence for Counter {
    fn advance(&mut self) -> Result<Nonce, Unspecified> {
        let mut nonce = [0; NONCE_LEN];
        nonce[4..].copy_from_slice(&self.0.to_be_bytes());
        self.0 = self.0.checked_add(1).ok_or(Unspecified)?;
        Ok(Nonce::assume_unique_for_key(nonce))
    }
}

fn key<K: BoundKey<Counter>>(bytes: &[u8; 32]) -> Result<K, Unspecified> {
    Ok(K::new(UnboundKey::new(&AES_256_GCM, bytes)?, Counter(0)))
}

fn main() -> Result<(), Box<dyn std::error::Error>> {
    let bytes = [7; 32]; // not a real key, which is drawn at random and known to both ends
    let (mut sealing, mut opening): (SealingKey<Counter>, OpeningKey<Counter>) =
        (key(&bytes)?, key(&bytes)?);
    for text in ["one message", "and another"] {
        let mut packet = text.as_bytes().to_vec();
        sealing.seal_in_place_append_tag(Aad::empty(), &mut packet)?;
        println!(
            "{}",
            String::from_utf8_lossy(opening.open_in_place(Aad::empty(), &mut packet)?)
        );
    }
    println!("{sealing:?}");
    Ok(())
}
