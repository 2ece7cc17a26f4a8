//! Seals one message with the caller's nonce, and opens it. For ring, two lines are others: `use ring::..`.

use deerlapse_ring::aead::{Aad, LessSafeKey, Nonce, UnboundKey, AES_128_GCM};
use deerlapse_ring::error::Unspecified;

fn main() -> Result<(), Unspecified> {
    let key = LessSafeKey::new(UnboundKey::new(&AES_128_GCM, &[0; 16])?);
    let nonce = [0; 12]; // no other message is sealed with it under this key
    let mut buffer = b"hello".to_vec();

    let sealing = Nonce::assume_unique_for_key(nonce);
    key.seal_in_place_append_tag(sealing, Aad::from("v1"), &mut buffer)?;
    let opening = Nonce::assume_unique_for_key(nonce);
    let message = key.open_in_place(opening, Aad::from("v1"), &mut buffer)?;
    println!("opened: {}", String::from_utf8_lossy(message));
    Ok(())
}
