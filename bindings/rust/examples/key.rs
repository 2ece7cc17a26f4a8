//! Expands a key once, and seals and opens with the caller's nonces.

use deerlapse::{LessSafeKey, Nonce};
use std::error::Error;

fn main() -> Result<(), Box<dyn Error>> {
    let key = LessSafeKey::new(&[0; 32])?; // 32 bytes: AES-256-GCM; 16 bytes: AES-128-GCM
    let nonce = [0; 12]; // no other message is sealed with it under this key
    let mut buffer = b"hello".to_vec();

    key.seal_in_place_append_tag(Nonce::assume_unique_for_key(nonce), b"v1", &mut buffer)?;
    let message = key.open_in_place(Nonce::assume_unique_for_key(nonce), b"v1", &mut buffer)?;
    println!("opened: {}", String::from_utf8_lossy(message));
    Ok(())
}
