//! Seals a message and opens it, by the traits of the crate `aead`.

use deerlapse_aead::aead::{AeadInPlace, Error, KeyInit};
use deerlapse_aead::Aes128Gcm;

fn main() -> Result<(), Error> {
    let cipher = Aes128Gcm::new(&[0; 16].into());
    let nonce = [0; 12].into(); // no other message is sealed with it under this key
    let mut buffer = *b"hello";

    let tag = cipher.encrypt_in_place_detached(&nonce, b"v1", &mut buffer)?;
    cipher.decrypt_in_place_detached(&nonce, b"v1", &mut buffer, &tag)?;
    println!("opened: {}", String::from_utf8_lossy(&buffer));
    Ok(())
}
