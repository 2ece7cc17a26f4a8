//! Seals a message under a random key and a random nonce, and opens it.

use deerlapse_aead::aead::{Aead, AeadCore, KeyInit, OsRng, Payload};
use deerlapse_aead::Xaes256Gcm;

fn main() -> Result<(), &'static str> {
    let cipher = Xaes256Gcm::new(&Xaes256Gcm::generate_key(&mut OsRng)); // one key for many messages
    let nonce = Xaes256Gcm::generate_nonce(&mut OsRng); // a new one for each message, with which it is sent
    let (msg, aad) = (b"hello".as_slice(), b"v1".as_slice());

    let sealed = cipher
        .encrypt(&nonce, Payload { msg, aad })
        .map_err(|_| "the message is too long")?;
    let opened = cipher
        .decrypt(&nonce, Payload { msg: &sealed, aad })
        .map_err(|_| "the message was changed, or sealed under another key, nonce or AAD")?;
    println!("opened: {}", String::from_utf8_lossy(&opened));
    Ok(())
}
