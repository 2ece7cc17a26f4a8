//! Seals a message and opens it, with the names of RustCrypto's `aes-gcm`.

use aes_gcm::aead::{Aead, OsRng, Payload};
use aes_gcm::{AeadCore, Aes256Gcm, Error, KeyInit};

fn main() -> Result<(), Error> {
    let cipher = Aes256Gcm::new(&Aes256Gcm::generate_key(&mut OsRng));
    let nonce = Aes256Gcm::generate_nonce(&mut OsRng);
    let (msg, aad) = (b"hello".as_slice(), b"v1".as_slice());
    let sealed = cipher.encrypt(&nonce, Payload { msg, aad })?;
    let opened = cipher.decrypt(&nonce, Payload { msg: &sealed, aad })?;
    println!("opened: {}", String::from_utf8_lossy(&opened));
    Ok(())
}
