//! Seals a message under a key and a nonce of XAES-256-GCM that are drawn at random, and opens it again.

use std::io::Read;

use deerlapse::aead::Aad;
use deerlapse::xaes::{XNonce, Xaes256Gcm};

/// Returns random bytes of the system.
fn drawn<const N: usize>() -> std::io::Result<[u8; N]> {
    let mut bytes = [0; N];
    std::fs::File::open("/dev/urandom")?.read_exact(&mut bytes)?;
    Ok(bytes)
}

fn main() -> Result<(), Box<dyn std::error::Error>> {
    let header = Aad::from(&b"v1"[..]); // authenticated, and not encrypted
    let key = Xaes256Gcm::new(&drawn()?); // one key for many messages
    let nonce = drawn()?; // a new one for each message, with which it is sent

    let mut message = b"hello".to_vec();
    key.seal_in_place_append_tag(XNonce::assume_unique_for_key(nonce), header, &mut message)?;
    let len =
        key.open_in_place_to_front(XNonce::assume_unique_for_key(nonce), header, &mut message)?;

    println!("opened: {}", String::from_utf8_lossy(&message[..len]));
    Ok(())
}
