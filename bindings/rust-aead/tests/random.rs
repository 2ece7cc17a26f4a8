//! Code that is generic over the traits of `aead` with its features `alloc` and `getrandom`: random keys and nonces, and messages
//! that are allocated.

use deerlapse_aead::aead::{Aead, Error, KeyInit, OsRng, Payload};
use deerlapse_aead::{Aes128Gcm, Aes256Gcm, Xaes256Gcm};

/// Encrypts and decrypts under a random key and a random nonce. What has another AAD or nonce, or is changed or cut, is refused.
fn there_and_back<A: KeyInit + Aead>() -> Result<(), Error> {
    let cipher = A::new(&A::generate_key(&mut OsRng));
    let nonce = A::generate_nonce(&mut OsRng);
    let (msg, aad) = (b"hello".as_slice(), b"v1".as_slice());
    let sealed = cipher.encrypt(&nonce, Payload { msg, aad })?;
    assert_eq!(sealed.len(), msg.len() + 16);
    let payload = || Payload { msg: &sealed, aad };
    assert_eq!(cipher.decrypt(&nonce, payload())?, msg);

    assert_eq!(cipher.decrypt(&nonce, &*sealed), Err(Error));
    let another = A::generate_nonce(&mut OsRng);
    assert_ne!(another, nonce);
    assert_eq!(cipher.decrypt(&another, payload()), Err(Error));
    let another = A::new(&A::generate_key(&mut OsRng));
    assert_eq!(another.decrypt(&nonce, payload()), Err(Error));
    for len in 0..sealed.len() {
        let msg = &sealed[..len];
        assert_eq!(cipher.decrypt(&nonce, Payload { msg, aad }), Err(Error));
        let mut changed = sealed.clone();
        changed[len] ^= 1;
        let msg = &changed;
        assert_eq!(cipher.decrypt(&nonce, Payload { msg, aad }), Err(Error));
    }
    Ok(())
}

#[test]
fn random_keys_and_nonces() -> Result<(), Error> {
    there_and_back::<Aes128Gcm>()?;
    there_and_back::<Aes256Gcm>()?;
    there_and_back::<Xaes256Gcm>()
}
