//! Seals two messages under nonces that a sealer counts, and opens them in order.

use deerlapse::{Opener, Sealer, Unspecified};

fn main() -> Result<(), Unspecified> {
    let key = [0; 16]; // a real key comes from a key exchange or a random generator
    let iv = [0; 12];
    let mut first = b"hello".to_vec();
    let mut second = b"bye".to_vec();

    // Numbers 0, 1, 2, .. up to the limit of the protocol, as 2^24 records of TLS 1.3. The tag is appended.
    let mut sealer = Sealer::new(&key, &iv, 0..1 << 24)?;
    sealer.seal_in_place_append_tag(b"v1", &mut first)?;
    sealer.seal_in_place_append_tag(b"v1", &mut second)?;

    // The second message is not message 0: its tag is wrong, no byte changes, and no number is counted.
    let mut opener = Opener::new(&key, &iv, 0..1 << 24)?;
    assert_eq!(opener.open_in_place(b"v1", &mut second), Err(Unspecified));
    for message in [&mut first, &mut second] {
        let opened = opener.open_in_place(b"v1", message)?;
        println!("opened: {}", String::from_utf8_lossy(opened));
    }
    Ok(())
}
