//! Writes two runs of records, which `tools/read-records rust` reads: each line is a key, an IV and the records.

use std::error::Error;

use deerlapse::aead::{AES_128_GCM, AES_256_GCM, Algorithm};
use records::ContentType::{Alert, ApplicationData, Handshake};
use records::{ContentType, RecordError, Writer};
use vectors::hex;

/// Returns the line of a run. A content has its type and its padding beside it.
fn line(
    algorithm: &'static Algorithm,
    key: &[u8],
    iv: [u8; 12],
    contents: &[(ContentType, &[u8], usize)],
) -> Result<String, RecordError> {
    let mut writer = Writer::new(algorithm, key, iv)?;
    let mut records = Vec::new();
    for (content_type, content, padding) in contents {
        writer.write(*content_type, content, *padding, &mut records)?;
    }
    let [key, iv, records] = [key, &iv, &records].map(hex::text);
    Ok(format!("{key} {iv} {records}"))
}

fn main() -> Result<(), Box<dyn Error>> {
    let key: Vec<u8> = (0..32).collect();
    let iv = [0, 1, 2, 3, 4, 5, 6, 7, 8, 9, 10, 11];
    let contents: [(_, &[u8], _); 3] = [
        (Handshake, b"hello", 0),
        (ApplicationData, b"", 0),
        (ApplicationData, b"with zeros\0\0", 7),
    ];
    println!("{}", line(&AES_128_GCM, &key[..16], iv, &contents)?);
    let contents: [(_, &[u8], _); 3] = [
        (Alert, &[2, 50], 1),
        (Handshake, &[b'x'; 33], 14),
        (ApplicationData, b"", 3),
    ];
    println!("{}", line(&AES_256_GCM, &key, [255; 12], &contents)?);
    Ok(())
}
