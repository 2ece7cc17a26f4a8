//! Keys and secrets of TLS 1.3, and both ends of a connection.

use key_derivation::Secret;
use records::connection::{Connection, ReceiveError, Received};
use records::{Reader, Writer};
use tls_messages::Stage;

/// A key of AES-256-GCM. Its first 16 bytes are one of AES-128-GCM.
pub const KEY: [u8; 32] = [
    0, 1, 2, 3, 4, 5, 6, 7, 8, 9, 10, 11, 12, 13, 14, 15, 16, 17, 18, 19, 20, 21, 22, 23, 24, 25,
    26, 27, 28, 29, 30, 31,
];

/// The write_iv of `KEY`.
pub const IV: [u8; 12] = [0, 1, 2, 3, 4, 5, 6, 7, 8, 9, 10, 11];

/// Returns the first application traffic secret of the client.
pub fn client_secret() -> Secret {
    Secret::aes_128_gcm([7; 32])
}

/// Returns the first application traffic secret of the server.
pub fn server_secret() -> Secret {
    Secret::aes_128_gcm([8; 32])
}

/// Returns the client's end of a connection, which sends by a writer with this limit.
pub fn client(buffer: &mut [u8], limit: u64) -> Connection<'_> {
    let reader = Reader::from_secret(server_secret());
    let writer = Writer::from_secret(client_secret()).with_limit(limit);
    Connection::new(reader, writer, buffer, Stage::Client)
}

/// Returns the server's end of a connection.
pub fn server(buffer: &mut [u8]) -> Connection<'_> {
    let reader = Reader::from_secret(client_secret());
    let writer = Writer::from_secret(server_secret());
    Connection::new(reader, writer, buffer, Stage::Server)
}

/// Returns what whole records bring.
///
/// # Panics
///
/// Panics if the connection leaves some of the bytes.
pub fn received(end: &mut Connection<'_>, records: &mut [u8]) -> Result<Received, ReceiveError> {
    let mut received = Received::new();
    let taken = end.receive(records, &mut received)?;
    assert_eq!(taken, records.len(), "a part of the records is left");
    Ok(received)
}
