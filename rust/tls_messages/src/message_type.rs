// Written by tools/rust from crates/tls_messages/src/message_type.rt. Don't edit.
//! The types of handshake messages (RFC 8446 section 4).

pub const CLIENT_HELLO: u8 = 1;

pub const SERVER_HELLO: u8 = 2;

pub const NEW_SESSION_TICKET: u8 = 4;

pub const END_OF_EARLY_DATA: u8 = 5;

pub const CERTIFICATE: u8 = 11;

pub const CERTIFICATE_REQUEST: u8 = 13;

pub const CERTIFICATE_VERIFY: u8 = 15;

pub const FINISHED: u8 = 20;

pub const KEY_UPDATE: u8 = 24;

/// Returns whether the keys may change after a message of this type, so that its record must end with it (RFC 8446 section 5.1).
// ensures { result ≡ changes_keys_lem message_type }
pub(crate) fn changes_keys(message_type: u8) -> bool {
    message_type == CLIENT_HELLO
        || message_type == SERVER_HELLO
        || message_type == END_OF_EARLY_DATA
        || message_type == FINISHED
        || message_type == KEY_UPDATE
}
