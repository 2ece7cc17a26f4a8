// Written by tools/rust from crates/tls_messages/src/stage.rt. Don't edit.
//! The handshake messages that an endpoint may receive and send at each stage of a connection (RFC 8446 section 4.6).

use crate::MESSAGE_HEADER_LEN;
use crate::message_reader::message_len;
use crate::message_type::{
    CERTIFICATE, CERTIFICATE_REQUEST, CERTIFICATE_VERIFY, END_OF_EARLY_DATA, FINISHED, KEY_UPDATE,
    NEW_SESSION_TICKET,
};

/// A stage of a connection at one endpoint, which decides which messages the endpoint may receive. The stages whose names begin
/// with `Quic` are for the CRYPTO frames of QUIC.
///
/// # Examples
///
/// ```
/// use deerlapse::tls_messages::Stage;
/// use deerlapse::tls_messages::message_type::{KEY_UPDATE, NEW_SESSION_TICKET};
///
/// assert!(Stage::Client.allows(NEW_SESSION_TICKET));
/// assert!(!Stage::Server.allows(NEW_SESSION_TICKET));
/// assert!(!Stage::QuicClient.allows(KEY_UPDATE)); // RFC 9001 section 6
/// ```
#[derive(Clone, Copy, Debug, PartialEq, Eq)]
pub enum Stage {
    /// The handshake: every message but a KeyUpdate, which must not precede the Finished (RFC 8446 section 4.6.3). The caller
    /// checks the order of the handshake's messages.
    Handshake,
    /// After the handshake, at a client: NewSessionTicket and KeyUpdate (section 4.6).
    Client,
    /// After the handshake, at a client that offered post-handshake authentication: CertificateRequest too (section 4.6.2).
    AuthenticatingClient,
    /// After the handshake, at a server: KeyUpdate.
    Server,
    /// After the handshake, at a server that asks for post-handshake authentication: Certificate, CertificateVerify and
    /// Finished too (section 4.6.2).
    AuthenticatingServer,
    /// The handshake in QUIC: every message but a KeyUpdate (RFC 9001 section 6) and an EndOfEarlyData (section 8.3).
    QuicHandshake,
    /// After the handshake, at a client in QUIC: NewSessionTicket. There is no KeyUpdate (RFC 9001 section 6), and no
    /// post-handshake authentication (section 4.4).
    QuicClient,
    /// After the handshake, at a server in QUIC: no message.
    QuicServer,
}

impl Stage {
    /// Returns whether the endpoint may receive a message of this type.
    ///
    /// <details><summary>Contract</summary>
    ///
    /// ```text
    /// ensures { result ≡ may_come self message_type }
    /// ```
    ///
    /// Definitions: [`may_come`](crate::specs::messages#may_come).
    ///
    /// </details>
    pub fn allows(self, message_type: u8) -> bool {
        match self {
            Stage::Handshake => message_type != KEY_UPDATE,
            Stage::Client => message_type == NEW_SESSION_TICKET || message_type == KEY_UPDATE,
            Stage::AuthenticatingClient => {
                message_type == NEW_SESSION_TICKET
                    || message_type == KEY_UPDATE
                    || message_type == CERTIFICATE_REQUEST
            }
            Stage::Server => message_type == KEY_UPDATE,
            Stage::AuthenticatingServer => {
                message_type == KEY_UPDATE
                    || message_type == CERTIFICATE
                    || message_type == CERTIFICATE_VERIFY
                    || message_type == FINISHED
            }
            Stage::QuicHandshake => message_type != KEY_UPDATE && message_type != END_OF_EARLY_DATA,
            Stage::QuicClient => message_type == NEW_SESSION_TICKET,
            Stage::QuicServer => false,
        }
    }

    /// Returns whether the endpoint may send a message of this type in a record after the handshake.
    ///
    /// A server may send NewSessionTicket (RFC 8446 section 4.6.1) and, if it asks for post-handshake authentication,
    /// CertificateRequest. A client that offered post-handshake authentication may send Certificate, CertificateVerify and
    /// Finished (section 4.6.2). At the other stages no message may be sent. A KeyUpdate may never be sent in this way, since the
    /// keys change after it (section 4.6.3).
    ///
    /// <details><summary>Contract</summary>
    ///
    /// ```text
    /// ensures { result ≡ may_send self message_type }
    /// ```
    ///
    /// Definitions: [`may_send`](crate::specs::messages#may_send).
    ///
    /// </details>
    pub fn may_send(self, message_type: u8) -> bool {
        match self {
            Stage::Server => message_type == NEW_SESSION_TICKET,
            Stage::AuthenticatingServer => {
                message_type == NEW_SESSION_TICKET || message_type == CERTIFICATE_REQUEST
            }
            Stage::AuthenticatingClient => {
                message_type == CERTIFICATE
                    || message_type == CERTIFICATE_VERIFY
                    || message_type == FINISHED
            }
            Stage::Handshake
            | Stage::Client
            | Stage::QuicHandshake
            | Stage::QuicClient
            | Stage::QuicServer => false,
        }
    }

    /// Returns whether the endpoint may send these messages in a row in records after the handshake, or `None` if they are not
    /// whole messages. It may if it may send each of them, and if no message follows a Finished, which ends its record (RFC 8446
    /// section 5.1).
    ///
    /// <details><summary>Contract</summary>
    ///
    /// ```text
    /// ensures whole { IsSome result ↔ (part_of messages.now ≡ []) }
    /// ensures all { IfSome result (λ may_send. may_send ≡ may_send_all self (messages_of messages.now)) }
    /// ```
    ///
    /// Definitions: [`part_of`](crate::specs::messages#part_of), [`may_send_all`](crate::specs::messages#may_send_all),
    /// [`messages_of`](crate::specs::messages#messages_of).
    ///
    /// </details>
    pub fn may_send_all(self, messages: &[u8]) -> Option<bool> {
        let mut rest = messages;
        let mut may_send = true;
        while !rest.is_empty() {
            let (message, later) = rest.split_at(whole_len(rest)?);
            may_send &= self.may_send_next(message[0], later.is_empty());
            rest = later;
        }
        Some(may_send)
    }

    /// Returns whether the endpoint may send a message of this type in a row of messages, of which it is the last if `is_last`.
    // ensures { result ≡ (may_send self message_type && (is_last || not (message_type == 20))) }
    fn may_send_next(self, message_type: u8, is_last: bool) -> bool {
        self.may_send(message_type) && (is_last || message_type != FINISHED)
    }
}

/// Returns the length of the whole message that these bytes begin with, or `None` if they don't begin with one.
// ensures some { IfSome result (λ n. (n ≡ message_len_of bytes.now) × (4 ≤ n) × (n ≤ length bytes.now)) }
// ensures none { IfNone result (IsPart bytes.now) }
fn whole_len(bytes: &[u8]) -> Option<usize> {
    if bytes.len() < MESSAGE_HEADER_LEN {
        return None;
    }
    let len = message_len(bytes);
    if len <= bytes.len() { Some(len) } else { None }
}
