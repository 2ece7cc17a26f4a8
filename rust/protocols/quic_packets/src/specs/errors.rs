// Written by tools/rust from crates/quic_packets/specs/Errors.antt. Don't edit.
//! The transport errors that close a connection (RFC 9000 section 20.1).
//!
//! The definitions of `crates/quic_packets/specs/Errors.antt` of the repository.
//!
//! <div id="receive_error_code"></div>
//!
//! ```text
//! -- the code of an error of receiving: PROTOCOL_VIOLATION for reserved bits that are set (sections 17.2 and 17.3.1) and
//! -- for a packet without frames (section 12.4), KEY_UPDATE_ERROR for a key phase out of turn (RFC 9001 section 6.4), and
//! -- AEAD_LIMIT_REACHED after too many failures (RFC 9001 section 6.6)
//! abbrev pub receive_error_code : ReceiveError → Option ℕ
//! receive_error_code ReservedBits = Some 0x0a
//! receive_error_code NoFrames = Some 0x0a
//! receive_error_code KeyUpdate = Some 0x0e
//! receive_error_code TooManyFailures = Some 0x0f
//! receive_error_code _ = None
//! ```
//!
//! <div id="number_error_code"></div>
//!
//! ```text
//! -- the code of an error of numbers: PROTOCOL_VIOLATION for an acknowledgment of a packet that was not sent (section 13.1), and
//! -- KEY_UPDATE_ERROR for an acknowledgment under older keys (RFC 9001 section 6.2)
//! abbrev pub number_error_code : NumberError → Option ℕ
//! number_error_code NeverSent = Some 0x0a
//! number_error_code UpdateUnanswered = Some 0x0e
//! number_error_code _ = None
//! ```
