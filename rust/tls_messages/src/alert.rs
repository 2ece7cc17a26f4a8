// Written by tools/rust from crates/tls_messages/src/alert.rt. Don't edit.
//! The error alerts of TLS 1.3, with their values (RFC 8446 section 6.2).

/// An error alert of RFC 8446 section 6.2, which an endpoint sends before it closes the connection. `as u8` gives its value. The
/// remaining two alerts of section 6, close_notify and user_canceled, are not errors (section 6.1).
#[derive(Clone, Copy, Debug, PartialEq, Eq)]
pub enum AlertDescription {
    /// `unexpected_message`
    UnexpectedMessage = 10,
    /// `bad_record_mac`
    BadRecordMac = 20,
    /// `record_overflow`
    RecordOverflow = 22,
    /// `handshake_failure`
    HandshakeFailure = 40,
    /// `bad_certificate`
    BadCertificate = 42,
    /// `unsupported_certificate`
    UnsupportedCertificate = 43,
    /// `certificate_revoked`
    CertificateRevoked = 44,
    /// `certificate_expired`
    CertificateExpired = 45,
    /// `certificate_unknown`
    CertificateUnknown = 46,
    /// `illegal_parameter`
    IllegalParameter = 47,
    /// `unknown_ca`
    UnknownCa = 48,
    /// `access_denied`
    AccessDenied = 49,
    /// `decode_error`
    DecodeError = 50,
    /// `decrypt_error`
    DecryptError = 51,
    /// `protocol_version`
    ProtocolVersion = 70,
    /// `insufficient_security`
    InsufficientSecurity = 71,
    /// `internal_error`
    InternalError = 80,
    /// `inappropriate_fallback`
    InappropriateFallback = 86,
    /// `missing_extension`
    MissingExtension = 109,
    /// `unsupported_extension`
    UnsupportedExtension = 110,
    /// `unrecognized_name`
    UnrecognizedName = 112,
    /// `bad_certificate_status_response`
    BadCertificateStatusResponse = 113,
    /// `unknown_psk_identity`
    UnknownPskIdentity = 115,
    /// `certificate_required`
    CertificateRequired = 116,
    /// `no_application_protocol`
    NoApplicationProtocol = 120,
}
