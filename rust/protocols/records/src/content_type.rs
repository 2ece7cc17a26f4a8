// Written by tools/rust from crates/records/src/content_type.rt. Don't edit.
//! The content types of protected records, and their values (RFC 8446 section 5.1).

/// The content type of a protected record (RFC 8446 section 5.1).
///
/// A protected record has one of these three types. A protected ChangeCipherSpec ends the connection (section 5).
#[derive(Clone, Copy, Debug, PartialEq, Eq)]
pub enum ContentType {
    /// An alert, of 2 bytes.
    Alert = 21,
    /// Handshake messages, or part of one.
    Handshake = 22,
    /// Application data.
    ApplicationData = 23,
}

impl ContentType {
    /// Returns the value of this content type.
    ///
    /// <details><summary>Contract</summary>
    ///
    /// ```text
    /// ensures { result ≡ type_code self }
    /// ```
    ///
    /// Definitions: [`type_code`](crate::specs::record#type_code).
    ///
    /// </details>
    pub fn code(self) -> u8 {
        match self {
            ContentType::Alert => 21,
            ContentType::Handshake => 22,
            ContentType::ApplicationData => 23,
        }
    }

    /// Returns the content type with this value, or `None` if there is none.
    // ensures known { IfSome result (λ content_type. type_code content_type ≡ code) }
    // ensures unknown { IfNone result (IsUnknown code) }
    pub(crate) fn from_code(code: u8) -> Option<Self> {
        match code {
            21 => Some(ContentType::Alert),
            22 => Some(ContentType::Handshake),
            23 => Some(ContentType::ApplicationData),
            _ => None,
        }
    }

    /// Returns whether a record of this type may have no content. Only application data may (RFC 8446 sections 5.1 and 5.4).
    // ensures { IsTrue result ↔ (self ≡ ContentType.ApplicationData) }
    pub(crate) fn may_be_empty(self) -> bool {
        match self {
            ContentType::ApplicationData => true,
            ContentType::Alert | ContentType::Handshake => false,
        }
    }
}
