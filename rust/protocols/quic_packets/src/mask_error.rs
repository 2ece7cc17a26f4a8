// Written by tools/rust from crates/quic_packets/src/mask_error.rt. Don't edit.
//! The error of masking and unmasking headers.

/// The error of masking or unmasking a header, which is then unchanged.
#[derive(Clone, Copy, PartialEq, Eq, Debug)]
pub enum MaskError {
    /// The packet number is said to begin at byte 0, which is the first byte of every header.
    NumberAtFirstByte,
    /// The packet ends before the 16-byte sample, which begins 4 bytes after the start of the packet number, or a sample does not
    /// have 16 bytes (RFC 9001 section 5.4.2).
    NoSample,
    /// The packet number has more than 4 bytes (RFC 9000 section 17.1).
    NumberLength,
}

impl core::fmt::Display for MaskError {
    fn fmt(&self, f: &mut core::fmt::Formatter<'_>) -> core::fmt::Result {
        match self {
            MaskError::NumberAtFirstByte => {
                f.write_str("the packet number cannot begin at the header's first byte")
            }
            MaskError::NoSample => {
                f.write_str("the packet is too short for a sample of header protection")
            }
            MaskError::NumberLength => f.write_str("the packet number has more than 4 bytes"),
        }
    }
}

impl core::error::Error for MaskError {}
