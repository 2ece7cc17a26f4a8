// Written by tools/rust from crates/quic_packets/src/datagram.rt. Don't edit.
//! The packets of a datagram: finding the position of each part of a packet, before any protection is removed (RFC 9000
//! sections 12.2 and 17).

use crate::first_byte::is_long;
use crate::fixed_bit::FixedBit;
use crate::key::TAG_LEN;
use crate::versions::{bits_of, type_of};
use core::ops::Range;
use key_derivation::quic::Version;

/// The longest connection ID of versions 1 and 2, in bytes (RFC 9000 section 17.2).
pub(crate) const MAX_ID_LEN: usize = 20;

/// The type of a packet. It follows from the form of the header, the version and the type bits, to which each version gives
/// meanings of its own (RFC 9000 sections 17.2 and 17.3, RFC 9369 section 3.2).
#[derive(Clone, Copy, PartialEq, Eq, Debug)]
pub enum PacketType {
    /// An Initial packet of version 1 or 2.
    Initial,
    /// A 0-RTT packet of version 1 or 2.
    ZeroRtt,
    /// A Handshake packet of version 1 or 2.
    Handshake,
    /// A Retry packet of version 1 or 2. It has no packet number.
    Retry,
    /// A long header of version 0. The server's supported versions follow the source connection ID.
    VersionNegotiation,
    /// A short header.
    OneRtt,
    /// A long header of any other version. Only its connection IDs are parsed.
    OtherVersion,
}

/// The positions of a packet's parts in its datagram.
#[derive(Clone, PartialEq, Eq, Debug)]
pub struct Packet {
    /// The position of its first byte.
    pub start: usize,
    /// The type of the packet.
    pub packet_type: PacketType,
    /// The version in a long header, or `None` for a short header.
    pub version: Option<u32>,
    /// The destination connection ID.
    pub destination_id: Range<usize>,
    /// The source connection ID. It is empty for a short header.
    pub source_id: Range<usize>,
    /// The token of an Initial or a Retry packet. It is empty for other types.
    pub token: Range<usize>,
    /// The position of the packet number, or `None` for a packet without one.
    pub number_at: Option<usize>,
    /// The position after the packet, where the next one begins.
    pub end: usize,
}

/// The error of parsing a packet.
#[derive(Clone, Copy, PartialEq, Eq, Debug)]
pub enum DatagramError {
    /// The datagram ends before the packet does.
    Cut,
    /// A connection ID of version 1 or 2 has more than 20 bytes (RFC 9000 section 17.2).
    IdTooLong,
    /// The fixed bit is 0 and must be 1 (RFC 9000 sections 17.2 and 17.3.1).
    NoFixedBit {
        /// The position after the packet, where the next one begins. A packet without a Length field, such as one with a short
        /// header, extends to the end of the datagram.
        end: usize,
    },
}

impl core::fmt::Display for DatagramError {
    fn fmt(&self, f: &mut core::fmt::Formatter<'_>) -> core::fmt::Result {
        match self {
            DatagramError::Cut => f.write_str("the datagram ends before the packet"),
            DatagramError::IdTooLong => {
                f.write_str("a connection ID of version 1 or 2 has at most 20 bytes")
            }
            DatagramError::NoFixedBit { .. } => f.write_str("the fixed bit of the packet is 0"),
        }
    }
}

impl core::error::Error for DatagramError {}

/// Returns the positions of the parts of the packet that begins at byte `start` of a datagram (RFC 9000 section 17).
///
/// `connection_id_len` is the length in bytes of the receiver's own connection IDs, which a short header does not hold. If the
/// version is none of 0, 1 and version 2, only the connection IDs are parsed, and the packet is the rest of the datagram.
///
/// # Errors
///
/// Fails with `Cut` if the datagram ends before the packet; with `IdTooLong` if a connection ID of version 1 or 2 has more than
/// 20 bytes; and with `NoFixedBit`, which has the end of the packet, if the fixed bit of a short header, or of a long one of
/// version 1 or 2, is 0 and `fixed_bit` is `Required`.
///
/// <details><summary>Contract</summary>
///
/// ```text
/// ensures packet { result ≡ packet_of fixed_bit connection_id_len datagram.now start }
/// ensures fixed_bit { IfOk result (λ packet. lacks_fixed_bit fixed_bit packet.version (slice_index datagram.now start)
///     ≡ false) }
/// ensures refused { (end : ℕ) → IsErrOf result (DatagramError.NoFixedBit end)
///     → (start < end) × (end ≤ length datagram.now) }
/// ensures start { IfOk result (λ packet. packet.start ≡ start) }
/// ensures some { IfOk result (λ packet. packet.start < packet.end) }
/// ensures within { IfOk result (λ packet. packet.end ≤ length datagram.now) }
/// ensures number { IfOk result (λ packet. IfSome packet.number_at (λ at. (packet.start < at) × (at ≤ packet.end))) }
/// ensures ranges { IfOk result (λ packet. IsIn packet packet.destination_id × IsIn packet packet.source_id
///     × IsIn packet packet.token) }
/// ```
///
/// Definitions: [`packet_of`](crate::specs::datagram#packet_of),
/// [`lacks_fixed_bit`](crate::specs::fixed_bit#lacks_fixed_bit), [`IsIn`](crate::specs::datagram#IsIn).
///
/// </details>
pub fn packet_at(
    datagram: &[u8],
    start: usize,
    connection_id_len: usize,
    fixed_bit: FixedBit,
) -> Result<Packet, DatagramError> {
    let packet = parts_at(datagram, start, connection_id_len)?;
    check_fixed_bit(datagram, packet, fixed_bit)
}

/// Returns the packet, or fails with `NoFixedBit` if its fixed bit is 0 and must be 1.
// requires { packet.start < length datagram.now }
// ensures { result ≡ check_fixed_bit fixed_bit (slice_index datagram.now packet.start) (Ok packet) }
fn check_fixed_bit(
    datagram: &[u8],
    packet: Packet,
    fixed_bit: FixedBit,
) -> Result<Packet, DatagramError> {
    if fixed_bit.is_lacking(packet.version, datagram[packet.start]) {
        return Err(DatagramError::NoFixedBit { end: packet.end });
    }
    Ok(packet)
}

/// Returns the parts of the packet that begins at byte `start`, whatever its fixed bit.
// ensures { result ≡ parts_of connection_id_len datagram.now start }
fn parts_at(
    datagram: &[u8],
    start: usize,
    connection_id_len: usize,
) -> Result<Packet, DatagramError> {
    if start >= datagram.len() {
        return Err(DatagramError::Cut);
    }
    if is_long(datagram[start]) {
        parse_long_packet(datagram, start)
    } else {
        parse_short_packet(datagram, start, connection_id_len)
    }
}

// requires { start < length datagram.now }
// ensures { result ≡ whole datagram.now (short_layout connection_id_len datagram.now start) }
fn parse_short_packet(
    datagram: &[u8],
    start: usize,
    connection_id_len: usize,
) -> Result<Packet, DatagramError> {
    if datagram.len() - start - 1 < connection_id_len {
        return Err(DatagramError::Cut);
    }
    let number_at = start + 1 + connection_id_len;
    Ok(Packet {
        start,
        packet_type: PacketType::OneRtt,
        version: None,
        destination_id: start + 1..number_at,
        source_id: number_at..number_at,
        token: number_at..number_at,
        number_at: Some(number_at),
        end: datagram.len(),
    })
}

// requires { start < length datagram.now }
// ensures { result ≡ long_packet datagram.now start }
fn parse_long_packet(datagram: &[u8], start: usize) -> Result<Packet, DatagramError> {
    let (number, opaque) = parse_invariants(datagram, start)?;
    parse_versioned_packet(datagram, number, opaque)
}

/// Returns the version of a long header, and the parts that a long header has in every version (RFC 8999), as a packet of
/// another version.
// requires { start < length datagram.now }
// ensures version { IfOk result (λ read. read.0 ≡ version_of datagram.now start) }
// ensures packet { IfOk result (λ read. read.1 ≡ opaque_layout datagram.now start OtherVersion) }
// ensures within { IsOk result → source_end datagram.now start ≤ length datagram.now }
// ensures short { IsOk result → has_long_id datagram.now start ≡ false }
// ensures error { IfErr result (λ e. e ≡ (if has_long_id datagram.now start then IdTooLong else Cut)) }
// ensures cut { IsErr result → has_long_id datagram.now start ≡ false
//     → length datagram.now < source_end datagram.now start }
fn parse_invariants(datagram: &[u8], start: usize) -> Result<(u32, Packet), DatagramError> {
    if datagram.len() - start < 6 {
        return Err(DatagramError::Cut);
    }
    let number = version_at(datagram, start);
    let longest = if Version::from_number(number).is_some() {
        MAX_ID_LEN
    } else {
        255
    };
    let destination_end = id_end(datagram, start + 5, longest)?;
    let source_end = id_end(datagram, destination_end, longest)?;
    let packet = Packet {
        start,
        packet_type: PacketType::OtherVersion,
        version: Some(number),
        destination_id: start + 6..destination_end,
        source_id: destination_end + 1..source_end,
        token: source_end..source_end,
        number_at: None,
        end: datagram.len(),
    };
    Ok((number, packet))
}

/// Returns the end of the connection ID whose length is the byte at `at`. The ID has at most `longest` bytes.
// ensures too_long { IsErrOf result DatagramError.IdTooLong ↔ (longest < slice_index datagram.now at) }
// ensures cut { IsErrOf result DatagramError.Cut
//     ↔ ((slice_index datagram.now at ≤ longest) × (length datagram.now < id_end datagram.now at)) }
// ensures end { IfOk result (λ end. (end ≡ id_end datagram.now at) × (end ≤ length datagram.now)
//     × (slice_index datagram.now at ≤ longest)) }
// ensures others { (end : ℕ) → ¬ IsErrOf result (DatagramError.NoFixedBit end) }
fn id_end(datagram: &[u8], at: usize, longest: usize) -> Result<usize, DatagramError> {
    if at >= datagram.len() {
        return Err(DatagramError::Cut);
    }
    let len = usize::from(datagram[at]);
    if len > longest {
        return Err(DatagramError::IdTooLong);
    }
    if datagram.len() - at - 1 < len {
        return Err(DatagramError::Cut);
    }
    Ok(at + 1 + len)
}

/// Parses the parts of a long header that depend on its version.
// requires version { number ≡ version_of datagram.now opaque.start }
// requires packet { opaque ≡ opaque_layout datagram.now opaque.start OtherVersion }
// requires within { source_end datagram.now opaque.start ≤ length datagram.now }
// ensures { result ≡ whole datagram.now (versioned_layout datagram.now opaque.start) }
fn parse_versioned_packet(
    datagram: &[u8],
    number: u32,
    opaque: Packet,
) -> Result<Packet, DatagramError> {
    if number == 0 {
        return Ok(Packet {
            packet_type: PacketType::VersionNegotiation,
            ..opaque
        });
    }
    match Version::from_number(number) {
        Some(version) => {
            let packet_type = type_of(version, bits_of(datagram[opaque.start]));
            parse_typed_packet(datagram, packet_type, opaque)
        }
        None => Ok(opaque),
    }
}

/// Parses a packet of version 1 or 2.
// requires packet { opaque ≡ opaque_layout datagram.now opaque.start OtherVersion }
// requires within { source_end datagram.now opaque.start ≤ length datagram.now }
// ensures { result ≡ whole datagram.now (typed_layout packet_type datagram.now opaque.start) }
fn parse_typed_packet(
    datagram: &[u8],
    packet_type: PacketType,
    opaque: Packet,
) -> Result<Packet, DatagramError> {
    let from = opaque.source_id.end;
    match packet_type {
        PacketType::Initial => parse_initial_packet(datagram, opaque),
        PacketType::Retry => parse_retry_packet(datagram, opaque),
        _ => parse_numbered_packet(datagram, packet_type, from..from, opaque),
    }
}

// requires packet { opaque ≡ opaque_layout datagram.now opaque.start OtherVersion }
// requires within { source_end datagram.now opaque.start ≤ length datagram.now }
// ensures { result ≡ whole datagram.now
//     (numbered_layout datagram.now opaque.start Initial (initial_token datagram.now opaque.start)) }
fn parse_initial_packet(datagram: &[u8], opaque: Packet) -> Result<Packet, DatagramError> {
    let (len, at) = varint_at(datagram, opaque.source_id.end).ok_or(DatagramError::Cut)?;
    if datagram.len() - at < len {
        return Err(DatagramError::Cut);
    }
    parse_numbered_packet(datagram, PacketType::Initial, at..at + len, opaque)
}

/// Parses a packet with a packet number, where the Length field follows the token.
// requires packet { opaque ≡ opaque_layout datagram.now opaque.start OtherVersion }
// requires within { source_end datagram.now opaque.start ≤ length datagram.now }
// requires token { token.end ≤ length datagram.now }
// ensures { result ≡ whole datagram.now (numbered_layout datagram.now opaque.start packet_type token) }
fn parse_numbered_packet(
    datagram: &[u8],
    packet_type: PacketType,
    token: Range<usize>,
    opaque: Packet,
) -> Result<Packet, DatagramError> {
    let (len, number_at) = varint_at(datagram, token.end).ok_or(DatagramError::Cut)?;
    if datagram.len() - number_at < len {
        return Err(DatagramError::Cut);
    }
    Ok(Packet {
        packet_type,
        token,
        number_at: Some(number_at),
        end: number_at + len,
        ..opaque
    })
}

// requires packet { opaque ≡ opaque_layout datagram.now opaque.start OtherVersion }
// requires within { source_end datagram.now opaque.start ≤ length datagram.now }
// ensures { result ≡ whole datagram.now (retry_layout datagram.now opaque.start) }
fn parse_retry_packet(datagram: &[u8], opaque: Packet) -> Result<Packet, DatagramError> {
    let from = opaque.source_id.end;
    if datagram.len() - from < TAG_LEN {
        return Err(DatagramError::Cut);
    }
    Ok(Packet {
        packet_type: PacketType::Retry,
        token: from..datagram.len() - TAG_LEN,
        ..opaque
    })
}

/// Returns the version in the long header that begins at byte `start`.
// requires { start + 5 ≤ length datagram.now }
// ensures { result ≡ version_of datagram.now start }
pub(crate) fn version_at(datagram: &[u8], start: usize) -> u32 {
    network_number(&datagram[start + 1..start + 5]) as u32
}

/// Returns the variable-length integer that begins at byte `at`, and its end, or `None` if the datagram ends before the integer
/// does.
// ensures { MatchOption result (length datagram.now < varint_end datagram.now at)
//     (λ read. (read.0 ≡ varint datagram.now at) × (read.1 ≡ varint_end datagram.now at)
//     × (read.1 ≤ length datagram.now)) }
fn varint_at(datagram: &[u8], at: usize) -> Option<(usize, usize)> {
    if at >= datagram.len() {
        return None;
    }
    let len: usize = 1 << (datagram[at] >> 6);
    if datagram.len() - at < len {
        return None;
    }
    let bytes = &datagram[at..at + len];
    let value = network_number(bytes) % (1 << (8 * len - 2));
    Some((value as usize, at + len))
}

/// Returns the number that these bytes hold in network byte order.
// requires { length bytes.now ≤ 8 }
// ensures is { result ≡ number_from_digits 256 bytes.now }
// ensures fits { result < 256 ^ length bytes.now }
fn network_number(bytes: &[u8]) -> u64 {
    let mut number = 0;
    for byte in bytes {
        number = number * 0x100 + u64::from(*byte);
    }
    number
}
