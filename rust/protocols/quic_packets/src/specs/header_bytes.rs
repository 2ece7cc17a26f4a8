// Written by tools/rust from crates/quic_packets/specs/HeaderBytes.antt. Don't edit.
//! The bytes of a header of version 1 or 2 up to its packet number, before protection (RFC 9000 section 17, RFC 9369 section 3).
//!
//! The definitions of `crates/quic_packets/specs/HeaderBytes.antt` of the repository.
//!
//! <div id="integer"></div>
//!
//! ```text
//! -- a variable-length integer of 2^log bytes: the two highest bits of the first byte are log, and the bits after them are the value
//! -- in network byte order (section 16)
//! abbrev pub integer : (log value : ℕ) → List ℕ
//! integer log value = let len = 2 ^ log in bytes_high_first len (log * 2 ^ (8 * len - 2) + value)
//! ```
//!
//! <div id="fewest"></div>
//!
//! ```text
//! -- the base-2 logarithm of the fewest bytes for a value below 2^30 (section 16, table 4)
//! abbrev pub fewest : ℕ → ℕ
//! fewest value = if nat_lt value (2 ^ 6) then 0 else if nat_lt value (2 ^ 14) then 1 else 2
//! ```
//!
//! <div id="id_field"></div>
//!
//! ```text
//! -- a connection ID after its length in one byte (section 17.2)
//! abbrev pub id_field : List ℕ → List ℕ
//! id_field id = length id ∷ id
//! ```
//!
//! <div id="header_bits"></div>
//!
//! ```text
//! -- the type bits (section 17.2, table 5, RFC 9369 section 3.2)
//! abbrev pub header_bits : Version → LongType → ℕ
//! header_bits version (Initial token) = (type_bits version).initial
//! header_bits version ZeroRtt = (type_bits version).zero_rtt
//! header_bits version Handshake = (type_bits version).handshake
//! ```
//!
//! Definitions: [`type_bits`](crate::specs::versions#type_bits).
//!
//! <div id="token_of"></div>
//!
//! ```text
//! -- Only an Initial packet has a token, which follows its length (section 17.2.2).
//! abbrev pub token_of : LongType → List ℕ
//! token_of (Initial token) = token.now
//! token_of ZeroRtt = []
//! token_of Handshake = []
//! ```
//!
//! <div id="token_field"></div>
//!
//! ```text
//! abbrev pub token_field : LongType → List ℕ
//! token_field (Initial token) = integer (fewest (length token.now)) (length token.now) ++ token.now
//! token_field ZeroRtt = []
//! token_field Handshake = []
//! ```
//!
//! Definitions: [`integer`](crate::specs::header_bytes#integer), [`fewest`](crate::specs::header_bytes#fewest).
//!
//! <div id="length_of"></div>
//!
//! ```text
//! -- The value of Length: the number of bytes of the packet number and of the payload, which ends with a tag of 16 bytes (section
//! -- 17.2, RFC 9001 section 5.3).
//! abbrev pub length_of : LongHeader → ℕ
//! length_of header = header.number_len + header.payload_len + tag_len
//! ```
//!
//! Definitions: [`tag_len`](aead_ciphers::specs::gcm#tag_len).
//!
//! <div id="length_log"></div>
//!
//! ```text
//! -- The base-2 logarithm of the length of Length: it has two bytes, or four from 2^14 on.
//! abbrev pub length_log : ℕ → ℕ
//! length_log n = if nat_lt n (2 ^ 14) then 1 else 2
//! ```
//!
//! <div id="long_first_byte"></div>
//!
//! ```text
//! -- the first byte of a long header: the header form 1, the fixed bit 1, the type, two reserved bits 0, and the length of the
//! -- packet number less one (section 17.2)
//! abbrev pub long_first_byte : (bits number_len : ℕ) → ℕ
//! long_first_byte bits number_len = 0x80 + 0x40 + bits * 2 ^ 4 + (number_len - 1)
//! ```
//!
//! <div id="version_field"></div>
//!
//! ```text
//! -- the version in four bytes (section 17.2)
//! abbrev pub version_field : Version → List ℕ
//! version_field version = bytes_high_first 4 (version_number version)
//! ```
//!
//! Definitions: [`version_number`](key_derivation::specs::quic#version_number).
//!
//! <div id="long_header"></div>
//!
//! ```text
//! -- a long header: the first byte, the version, both connection IDs, the token and Length (sections 17.2.2 to 17.2.4)
//! abbrev pub long_header : LongHeader → List ℕ
//! long_header header =
//!     (long_first_byte (header_bits header.version header.packet_type) header.number_len ∷ version_field header.version)
//!     ++ id_field header.destination_id.now ++ id_field header.source_id.now ++ token_field header.packet_type
//!     ++ integer (length_log (length_of header)) (length_of header)
//! ```
//!
//! Definitions: [`long_first_byte`](crate::specs::header_bytes#long_first_byte),
//! [`header_bits`](crate::specs::header_bytes#header_bits),
//! [`version_field`](crate::specs::header_bytes#version_field), [`id_field`](crate::specs::header_bytes#id_field),
//! [`token_field`](crate::specs::header_bytes#token_field), [`integer`](crate::specs::header_bytes#integer),
//! [`length_log`](crate::specs::header_bytes#length_log), [`length_of`](crate::specs::header_bytes#length_of).
//!
//! <div id="short_first_byte"></div>
//!
//! ```text
//! -- the first byte of a short header: the header form 0, the fixed bit 1, the spin bit 0, two reserved bits 0, the key phase, and
//! -- the length of the packet number less one (section 17.3.1)
//! abbrev pub short_first_byte : (phase : Bool) (number_len : ℕ) → ℕ
//! short_first_byte phase number_len = 0x40 + (if phase then 0x04 else 0) + (number_len - 1)
//! ```
//!
//! <div id="short_header"></div>
//!
//! ```text
//! -- a short header: the first byte and the destination connection ID (section 17.3.1)
//! abbrev pub short_header : ShortHeader → List ℕ
//! short_header header = short_first_byte header.phase header.number_len ∷ header.destination_id.now
//! ```
//!
//! Definitions: [`short_first_byte`](crate::specs::header_bytes#short_first_byte).
//!
//! <div id="IsNumberLen"></div>
//!
//! ```text
//! -- a packet number has 1 to 4 bytes (section 17.1)
//! pub record IsNumberLen (n : ℕ) : Type 0 where
//!   pub some : 0 < n
//!   pub few : n ≤ 4
//! ```
//!
//! <div id="HasShortIds"></div>
//!
//! ```text
//! -- a connection ID of version 1 or 2 has at most 20 bytes (section 17.2)
//! pub record HasShortIds (header : LongHeader) : Type 0 where
//!   pub destination : length header.destination_id.now ≤ 20
//!   pub source : length header.source_id.now ≤ 20
//! ```
//!
//! <div id="HasShortFields"></div>
//!
//! ```text
//! -- Four bytes encode the token's length and the value of Length.
//! pub record HasShortFields (header : LongHeader) : Type 0 where
//!   pub token : length (token_of header.packet_type) < 2 ^ 30
//!   pub payload : length_of header < 2 ^ 30
//! ```
//!
//! Definitions: [`token_of`](crate::specs::header_bytes#token_of),
//! [`length_of`](crate::specs::header_bytes#length_of).
//!
//! <div id="IsLongHeader"></div>
//!
//! ```text
//! -- A long header that can be written.
//! pub record IsLongHeader (header : LongHeader) : Type 0 where
//!   pub number : IsNumberLen header.number_len
//!   pub ids : HasShortIds header
//!   pub fields : HasShortFields header
//! ```
//!
//! Definitions: [`IsNumberLen`](crate::specs::header_bytes#IsNumberLen),
//! [`HasShortIds`](crate::specs::header_bytes#HasShortIds),
//! [`HasShortFields`](crate::specs::header_bytes#HasShortFields).
//!
//! <div id="IsShortHeader"></div>
//!
//! ```text
//! -- a short header that can be written
//! pub record IsShortHeader (header : ShortHeader) : Type 0 where
//!   pub number : IsNumberLen header.number_len
//!   pub id : length header.destination_id.now ≤ 20
//! ```
//!
//! Definitions: [`IsNumberLen`](crate::specs::header_bytes#IsNumberLen).
//!
//! <div id="with_field"></div>
//!
//! ```text
//! -- A buffer in which a field was written from a byte on.
//! abbrev pub with_field : ℕ → List ℕ → List ℕ → List ℕ
//! with_field at field buffer = take at buffer ++ (field ++ drop (at + length field) buffer)
//! ```
//!
//! <div id="packet_type_of"></div>
//!
//! ```text
//! -- the type of a packet with this header
//! abbrev pub packet_type_of : LongType → PacketType
//! packet_type_of (Initial token) = InitialPacket
//! packet_type_of ZeroRtt = ZeroRttPacket
//! packet_type_of Handshake = HandshakePacket
//! ```
//!
//! <div id="HasLongParts"></div>
//!
//! ```text
//! -- The parts of a packet with this header that begins at the first byte of a datagram: its type and its version, the bytes of
//! -- its connection IDs and its token, the position of its number, and its end, to which Length counts from the number on (section
//! -- 17.2).
//! pub record HasLongParts (header : LongHeader) (datagram : List ℕ) (packet : Packet) : Type 0 where
//!   pub start : packet.start ≡ 0
//!   pub packet_type : packet.packet_type ≡ packet_type_of header.packet_type
//!   pub version : packet.version ≡ Some (version_number header.version)
//!   pub destination_id : slice_range datagram packet.destination_id.start packet.destination_id.end ≡ header.destination_id.now
//!   pub source_id : slice_range datagram packet.source_id.start packet.source_id.end ≡ header.source_id.now
//!   pub token : slice_range datagram packet.token.start packet.token.end ≡ token_of header.packet_type
//!   pub number_at : packet.number_at ≡ Some (length (long_header header))
//!   pub end : packet.end ≡ length (long_header header) + length_of header
//! ```
//!
//! Definitions: [`packet_type_of`](crate::specs::header_bytes#packet_type_of),
//! [`version_number`](key_derivation::specs::quic#version_number),
//! [`token_of`](crate::specs::header_bytes#token_of), [`long_header`](crate::specs::header_bytes#long_header),
//! [`length_of`](crate::specs::header_bytes#length_of).
//!
//! <div id="HasShortParts"></div>
//!
//! ```text
//! -- The parts of a packet with this short header that begins at the first byte of a datagram. Such a packet is the rest of the
//! -- datagram (sections 12.2 and 17.3.1).
//! pub record HasShortParts (header : ShortHeader) (datagram : List ℕ) (packet : Packet) : Type 0 where
//!   pub start : packet.start ≡ 0
//!   pub packet_type : packet.packet_type ≡ OneRtt
//!   pub version : packet.version ≡ None
//!   pub destination_id : slice_range datagram packet.destination_id.start packet.destination_id.end ≡ header.destination_id.now
//!   pub source_id : slice_range datagram packet.source_id.start packet.source_id.end ≡ []
//!   pub token : slice_range datagram packet.token.start packet.token.end ≡ []
//!   pub number_at : packet.number_at ≡ Some (length (short_header header))
//!   pub end : packet.end ≡ length datagram
//! ```
//!
//! Definitions: [`short_header`](crate::specs::header_bytes#short_header).
