// Written by tools/rust from crates/quic_packets/specs/Datagram.antt. Don't edit.
//! The positions of a packet's parts in a datagram (RFC 9000 sections 12.2 and 17, RFC 8999 section 5). A position is the number
//! of bytes before it. Past its end a datagram reads as zeros, so the layout of a packet that is cut ends past the datagram.
//!
//! The definitions of `crates/quic_packets/specs/Datagram.antt` of the repository.
//!
//! <div id="varint_end"></div>
//!
//! ```text
//! -- The end of the variable-length integer that begins at a byte. The two highest bits of that byte are the base-2 logarithm of
//! -- the integer's length in bytes (section 16).
//! abbrev pub varint_end : List ℕ → ℕ → ℕ
//! varint_end datagram at = at + 2 ^ (slice_index datagram at / 2 ^ 6)
//! ```
//!
//! <div id="varint"></div>
//!
//! ```text
//! -- The value of that integer: the bits after these two, in network byte order (section 16).
//! abbrev pub varint : List ℕ → ℕ → ℕ
//! varint datagram at =
//!     let end = varint_end datagram at in number_from_digits 256 (slice_range datagram at end) % 2 ^ (8 * (end - at) - 2)
//! ```
//!
//! Definitions: [`varint_end`](crate::specs::datagram#varint_end).
//!
//! <div id="id_end"></div>
//!
//! ```text
//! -- the end of the connection ID whose length is the byte at this position (RFC 8999 section 5.1)
//! abbrev pub id_end : List ℕ → ℕ → ℕ
//! id_end datagram at = at + 1 + slice_index datagram at
//! ```
//!
//! <div id="version_of"></div>
//!
//! ```text
//! -- the version of a long header: the four bytes after its first (RFC 8999 section 5.1)
//! abbrev pub version_of : List ℕ → ℕ → ℕ
//! version_of datagram start = number_from_digits 256 (slice_range datagram (start + 1) (start + 5))
//! ```
//!
//! <div id="destination_end"></div>
//!
//! ```text
//! -- The ends of the two connection IDs, which follow the version (RFC 8999 section 5.1).
//! abbrev pub destination_end : List ℕ → ℕ → ℕ
//! destination_end datagram start = id_end datagram (start + 5)
//! ```
//!
//! Definitions: [`id_end`](crate::specs::datagram#id_end).
//!
//! <div id="source_end"></div>
//!
//! ```text
//! abbrev pub source_end : List ℕ → ℕ → ℕ
//! source_end datagram start = id_end datagram (destination_end datagram start)
//! ```
//!
//! Definitions: [`id_end`](crate::specs::datagram#id_end),
//! [`destination_end`](crate::specs::datagram#destination_end).
//!
//! <div id="span"></div>
//!
//! ```text
//! -- the range from one position to another
//! abbrev pub span : ℕ → ℕ → Range ℕ
//! span start end = record { start = start; end = end }
//! ```
//!
//! <div id="long_layout"></div>
//!
//! ```text
//! -- A long header: its version and its connection IDs (RFC 8999 section 5.1), with the parts that depend on the version as
//! -- arguments.
//! abbrev pub long_layout : List ℕ → ℕ → PacketType → Range ℕ → Option ℕ → ℕ → Packet
//! long_layout datagram start packet_type token number_at end = record {
//!   start = start;
//!   packet_type = packet_type;
//!   version = Some (version_of datagram start);
//!   destination_id = span (start + 6) (destination_end datagram start);
//!   source_id = span (destination_end datagram start + 1) (source_end datagram start);
//!   token = token;
//!   number_at = number_at;
//!   end = end;
//! }
//! ```
//!
//! Definitions: [`version_of`](crate::specs::datagram#version_of), [`span`](crate::specs::datagram#span),
//! [`destination_end`](crate::specs::datagram#destination_end), [`source_end`](crate::specs::datagram#source_end).
//!
//! <div id="opaque_layout"></div>
//!
//! ```text
//! -- A packet of a version or type without a Length field is the rest of the datagram (section 12.2).
//! abbrev pub opaque_layout : List ℕ → ℕ → PacketType → Packet
//! opaque_layout datagram start packet_type =
//!     let from = source_end datagram start in
//!     long_layout datagram start packet_type (span from from) None (max from (length datagram))
//! ```
//!
//! Definitions: [`source_end`](crate::specs::datagram#source_end),
//! [`long_layout`](crate::specs::datagram#long_layout), [`span`](crate::specs::datagram#span).
//!
//! <div id="numbered_layout"></div>
//!
//! ```text
//! -- A packet with a number: after the token, if there is one, comes the Length field, and then the packet number and the payload,
//! -- which have that length together (section 17.2).
//! abbrev pub numbered_layout : List ℕ → ℕ → PacketType → Range ℕ → Packet
//! numbered_layout datagram start packet_type token =
//!     let number_at = varint_end datagram token.end in
//!     long_layout datagram start packet_type token (Some number_at) (number_at + varint datagram token.end)
//! ```
//!
//! Definitions: [`varint_end`](crate::specs::datagram#varint_end),
//! [`long_layout`](crate::specs::datagram#long_layout), [`varint`](crate::specs::datagram#varint).
//!
//! <div id="initial_token"></div>
//!
//! ```text
//! -- The token of an Initial packet follows its length (section 17.2.2).
//! abbrev pub initial_token : List ℕ → ℕ → Range ℕ
//! initial_token datagram start =
//!     let from = source_end datagram start in let at = varint_end datagram from in span at (at + varint datagram from)
//! ```
//!
//! Definitions: [`source_end`](crate::specs::datagram#source_end),
//! [`varint_end`](crate::specs::datagram#varint_end), [`span`](crate::specs::datagram#span),
//! [`varint`](crate::specs::datagram#varint).
//!
//! <div id="retry_layout"></div>
//!
//! ```text
//! -- A Retry packet consists of a long header, its token and a tag of 16 bytes, and extends to the end of the datagram (sections
//! -- 12.2 and 17.2.5).
//! abbrev pub retry_layout : List ℕ → ℕ → Packet
//! retry_layout datagram start =
//!     let from = source_end datagram start in let end = max (from + tag_len) (length datagram) in
//!     long_layout datagram start Retry (span from (end - tag_len)) None end
//! ```
//!
//! Definitions: [`source_end`](crate::specs::datagram#source_end), [`tag_len`](aead_ciphers::specs::gcm#tag_len),
//! [`long_layout`](crate::specs::datagram#long_layout), [`span`](crate::specs::datagram#span).
//!
//! <div id="typed_layout"></div>
//!
//! ```text
//! -- A packet of version 1 or 2, by its type. Only an Initial packet has a token before its Length field.
//! abbrev pub typed_layout : PacketType → List ℕ → ℕ → Packet
//! typed_layout Initial datagram start = numbered_layout datagram start Initial (initial_token datagram start)
//! typed_layout Retry datagram start = retry_layout datagram start
//! typed_layout packet_type datagram start =
//!     let from = source_end datagram start in numbered_layout datagram start packet_type (span from from)
//! ```
//!
//! Definitions: [`numbered_layout`](crate::specs::datagram#numbered_layout),
//! [`initial_token`](crate::specs::datagram#initial_token), [`retry_layout`](crate::specs::datagram#retry_layout),
//! [`source_end`](crate::specs::datagram#source_end), [`span`](crate::specs::datagram#span).
//!
//! <div id="short_layout"></div>
//!
//! ```text
//! -- A short header has the destination connection ID, whose length the receiver knows, and the packet number. The packet is the
//! -- rest of the datagram (sections 12.2 and 17.3.1).
//! abbrev pub short_layout : ℕ → List ℕ → ℕ → Packet
//! short_layout connection_id_len datagram start =
//!     let number_at = start + 1 + connection_id_len in record {
//!       start = start;
//!       packet_type = OneRtt;
//!       version = None;
//!       destination_id = span (start + 1) number_at;
//!       source_id = span number_at number_at;
//!       token = span number_at number_at;
//!       number_at = Some number_at;
//!       end = max number_at (length datagram);
//!     }
//! ```
//!
//! Definitions: [`span`](crate::specs::datagram#span).
//!
//! <div id="known_layout"></div>
//!
//! ```text
//! -- A long header of a known version has the type that its bits mean in this version (section 17.2, RFC 9369 section 3.2). In a
//! -- header of another version only the connection IDs are parsed.
//! abbrev pub known_layout : Option Version → List ℕ → ℕ → Packet
//! known_layout (Some version) datagram start = typed_layout (type_of version (bits_of (slice_index datagram start))) datagram start
//! known_layout None datagram start = opaque_layout datagram start OtherVersion
//! ```
//!
//! Definitions: [`typed_layout`](crate::specs::datagram#typed_layout), [`type_of`](crate::specs::versions#type_of),
//! [`bits_of`](crate::specs::versions#bits_of), [`opaque_layout`](crate::specs::datagram#opaque_layout).
//!
//! <div id="versioned_layout"></div>
//!
//! ```text
//! -- A long header, by its version number. Number 0 is Version Negotiation (section 17.2.1).
//! abbrev pub versioned_layout : List ℕ → ℕ → Packet
//! versioned_layout datagram start =
//!     if version_of datagram start == 0 then opaque_layout datagram start VersionNegotiation
//!     else known_layout (numbered_version (version_of datagram start)) datagram start
//! ```
//!
//! Definitions: [`version_of`](crate::specs::datagram#version_of),
//! [`opaque_layout`](crate::specs::datagram#opaque_layout), [`known_layout`](crate::specs::datagram#known_layout),
//! [`numbered_version`](key_derivation::specs::quic#numbered_version).
//!
//! <div id="longest_id"></div>
//!
//! ```text
//! -- the longest connection ID: 20 bytes in versions 1 and 2 (section 17.2), and 255 otherwise, as its length is one byte (RFC
//! -- 8999 section 5.1)
//! abbrev pub longest_id : ℕ → ℕ
//! longest_id version = if is_some (numbered_version version) then 20 else 255
//! ```
//!
//! Definitions: [`numbered_version`](key_derivation::specs::quic#numbered_version).
//!
//! <div id="has_long_id"></div>
//!
//! ```text
//! abbrev pub has_long_id : List ℕ → ℕ → Bool
//! has_long_id datagram start =
//!     let longest = longest_id (version_of datagram start) in
//!     nat_lt longest (slice_index datagram (start + 5)) || nat_lt longest (slice_index datagram (destination_end datagram start))
//! ```
//!
//! Definitions: [`longest_id`](crate::specs::datagram#longest_id),
//! [`version_of`](crate::specs::datagram#version_of), [`destination_end`](crate::specs::datagram#destination_end).
//!
//! <div id="whole"></div>
//!
//! ```text
//! -- A packet that ends past the datagram is rejected.
//! abbrev pub whole : List ℕ → Packet → Result Packet DatagramError
//! whole datagram packet = if nat_lt (length datagram) packet.end then Err Cut else Ok packet
//! ```
//!
//! <div id="long_packet"></div>
//!
//! ```text
//! -- the result of parsing a packet with a long header
//! abbrev pub long_packet : List ℕ → ℕ → Result Packet DatagramError
//! long_packet datagram start = if has_long_id datagram start then Err IdTooLong else whole datagram (versioned_layout datagram start)
//! ```
//!
//! Definitions: [`has_long_id`](crate::specs::datagram#has_long_id), [`whole`](crate::specs::datagram#whole),
//! [`versioned_layout`](crate::specs::datagram#versioned_layout).
//!
//! <div id="parts_of"></div>
//!
//! ```text
//! -- the parts of the packet at a byte. The highest bit of that byte is set in a long header (RFC 8999 section 5).
//! abbrev pub parts_of : ℕ → List ℕ → ℕ → Result Packet DatagramError
//! parts_of connection_id_len datagram start =
//!     if nat_lt (slice_index datagram start) 0x80 then whole datagram (short_layout connection_id_len datagram start)
//!     else long_packet datagram start
//! ```
//!
//! Definitions: [`whole`](crate::specs::datagram#whole), [`short_layout`](crate::specs::datagram#short_layout),
//! [`long_packet`](crate::specs::datagram#long_packet).
//!
//! <div id="check_fixed_bit"></div>
//!
//! ```text
//! -- A packet with this first byte is rejected if its fixed bit is 0 and must be 1 (sections 17.2 and 17.3.1). The error has the
//! -- end of the packet.
//! abbrev pub check_fixed_bit : FixedBit → (first : ℕ) → Result Packet DatagramError → Result Packet DatagramError
//! check_fixed_bit fixed_bit first (Err error) = Err error
//! check_fixed_bit fixed_bit first (Ok packet) =
//!     if lacks_fixed_bit fixed_bit packet.version first then Err (NoFixedBit packet.end) else Ok packet
//! ```
//!
//! Definitions: [`lacks_fixed_bit`](crate::specs::fixed_bit#lacks_fixed_bit).
//!
//! <div id="packet_of"></div>
//!
//! ```text
//! -- the result of parsing the packet at a byte
//! abbrev pub packet_of : FixedBit → ℕ → List ℕ → ℕ → Result Packet DatagramError
//! packet_of fixed_bit connection_id_len datagram start =
//!     check_fixed_bit fixed_bit (slice_index datagram start) (parts_of connection_id_len datagram start)
//! ```
//!
//! Definitions: [`check_fixed_bit`](crate::specs::datagram#check_fixed_bit),
//! [`parts_of`](crate::specs::datagram#parts_of).
//!
//! <div id="next_after"></div>
//!
//! ```text
//! -- The position after a packet that is rejected, where the next one begins: the end that the error has, or that of the datagram
//! -- if it has none.
//! abbrev pub next_after : DatagramError → (len : ℕ) → ℕ
//! next_after (NoFixedBit end) len = end
//! next_after _ len = len
//! ```
//!
//! <div id="number_in"></div>
//!
//! ```text
//! -- The position of the packet number, counted from the packet's first byte. It is 0 if there is no number.
//! abbrev pub number_in : Packet → ℕ
//! number_in packet = unwrap_or packet.number_at 0 - packet.start
//! ```
//!
//! <div id="IsIn"></div>
//!
//! ```text
//! -- The range lies in the packet, after its first byte.
//! abbrev pub IsIn : Packet → Range ℕ → Type 0
//! IsIn packet range = (packet.start < range.start) × (range.start ≤ range.end) × (range.end ≤ packet.end)
//! ```
//!
//! <div id="IsPlaced"></div>
//!
//! ```text
//! -- The place of a packet that was parsed: it begins where it was asked for, has at least one byte, and ends within the datagram.
//! -- Its number and its ranges lie in it.
//! pub record IsPlaced (start : ℕ) (datagram : List ℕ) (packet : Packet) : Type 0 where
//!   pub begins : packet.start ≡ start
//!   pub some : packet.start < packet.end
//!   pub within : packet.end ≤ length datagram
//!   pub number : IfSome packet.number_at (λ at. (packet.start < at) × (at ≤ packet.end))
//!   pub ranges : IsIn packet packet.destination_id × IsIn packet packet.source_id × IsIn packet packet.token
//! ```
//!
//! Definitions: [`IsIn`](crate::specs::datagram#IsIn).
//!
//! <div id="bytes_of"></div>
//!
//! ```text
//! -- the bytes of a packet in its datagram
//! abbrev pub bytes_of : Packet → List ℕ → List ℕ
//! bytes_of packet datagram = slice_range datagram packet.start packet.end
//! ```
//!
//! <div id="KeepsOutside"></div>
//!
//! ```text
//! -- no byte outside these positions changes
//! abbrev pub KeepsOutside : (start end : ℕ) (old new : List ℕ) → Type 0
//! KeepsOutside start end old new = (i : ℕ) → (i < start) ⊎ (end ≤ i) → slice_index new i ≡ slice_index old i
//! ```
