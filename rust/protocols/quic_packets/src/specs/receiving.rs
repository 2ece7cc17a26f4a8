// Written by tools/rust from crates/quic_packets/specs/Receiving.antt. Don't edit.
//! The state of a receiver, with the keys of up to three phases (RFC 9001 section 6), and what becomes of a packet that it is
//! given.
//!
//! The definitions of `crates/quic_packets/specs/Receiving.antt` of the repository.
//!
//! <div id="Receiver"></div>
//!
//! ```text
//! -- The state of a receiver. A highest number is 0 if there is none.
//! pub record Receiver : Type 0 where
//!   -- the version of its packets
//!   pub version : Version
//!   -- the header key
//!   pub header : HeaderKey
//!   -- the secret of the next packet key or, until that is set, of the current one, if the receiver was created from a secret
//!   pub secret : Option QuicSecretState
//!   -- the packet key of this phase
//!   pub current : PacketKey
//!   -- the packet key of the next phase, if it is set
//!   pub next : Option PacketKey
//!   -- the packet key of the previous phase, if it is kept
//!   pub previous : Option PacketKey
//!   -- the Key Phase bit of this phase
//!   pub phase : Bool
//!   -- the lowest and the highest number that was opened in this phase, where the lowest is 0 in the first phase
//!   pub lowest : ℕ
//!   pub highest : ℕ
//!   -- the highest number that was opened under the previous key, and under the keys before that one
//!   pub highest_previous : ℕ
//!   pub highest_earlier : ℕ
//! ```
//!
//! Definitions: [`HeaderKey`](aead_ciphers::specs::header_protection#HeaderKey),
//! [`QuicSecretState`](key_derivation::specs::quic#QuicSecretState), [`PacketKey`](crate::specs::keys#PacketKey).
//!
//! <div id="new_receiver"></div>
//!
//! ```text
//! -- a receiver that is created with this key
//! abbrev pub new_receiver : Version → HeaderKey → PacketKey → Option QuicSecretState → Receiver
//! new_receiver version header key secret = record {
//!   version = version;
//!   header = header;
//!   secret = secret;
//!   current = key;
//!   next = None;
//!   previous = None;
//!   phase = false;
//!   lowest = 0;
//!   highest = 0;
//!   highest_previous = 0;
//!   highest_earlier = 0;
//! }
//! ```
//!
//! Definitions: [`HeaderKey`](aead_ciphers::specs::header_protection#HeaderKey),
//! [`PacketKey`](crate::specs::keys#PacketKey), [`QuicSecretState`](key_derivation::specs::quic#QuicSecretState),
//! [`Receiver`](crate::specs::receiving#Receiver).
//!
//! <div id="with_next"></div>
//!
//! ```text
//! -- The receiver with its next key, unless that is set: the key of the secret after the one that is held (RFC 9001 section 6.1).
//! abbrev pub with_next : Receiver → QuicSecretState → Receiver
//! with_next r held =
//!     let next = next_quic_secret held in
//!     if is_some r.next then r else record r { secret = Some next; next = Some (secret_key next) }
//! ```
//!
//! Definitions: [`Receiver`](crate::specs::receiving#Receiver),
//! [`QuicSecretState`](key_derivation::specs::quic#QuicSecretState),
//! [`next_quic_secret`](key_derivation::specs::quic#next_quic_secret),
//! [`secret_key`](crate::specs::keys#secret_key).
//!
//! <div id="has_phase"></div>
//!
//! ```text
//! -- a short header has a Key Phase bit, and a long one does not (RFC 9000 section 17.3.1)
//! abbrev pub has_phase : ℕ → Bool
//! has_phase first = bit_and first 0x84 == 0x04
//! ```
//!
//! <div id="is_other_phase"></div>
//!
//! ```text
//! -- a short header whose Key Phase bit differs from the receiver's
//! abbrev pub is_other_phase : Receiver → ℕ → Bool
//! is_other_phase r first = bit_and first 0x84 == (if r.phase then 0x00 else 0x04)
//! ```
//!
//! Definitions: [`Receiver`](crate::specs::receiving#Receiver).
//!
//! <div id="key_of"></div>
//!
//! ```text
//! -- The key of a packet, from its first byte and its number, if it is held. In the other phase it is the previous key if the
//! -- number is lower than any of this phase, and the next key otherwise (RFC 9001 section 6.5).
//! abbrev pub key_of : Receiver → ℕ → ℕ → Option PacketKey
//! key_of r first number = if is_other_phase r first then (if nat_lt number r.lowest then r.previous else r.next) else Some r.current
//! ```
//!
//! Definitions: [`Receiver`](crate::specs::receiving#Receiver), [`PacketKey`](crate::specs::keys#PacketKey),
//! [`is_other_phase`](crate::specs::receiving#is_other_phase).
//!
//! <div id="opening_key"></div>
//!
//! ```text
//! -- The key with which a packet is opened. If its own is not held, this is another one, so that the time doesn't reveal it
//! -- (section 6.3).
//! abbrev pub opening_key : Receiver → ℕ → ℕ → PacketKey
//! opening_key r first number = unwrap_or (key_of r first number) r.current
//! ```
//!
//! Definitions: [`Receiver`](crate::specs::receiving#Receiver), [`PacketKey`](crate::specs::keys#PacketKey),
//! [`key_of`](crate::specs::receiving#key_of).
//!
//! <div id="highest_before"></div>
//!
//! ```text
//! -- The highest number that was opened under keys before the packet's key.
//! abbrev pub highest_before : Receiver → ℕ → ℕ → ℕ
//! highest_before r first number =
//!     if is_other_phase r first then (if nat_lt number r.lowest then r.highest_earlier else r.highest) else r.highest_previous
//! ```
//!
//! Definitions: [`Receiver`](crate::specs::receiving#Receiver),
//! [`is_other_phase`](crate::specs::receiving#is_other_phase).
//!
//! <div id="IsInTurn"></div>
//!
//! ```text
//! -- The packet's key is held, and no packet with a higher number was opened under an earlier key, since later packets are never
//! -- under earlier keys (section 6.4).
//! pub record IsInTurn (r : Receiver) (first number : ℕ) : Type 0 where
//!   pub held : IsSome (key_of r first number)
//!   pub later : highest_before r first number ≤ number
//! ```
//!
//! Definitions: [`Receiver`](crate::specs::receiving#Receiver), [`key_of`](crate::specs::receiving#key_of),
//! [`highest_before`](crate::specs::receiving#highest_before).
//!
//! <div id="updated"></div>
//!
//! ```text
//! -- The receiver after the next key first opened a packet: the next key becomes the current one, and the current one the previous
//! -- (section 6.2).
//! abbrev pub updated : Receiver → ℕ → Option PacketKey → Receiver
//! updated r number None = r
//! updated r number (Some key) =
//!     record r {
//!       current = key;
//!       next = None;
//!       previous = Some r.current;
//!       phase = not r.phase;
//!       lowest = number;
//!       highest = number;
//!       highest_previous = r.highest;
//!       highest_earlier = r.highest_previous;
//!     }
//! ```
//!
//! Definitions: [`Receiver`](crate::specs::receiving#Receiver), [`PacketKey`](crate::specs::keys#PacketKey).
//!
//! <div id="received"></div>
//!
//! ```text
//! -- the receiver after a packet was received
//! abbrev pub received : Receiver → ℕ → ℕ → Receiver
//! received r first number =
//!     if is_other_phase r first
//!     then (if nat_lt number r.lowest then record r { highest_previous = max r.highest_previous number } else updated r number r.next)
//!     else record r { lowest = min r.lowest number; highest = max r.highest number }
//! ```
//!
//! Definitions: [`Receiver`](crate::specs::receiving#Receiver),
//! [`is_other_phase`](crate::specs::receiving#is_other_phase), [`updated`](crate::specs::receiving#updated).
//!
//! <div id="reserved_bits"></div>
//!
//! ```text
//! -- the reserved bits of a long header (RFC 9000 section 17.2) and of a short one (section 17.3.1)
//! abbrev pub reserved_bits : ℕ → ℕ
//! reserved_bits first = bit_and first (if bit_and first 0x80 == 0x80 then 0x0c else 0x18)
//! ```
//!
//! <div id="header_len"></div>
//!
//! ```text
//! -- the length of the header, which ends with the packet number
//! abbrev pub header_len : ℕ → List ℕ → ℕ
//! header_len number_at plain = number_at + number_len (slice_index plain 0)
//! ```
//!
//! Definitions: [`number_len`](crate::specs::header#number_len).
//!
//! <div id="Reads"></div>
//!
//! ```text
//! -- What is read of a packet before it is opened: `plain`, the packet with its header unmasked (RFC 9001 section 5.4), and
//! -- `number`, which is decoded from the header (RFC 9000 appendix A.3).
//! pub record Reads (key : HeaderKey) (expected number_at : ℕ) (wire plain : List ℕ) (number : ℕ) : Type 0 where
//!   pub sample : HasSample number_at (length wire)
//!   pub unmasked : Unprotected key number_at wire plain
//!   pub decoded : IsDecoded expected (number_from_digits 256 (slice_range plain number_at (header_len number_at plain)))
//!       (number_len (slice_index plain 0)) number
//! ```
//!
//! Definitions: [`HeaderKey`](aead_ciphers::specs::header_protection#HeaderKey),
//! [`HasSample`](crate::specs::header#HasSample), [`Unprotected`](crate::specs::header#Unprotected),
//! [`IsDecoded`](crate::specs::numbers#IsDecoded), [`header_len`](crate::specs::receiving#header_len),
//! [`number_len`](crate::specs::header#number_len).
//!
//! <div id="IsAuthentic"></div>
//!
//! ```text
//! -- An unmasked packet is within the lengths of AES-GCM, and its tag matches its header, its payload and its number under the key
//! -- that it is opened with.
//! pub record IsAuthentic (r : Receiver) (number_at : ℕ) (plain : List ℕ) (number : ℕ) : Type 0 where
//!   pub fits : PacketFits (header_len number_at plain) (length plain)
//!   pub genuine : (let key = opening_key r (slice_index plain 0) number in
//!       IsGenuine key.bytes (xored_nonce key.iv number) (header_len number_at plain) plain)
//! ```
//!
//! Definitions: [`Receiver`](crate::specs::receiving#Receiver),
//! [`PacketFits`](aead_ciphers::specs::packet#PacketFits), [`header_len`](crate::specs::receiving#header_len),
//! [`opening_key`](crate::specs::receiving#opening_key), [`IsGenuine`](crate::specs::packet#IsGenuine),
//! [`xored_nonce`](aead_ciphers::specs::counting#xored_nonce).
//!
//! <div id="Opens"></div>
//!
//! ```text
//! -- The packet after it is opened: the plaintext payload follows the header.
//! abbrev pub Opens : (r : Receiver) (number_at : ℕ) (plain : List ℕ) (number : ℕ) → List ℕ → Type 0
//! Opens r number_at plain number opened =
//!     let key = opening_key r (slice_index plain 0) number in
//!     OpenedPacket key.bytes (xored_nonce key.iv number) (header_len number_at plain) plain true opened
//! ```
//!
//! Definitions: [`Receiver`](crate::specs::receiving#Receiver),
//! [`opening_key`](crate::specs::receiving#opening_key),
//! [`OpenedPacket`](aead_ciphers::specs::packet#OpenedPacket),
//! [`xored_nonce`](aead_ciphers::specs::counting#xored_nonce), [`header_len`](crate::specs::receiving#header_len).
//!
//! <div id="of_packet"></div>
//!
//! ```text
//! -- What is returned for a packet that is received and begins at byte `start` of its datagram.
//! abbrev pub of_packet : (start number_at : ℕ) (plain : List ℕ) (number : ℕ) → Received
//! of_packet start number_at plain number = record {
//!   number = number;
//!   payload = span (start + header_len number_at plain) (start + (length plain - tag_len));
//!   phase = has_phase (slice_index plain 0);
//! }
//! ```
//!
//! Definitions: [`span`](crate::specs::datagram#span), [`header_len`](crate::specs::receiving#header_len),
//! [`tag_len`](aead_ciphers::specs::gcm#tag_len), [`has_phase`](crate::specs::receiving#has_phase).
//!
//! ```text
//! -- The reasons for which a packet is rejected. Each definition gives the reason for each error, and ⊥ for an error that never
//! -- comes. No two reasons of a definition hold for one packet.
//! ```
//!
//! <div id="EarlyRefuses"></div>
//!
//! ```text
//! -- The reason for which a receiver doesn't read a packet of a datagram that has `len` bytes.
//! abbrev pub EarlyRefuses : (r : Receiver) (f : Failures) (parts : Packet) (len : ℕ) → ReceiveError → Type 0
//! EarlyRefuses r f parts len TooManyFailures = f.limit ≤ f.count
//! EarlyRefuses r f parts len PastEnd = (f.count < f.limit) × (len < parts.end)
//! EarlyRefuses r f parts len OtherVersion =
//!     (f.count < f.limit) × (parts.end ≤ len) × IsTrue (is_other_version r.version parts.version)
//! EarlyRefuses r f parts len NoNumber = (f.count < f.limit) × (parts.end ≤ len)
//!     × IsFalse (is_other_version r.version parts.version) × ¬ IsSome parts.number_at
//! EarlyRefuses r f parts len NumberAtFirstByte = (f.count < f.limit) × (parts.end ≤ len)
//!     × IsFalse (is_other_version r.version parts.version) × IsSome parts.number_at × (number_in parts ≡ 0)
//! EarlyRefuses r f parts len NoSample = (f.count < f.limit) × (parts.end ≤ len)
//!     × IsFalse (is_other_version r.version parts.version) × (0 < number_in parts)
//!     × (parts.end - parts.start < number_in parts + 20)
//! EarlyRefuses r f parts len error = ⊥
//! ```
//!
//! Definitions: [`Receiver`](crate::specs::receiving#Receiver), [`Failures`](crate::specs::failures#Failures),
//! [`is_other_version`](crate::specs::versions#is_other_version), [`number_in`](crate::specs::datagram#number_in).
//!
//! <div id="IsReadable"></div>
//!
//! ```text
//! -- A receiver reads the packet with these parts: the limit of failures isn't reached, and the packet ends within the datagram,
//! -- has no other version, and is long enough for a sample.
//! pub record IsReadable (r : Receiver) (f : Failures) (parts : Packet) (len : ℕ) : Type 0 where
//!   pub receiving : f.count < f.limit
//!   pub within : parts.end ≤ len
//!   pub of_version : IsFalse (is_other_version r.version parts.version)
//!   pub sample : HasSample (number_in parts) (parts.end - parts.start)
//! ```
//!
//! Definitions: [`Receiver`](crate::specs::receiving#Receiver), [`Failures`](crate::specs::failures#Failures),
//! [`is_other_version`](crate::specs::versions#is_other_version), [`HasSample`](crate::specs::header#HasSample),
//! [`number_in`](crate::specs::datagram#number_in).
//!
//! <div id="OpenRefuses"></div>
//!
//! ```text
//! -- The reason for which a packet that is read isn't opened.
//! abbrev pub OpenRefuses : (r : Receiver) (number_at : ℕ) (plain : List ℕ) (number : ℕ) → ReceiveError → Type 0
//! OpenRefuses r number_at plain number TooLong = ¬ PacketFits (header_len number_at plain) (length plain)
//! OpenRefuses r number_at plain number Refused =
//!     PacketFits (header_len number_at plain) (length plain) × ¬ IsAuthentic r number_at plain number
//! OpenRefuses r number_at plain number error = ⊥
//! ```
//!
//! Definitions: [`Receiver`](crate::specs::receiving#Receiver),
//! [`PacketFits`](aead_ciphers::specs::packet#PacketFits), [`header_len`](crate::specs::receiving#header_len),
//! [`IsAuthentic`](crate::specs::receiving#IsAuthentic).
//!
//! <div id="AcceptRefuses"></div>
//!
//! ```text
//! -- The reason for which a packet that is opened, with this first byte, isn't received.
//! abbrev pub AcceptRefuses : (r : Receiver) (s : Space) (first : ℕ) (packet : Received) → ReceiveError → Type 0
//! AcceptRefuses r s first packet ReservedBits = reserved_bits first ≢ 0
//! AcceptRefuses r s first packet Duplicate = (reserved_bits first ≡ 0) × ¬ IsNew s packet.number
//! AcceptRefuses r s first packet KeyUpdate =
//!     (reserved_bits first ≡ 0) × IsNew s packet.number × ¬ IsInTurn r first packet.number
//! AcceptRefuses r s first packet NoFrames = (reserved_bits first ≡ 0) × IsNew s packet.number × IsInTurn r first packet.number
//!     × (packet.payload.end ≤ packet.payload.start)
//! AcceptRefuses r s first packet error = ⊥
//! ```
//!
//! Definitions: [`Receiver`](crate::specs::receiving#Receiver), [`Space`](crate::specs::space#Space),
//! [`reserved_bits`](crate::specs::receiving#reserved_bits), [`IsNew`](crate::specs::space#IsNew),
//! [`IsInTurn`](crate::specs::receiving#IsInTurn).
//!
//! <div id="ReadRefuses"></div>
//!
//! ```text
//! -- The reason for which a packet that is read isn't received.
//! abbrev pub ReadRefuses : (r : Receiver) (s : Space) (start number_at : ℕ) (plain : List ℕ) (number : ℕ) → ReceiveError → Type 0
//! ReadRefuses r s start number_at plain number error = OpenRefuses r number_at plain number error
//!     ⊎ (IsAuthentic r number_at plain number
//!     × AcceptRefuses r s (slice_index plain 0) (of_packet start number_at plain number) error)
//! ```
//!
//! Definitions: [`Receiver`](crate::specs::receiving#Receiver), [`Space`](crate::specs::space#Space),
//! [`OpenRefuses`](crate::specs::receiving#OpenRefuses), [`IsAuthentic`](crate::specs::receiving#IsAuthentic),
//! [`AcceptRefuses`](crate::specs::receiving#AcceptRefuses), [`of_packet`](crate::specs::receiving#of_packet).
//!
//! <div id="IsAcceptable"></div>
//!
//! ```text
//! -- A packet that is opened, with this first byte, is received: its reserved bits are 0 (RFC 9000 sections 17.2 and 17.3.1), its
//! -- number is new (section 12.3), its key is in turn, and its payload is not empty (section 12.4).
//! pub record IsAcceptable (r : Receiver) (s : Space) (first : ℕ) (packet : Received) : Type 0 where
//!   pub unreserved : reserved_bits first ≡ 0
//!   pub new : IsNew s packet.number
//!   pub in_turn : IsInTurn r first packet.number
//!   pub frames : packet.payload.start < packet.payload.end
//! ```
//!
//! Definitions: [`Receiver`](crate::specs::receiving#Receiver), [`Space`](crate::specs::space#Space),
//! [`reserved_bits`](crate::specs::receiving#reserved_bits), [`IsNew`](crate::specs::space#IsNew),
//! [`IsInTurn`](crate::specs::receiving#IsInTurn).
//!
//! <div id="Opening"></div>
//!
//! ```text
//! -- The outcome of opening a packet that is read: its first byte and what is returned for it, or an error.
//! pub record Opening (r : Receiver) (start number_at : ℕ) (plain : List ℕ) (number : ℕ) (result : Result (ℕ × Received) ReceiveError)
//!     (opened : List ℕ) : Type 0 where
//!   pub accepted : IsOk result ↔ IsAuthentic r number_at plain number
//!   pub refused : IfErr result (OpenRefuses r number_at plain number)
//!   pub opens : OnOk result (Opens r number_at plain number opened)
//!   pub returns : IfOk result (λ packet. packet ≡ (slice_index plain 0, of_packet start number_at plain number))
//! ```
//!
//! Definitions: [`Receiver`](crate::specs::receiving#Receiver),
//! [`IsAuthentic`](crate::specs::receiving#IsAuthentic), [`OpenRefuses`](crate::specs::receiving#OpenRefuses),
//! [`Opens`](crate::specs::receiving#Opens), [`of_packet`](crate::specs::receiving#of_packet).
//!
//! <div id="Outcome"></div>
//!
//! ```text
//! -- The outcome of a packet that is read: it is received, or rejected for a reason. An authentic packet is opened in place, even
//! -- if it is then rejected.
//! pub record Outcome (r : Receiver) (s : Space) (start number_at : ℕ) (plain : List ℕ) (number : ℕ) (result : Result Received ReceiveError)
//!     (r' : Receiver) (opened : List ℕ) : Type 0 where
//!   pub accepted : IsOk result ↔ (IsAuthentic r number_at plain number
//!       × IsAcceptable r s (slice_index plain 0) (of_packet start number_at plain number))
//!   pub refused : IfErr result (ReadRefuses r s start number_at plain number)
//!   pub opens : IsAuthentic r number_at plain number → Opens r number_at plain number opened
//!   pub returns : IfOk result (λ packet. packet ≡ of_packet start number_at plain number)
//!   pub moves_on : OnOk result (r' ≡ received r (slice_index plain 0) number)
//! ```
//!
//! Definitions: [`Receiver`](crate::specs::receiving#Receiver), [`Space`](crate::specs::space#Space),
//! [`IsAuthentic`](crate::specs::receiving#IsAuthentic), [`IsAcceptable`](crate::specs::receiving#IsAcceptable),
//! [`of_packet`](crate::specs::receiving#of_packet), [`ReadRefuses`](crate::specs::receiving#ReadRefuses),
//! [`Opens`](crate::specs::receiving#Opens), [`received`](crate::specs::receiving#received).
//!
//! <div id="is_of_opened"></div>
//!
//! ```text
//! -- the errors of a packet that is authentic, and is opened in place
//! abbrev pub is_of_opened : ReceiveError → Bool
//! is_of_opened ReservedBits = true
//! is_of_opened Duplicate = true
//! is_of_opened KeyUpdate = true
//! is_of_opened NoFrames = true
//! is_of_opened _ = false
//! ```
//!
//! <div id="failures_after"></div>
//!
//! ```text
//! -- The count of packets that have failed authentication, once a packet with this result is counted.
//! abbrev pub failures_after : Failures → Result Received ReceiveError → Failures
//! failures_after f (Err Refused) = record f { count = f.count + 1 }
//! failures_after f result = f
//! ```
//!
//! Definitions: [`Failures`](crate::specs::failures#Failures).
//!
//! <div id="ReceiveOutcome"></div>
//!
//! ```text
//! -- The outcome of giving a packet with these parts of a datagram to a receiver: the result, and the receiver, the space of
//! -- numbers, the count of failures and the datagram after the call. `refused` and `readable` say whether the packet was read, and
//! -- `read` what follows if it was.
//! pub record ReceiveOutcome (r : Receiver) (s : Space) (f : Failures) (parts : Packet) (old : List ℕ)
//!     (result : Result Received ReceiveError) (r' : Receiver) (s' : Space) (f' : Failures) (new : List ℕ) : Type 0 where
//!   pub readable : OnOk result (IsReadable r f parts (length old))
//!   pub refused : IfErr result (λ error. EarlyRefuses r f parts (length old) error ⊎ IsReadable r f parts (length old))
//!   pub read : IsReadable r f parts (length old) → (plain : List ℕ) × (number : ℕ)
//!       × Reads r.header s.next (number_in parts) (bytes_of parts old) plain number
//!       × Outcome r s parts.start (number_in parts) plain number result r' (bytes_of parts new)
//!   pub payload : IfOk result (λ p. (parts.start < p.payload.start) × (p.payload.start ≤ p.payload.end)
//!       × (p.payload.end + tag_len ≡ parts.end) × (parts.end ≤ length old))
//!   pub marked : IfOk result (λ p. IsNew s p.number × Marks s p.number s')
//!   pub counted : f' ≡ failures_after f result
//!   pub kept : OnErr result ((r' ≡ r) × (s' ≡ s))
//!   pub bytes_kept : IfErr result (λ error. is_of_opened error ≡ false → new ≡ old)
//!   pub outside : KeepsOutside parts.start parts.end old new
//! ```
//!
//! Definitions: [`Receiver`](crate::specs::receiving#Receiver), [`Space`](crate::specs::space#Space),
//! [`Failures`](crate::specs::failures#Failures), [`IsReadable`](crate::specs::receiving#IsReadable),
//! [`EarlyRefuses`](crate::specs::receiving#EarlyRefuses), [`Reads`](crate::specs::receiving#Reads),
//! [`number_in`](crate::specs::datagram#number_in), [`bytes_of`](crate::specs::datagram#bytes_of),
//! [`Outcome`](crate::specs::receiving#Outcome), [`tag_len`](aead_ciphers::specs::gcm#tag_len),
//! [`IsNew`](crate::specs::space#IsNew), [`Marks`](crate::specs::space#Marks),
//! [`failures_after`](crate::specs::receiving#failures_after),
//! [`is_of_opened`](crate::specs::receiving#is_of_opened), [`KeepsOutside`](crate::specs::datagram#KeepsOutside).
