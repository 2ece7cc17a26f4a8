// Written by tools/rust from crates/quic_packets/specs/Sending.antt. Don't edit.
//! Sending packets in one space of packet numbers: the state of a sender, the packets that it makes, and its runs (RFC 9000
//! section 17, RFC 9001 sections 5 and 6).
//!
//! The definitions of `crates/quic_packets/specs/Sending.antt` of the repository.
//!
//! <div id="Sender"></div>
//!
//! ```text
//! -- The state of a sender.
//! pub record Sender : Type 0 where
//!   -- the version of its packets
//!   pub version : Version
//!   -- the key and the header key under which it sends
//!   pub key : PacketKey
//!   pub header_key : HeaderKey
//!   -- the secret of the key, if the sender was created from one
//!   pub secret : Option QuicSecretState
//!   -- the number of the next packet
//!   pub next : ℕ
//!   -- the largest acknowledged number of its space
//!   pub largest : Option ℕ
//!   -- the ranges of skipped numbers that are kept
//!   pub skipped : List Gap
//!   -- the Key Phase bit
//!   pub phase : Bool
//!   -- how many packets the key has sealed, and how many it may seal
//!   pub sealed : ℕ
//!   pub limit : ℕ
//!   -- the lowest number of this phase from which on each skipped number is in one of the ranges
//!   pub first : ℕ
//!   -- the next number when this phase began
//!   pub first_of_phase : ℕ
//!   -- the keys were never updated, or a packet of this phase is acknowledged
//!   pub acknowledged : Bool
//!   -- the handshake is confirmed
//!   pub confirmed : Bool
//! ```
//!
//! Definitions: [`PacketKey`](crate::specs::keys#PacketKey),
//! [`HeaderKey`](aead_ciphers::specs::header_protection#HeaderKey),
//! [`QuicSecretState`](key_derivation::specs::quic#QuicSecretState).
//!
//! <div id="HasKeyLengths"></div>
//!
//! ```text
//! -- keys with the lengths of a suite
//! pub record HasKeyLengths (suite : Suite) (key header_key : List ℕ) : Type 0 where
//!   pub key_len : length key ≡ key_len (algorithm suite)
//!   pub header_key_len : length header_key ≡ header_key_len (header_algorithm suite)
//! ```
//!
//! Definitions: [`algorithm`](crate::specs::suite#algorithm),
//! [`header_algorithm`](crate::specs::suite#header_algorithm).
//!
//! <div id="new_sender"></div>
//!
//! ```text
//! -- a sender with its first key, which may seal 2^23 packets (RFC 9001 section 6.6)
//! abbrev pub new_sender : Version → PacketKey → HeaderKey → Option QuicSecretState → ℕ → Sender
//! new_sender version key header_key secret first = record {
//!   version = version;
//!   key = key;
//!   header_key = header_key;
//!   secret = secret;
//!   next = first;
//!   largest = None;
//!   skipped = no_gaps;
//!   phase = false;
//!   sealed = 0;
//!   limit = 2 ^ 23;
//!   first = first;
//!   first_of_phase = first;
//!   acknowledged = true;
//!   confirmed = false;
//! }
//! ```
//!
//! Definitions: [`PacketKey`](crate::specs::keys#PacketKey),
//! [`HeaderKey`](aead_ciphers::specs::header_protection#HeaderKey),
//! [`QuicSecretState`](key_derivation::specs::quic#QuicSecretState), [`Sender`](crate::specs::sending#Sender),
//! [`no_gaps`](crate::specs::skipped#no_gaps).
//!
//! ```text
//! -- The header.
//! ```
//!
//! <div id="is_long"></div>
//!
//! ```text
//! -- a long header (RFC 9000 section 17.2)
//! abbrev pub is_long : ℕ → Bool
//! is_long first = bit_and first 0x80 == 0x80
//! ```
//!
//! <div id="is_retry_or_version_negotiation"></div>
//!
//! ```text
//! -- a long header of a type without protection: Version Negotiation, whose version is 0, or Retry, by its type bits in this
//! -- version (RFC 9000 sections 17.2.1 and 17.2.5, RFC 9369 section 3.2)
//! abbrev pub is_retry_or_version_negotiation : Version → List ℕ → Bool
//! is_retry_or_version_negotiation version packet =
//!     is_long (slice_index packet 0) && (bits_of (slice_index packet 0) == (type_bits version).retry
//!     || (slice_index packet 1 == 0 && slice_index packet 2 == 0 && slice_index packet 3 == 0 && slice_index packet 4 == 0))
//! ```
//!
//! Definitions: [`is_long`](crate::specs::sending#is_long), [`bits_of`](crate::specs::versions#bits_of),
//! [`type_bits`](crate::specs::versions#type_bits).
//!
//! <div id="first_byte"></div>
//!
//! ```text
//! -- the first byte before protection: the length of the packet number less one in the low two bits, the reserved bits 0, the key
//! -- phase in a short header, and the other bits unchanged (RFC 9000 sections 17.2 and 17.3.1)
//! abbrev pub first_byte : Bool → ℕ → ℕ → ℕ
//! first_byte phase n first =
//!     if is_long first then bit_or (bit_and first 0xf0) (n - 1)
//!     else bit_or (bit_or (bit_and first 0xe0) (if phase then 0x04 else 0)) (n - 1)
//! ```
//!
//! Definitions: [`is_long`](crate::specs::sending#is_long).
//!
//! <div id="numbered_packet"></div>
//!
//! ```text
//! -- a packet with its first byte, and its number from byte `start` up to `end`
//! abbrev pub numbered_packet : Bool → (number start end : ℕ) → List ℕ → List ℕ
//! numbered_packet phase number start end packet =
//!     slice_set (take start packet ++ (low_bytes (end - start) number ++ drop end packet)) 0
//!     (first_byte phase (end - start) (slice_index packet 0))
//! ```
//!
//! Definitions: [`low_bytes`](crate::specs::packet#low_bytes), [`first_byte`](crate::specs::sending#first_byte).
//!
//! ```text
//! -- One packet.
//! ```
//!
//! <div id="header_version"></div>
//!
//! ```text
//! -- the version in a long header (RFC 8999 section 5.1). A short header has none.
//! abbrev pub header_version : List ℕ → Option ℕ
//! header_version packet = if is_long (slice_index packet 0) then Some (version_of packet 0) else None
//! ```
//!
//! Definitions: [`is_long`](crate::specs::sending#is_long), [`version_of`](crate::specs::datagram#version_of).
//!
//! <div id="IsSealable"></div>
//!
//! ```text
//! -- A packet that can be sealed and protected in this version, whatever its number. Its payload is not empty (RFC 9000 section
//! -- 12.4).
//! pub record IsSealable (version : Version) (fixed_bit : FixedBit) (start end : ℕ) (packet : List ℕ) : Type 0 where
//!   pub fits : PacketFits end (length packet)
//!   pub sample : HasSample start (length packet)
//!   pub protected : is_retry_or_version_negotiation version packet ≡ false
//!   pub of_version : is_other_version version (header_version packet) ≡ false
//!   pub fixed : lacks_fixed_bit fixed_bit (header_version packet) (slice_index packet 0) ≡ false
//!   pub payload : end + tag_len < length packet
//! ```
//!
//! Definitions: [`PacketFits`](aead_ciphers::specs::packet#PacketFits),
//! [`HasSample`](crate::specs::header#HasSample),
//! [`is_retry_or_version_negotiation`](crate::specs::sending#is_retry_or_version_negotiation),
//! [`is_other_version`](crate::specs::versions#is_other_version),
//! [`header_version`](crate::specs::sending#header_version),
//! [`lacks_fixed_bit`](crate::specs::fixed_bit#lacks_fixed_bit), [`tag_len`](aead_ciphers::specs::gcm#tag_len).
//!
//! <div id="IsOpen"></div>
//!
//! ```text
//! -- the key may seal another packet, and a number is left
//! pub record IsOpen (s : Sender) : Type 0 where
//!   pub unused : s.sealed < s.limit
//!   pub left : IsNumber s.next
//! ```
//!
//! Definitions: [`Sender`](crate::specs::sending#Sender), [`IsNumber`](crate::specs::packet#IsNumber).
//!
//! <div id="IsEncodable"></div>
//!
//! ```text
//! -- 4 bytes represent the next number (RFC 9000 section 17.1)
//! abbrev pub IsEncodable : Sender → Type 0
//! IsEncodable s = Represents 4 (unacknowledged s.next s.largest)
//! ```
//!
//! Definitions: [`Sender`](crate::specs::sending#Sender), [`Represents`](crate::specs::numbers#Represents),
//! [`unacknowledged`](crate::specs::numbers#unacknowledged).
//!
//! <div id="IsRoom"></div>
//!
//! ```text
//! -- the room for a number has 1 to 4 bytes, and they represent it (RFC 9000 section 17.1)
//! pub record IsRoom (number : ℕ) (largest : Option ℕ) (start end : ℕ) : Type 0 where
//!   pub some : start < end
//!   pub few : end ≤ start + 4
//!   pub represents : Represents (end - start) (unacknowledged number largest)
//! ```
//!
//! Definitions: [`Represents`](crate::specs::numbers#Represents),
//! [`unacknowledged`](crate::specs::numbers#unacknowledged).
//!
//! <div id="IsInTurn"></div>
//!
//! ```text
//! -- the next number can be sent in this room
//! pub record IsInTurn (s : Sender) (start end : ℕ) : Type 0 where
//!   pub is_open : IsOpen s
//!   pub encodable : IsEncodable s
//!   pub room : IsRoom s.next s.largest start end
//! ```
//!
//! Definitions: [`Sender`](crate::specs::sending#Sender), [`IsOpen`](crate::specs::sending#IsOpen),
//! [`IsEncodable`](crate::specs::sending#IsEncodable), [`IsRoom`](crate::specs::sending#IsRoom).
//!
//! <div id="IsSent"></div>
//!
//! ```text
//! -- The packet is sent: the next number is written to it, and it is sealed and protected.
//! abbrev pub IsSent : Sender → (start end : ℕ) → List ℕ → List ℕ → Type 0
//! IsSent s start end old new =
//!     Protected s.header_key start
//!     (sealed_packet s.key.bytes (xored_nonce s.key.iv s.next) end (numbered_packet s.phase s.next start end old)) new
//! ```
//!
//! Definitions: [`Sender`](crate::specs::sending#Sender), [`Protected`](crate::specs::header#Protected),
//! [`sealed_packet`](aead_ciphers::specs::packet#sealed_packet),
//! [`xored_nonce`](aead_ciphers::specs::counting#xored_nonce),
//! [`numbered_packet`](crate::specs::sending#numbered_packet).
//!
//! ```text
//! -- The state after a call.
//! ```
//!
//! <div id="after_send"></div>
//!
//! ```text
//! -- after a packet is sent
//! abbrev pub after_send : Sender → Sender
//! after_send s = record s { next = s.next + 1; sealed = s.sealed + 1 }
//! ```
//!
//! Definitions: [`Sender`](crate::specs::sending#Sender).
//!
//! <div id="after_skip"></div>
//!
//! ```text
//! -- The state after a skip. The numbers that are left unused, if there are any, are kept as a range, for which another one may be
//! -- forgotten.
//! abbrev pub after_skip : Sender → ℕ → Sender
//! after_skip s number = record s {
//!   next = number;
//!   skipped = if nat_lt s.next number then with_gap s.skipped s.next number else s.skipped;
//!   first = if nat_lt s.next number then max s.first (forgotten s.skipped s.next) else s.first;
//! }
//! ```
//!
//! Definitions: [`Sender`](crate::specs::sending#Sender), [`with_gap`](crate::specs::skipped#with_gap),
//! [`forgotten`](crate::specs::skipped#forgotten).
//!
//! <div id="raised"></div>
//!
//! ```text
//! -- the largest acknowledged number once this one is acknowledged too
//! abbrev pub raised : Option ℕ → ℕ → Option ℕ
//! raised None number = Some number
//! raised (Some largest) number = Some (max largest number)
//! ```
//!
//! <div id="is_unsent"></div>
//!
//! ```text
//! -- the number was not sent: it is not below the next one, or it is in a range of skipped numbers that is kept (RFC 9000 section
//! -- 13.1)
//! abbrev pub is_unsent : Sender → ℕ → Bool
//! is_unsent s number = nat_le s.next number || is_skipped s.skipped number
//! ```
//!
//! Definitions: [`Sender`](crate::specs::sending#Sender), [`is_skipped`](crate::specs::skipped#is_skipped).
//!
//! <div id="after_acknowledgement"></div>
//!
//! ```text
//! -- The state after an acknowledgment of a number that is not known as unsent. It allows a key update if the number is of this
//! -- phase, and not so low that it may lie in a range that was forgotten (RFC 9001 section 6.1).
//! abbrev pub after_acknowledgement : Sender → ℕ → Sender
//! after_acknowledgement s number =
//!     record s { largest = raised s.largest number; acknowledged = s.acknowledged || nat_le s.first number }
//! ```
//!
//! Definitions: [`Sender`](crate::specs::sending#Sender), [`raised`](crate::specs::sending#raised).
//!
//! <div id="IsUnanswered"></div>
//!
//! ```text
//! -- The packet that is acknowledged is of this phase, and the acknowledgment came in a packet of the other phase. That packet is
//! -- of older keys, once this endpoint has followed the peer's updates (RFC 9001 section 6.2).
//! pub record IsUnanswered (s : Sender) (number : ℕ) (phase : Bool) : Type 0 where
//!   pub of_phase : s.first_of_phase ≤ number
//!   pub older : phase ≢ s.phase
//! ```
//!
//! Definitions: [`Sender`](crate::specs::sending#Sender).
//!
//! <div id="after_update"></div>
//!
//! ```text
//! -- The state after a key update: the packet key is new, the header key stays, the key phase is the other one, and the count
//! -- begins at 0 again (RFC 9001 sections 6 and 6.6).
//! abbrev pub after_update : Sender → PacketKey → Option QuicSecretState → Sender
//! after_update s key secret = record s {
//!   key = key;
//!   secret = secret;
//!   phase = not s.phase;
//!   sealed = 0;
//!   first = s.next;
//!   first_of_phase = s.next;
//!   acknowledged = false;
//! }
//! ```
//!
//! Definitions: [`Sender`](crate::specs::sending#Sender), [`PacketKey`](crate::specs::keys#PacketKey),
//! [`QuicSecretState`](key_derivation::specs::quic#QuicSecretState).
//!
//! <div id="after_derived_update"></div>
//!
//! ```text
//! -- The state after a key update to the secret that follows the one held (RFC 9001 section 6.1).
//! abbrev pub after_derived_update : Sender → QuicSecretState → Sender
//! after_derived_update s held = let next = next_quic_secret held in after_update s (secret_key next) (Some next)
//! ```
//!
//! Definitions: [`Sender`](crate::specs::sending#Sender),
//! [`QuicSecretState`](key_derivation::specs::quic#QuicSecretState),
//! [`next_quic_secret`](key_derivation::specs::quic#next_quic_secret),
//! [`after_update`](crate::specs::sending#after_update), [`secret_key`](crate::specs::keys#secret_key).
//!
//! <div id="with_installed_keys"></div>
//!
//! ```text
//! -- The state after other keys are installed: the keys of 1-RTT packets after those of 0-RTT packets, or other keys of Initial
//! -- packets after a Retry packet. The packet numbers continue (RFC 9000 sections 12.3 and 17.2.5.3).
//! abbrev pub with_installed_keys : Sender → Version → PacketKey → HeaderKey → Option QuicSecretState → Sender
//! with_installed_keys s version key header_key secret =
//!     record (new_sender version key header_key secret s.next) { largest = s.largest; skipped = s.skipped; limit = s.limit }
//! ```
//!
//! Definitions: [`Sender`](crate::specs::sending#Sender), [`PacketKey`](crate::specs::keys#PacketKey),
//! [`HeaderKey`](aead_ciphers::specs::header_protection#HeaderKey),
//! [`QuicSecretState`](key_derivation::specs::quic#QuicSecretState),
//! [`new_sender`](crate::specs::sending#new_sender).
//!
//! ```text
//! -- The reasons for which a packet is refused. Each definition gives the reason for each error, and ⊥ for an error that never
//! -- comes. No two reasons hold for one packet.
//! ```
//!
//! <div id="PacketRefuses"></div>
//!
//! ```text
//! -- The reason for which a packet whose number is written from byte `start` up to `end` can't be sealed and protected in this
//! -- version.
//! abbrev pub PacketRefuses : (version : Version) (fixed_bit : FixedBit) (start end : ℕ) (packet : List ℕ) → SendError → Type 0
//! PacketRefuses version fixed_bit start end packet TooShort = length packet < end + tag_len
//! PacketRefuses version fixed_bit start end packet TooLong = (end + tag_len ≤ length packet) × ¬ Fits end (length packet - tag_len - end)
//! PacketRefuses version fixed_bit start end packet NumberAtFirstByte = PacketFits end (length packet) × (start ≡ 0)
//! PacketRefuses version fixed_bit start end packet NoSample =
//!     PacketFits end (length packet) × (0 < start) × (length packet < start + 20)
//! PacketRefuses version fixed_bit start end packet NoProtection =
//!     PacketFits end (length packet) × HasSample start (length packet) × IsTrue (is_retry_or_version_negotiation version packet)
//! PacketRefuses version fixed_bit start end packet OtherVersion =
//!     PacketFits end (length packet) × HasSample start (length packet) × IsFalse (is_retry_or_version_negotiation version packet)
//!     × IsTrue (is_other_version version (header_version packet))
//! PacketRefuses version fixed_bit start end packet NoFixedBit =
//!     PacketFits end (length packet) × HasSample start (length packet) × IsFalse (is_retry_or_version_negotiation version packet)
//!     × IsFalse (is_other_version version (header_version packet))
//!     × IsTrue (lacks_fixed_bit fixed_bit (header_version packet) (slice_index packet 0))
//! PacketRefuses version fixed_bit start end packet EmptyPayload =
//!     PacketFits end (length packet) × HasSample start (length packet) × IsFalse (is_retry_or_version_negotiation version packet)
//!     × IsFalse (is_other_version version (header_version packet))
//!     × IsFalse (lacks_fixed_bit fixed_bit (header_version packet) (slice_index packet 0)) × (length packet ≡ end + tag_len)
//! PacketRefuses version fixed_bit start end packet error = ⊥
//! ```
//!
//! Definitions: [`tag_len`](aead_ciphers::specs::gcm#tag_len), [`Fits`](aead_ciphers::specs::gcm#Fits),
//! [`PacketFits`](aead_ciphers::specs::packet#PacketFits), [`HasSample`](crate::specs::header#HasSample),
//! [`is_retry_or_version_negotiation`](crate::specs::sending#is_retry_or_version_negotiation),
//! [`is_other_version`](crate::specs::versions#is_other_version),
//! [`header_version`](crate::specs::sending#header_version),
//! [`lacks_fixed_bit`](crate::specs::fixed_bit#lacks_fixed_bit).
//!
//! <div id="NumberRefuses"></div>
//!
//! ```text
//! -- The reason for which a sender has no number for a packet, or none that can be written from byte `start` up to `end`.
//! abbrev pub NumberRefuses : (s : Sender) (start end : ℕ) → SendError → Type 0
//! NumberRefuses s start end KeyUsedUp = s.limit ≤ s.sealed
//! NumberRefuses s start end NumbersEnded = (s.sealed < s.limit) × (s.next ≡ 2 ^ 62)
//! NumberRefuses s start end NumberTooFar = IsOpen s × ¬ IsEncodable s
//! NumberRefuses s start end NumberLength = IsOpen s × IsEncodable s × ¬ IsRoom s.next s.largest start end
//! NumberRefuses s start end error = ⊥
//! ```
//!
//! Definitions: [`Sender`](crate::specs::sending#Sender), [`IsOpen`](crate::specs::sending#IsOpen),
//! [`IsEncodable`](crate::specs::sending#IsEncodable), [`IsRoom`](crate::specs::sending#IsRoom).
//!
//! <div id="SenderRefuses"></div>
//!
//! ```text
//! -- The reason for which a sender doesn't send a packet whose number is written from byte `start` up to `end`.
//! abbrev pub SenderRefuses : (s : Sender) (fixed_bit : FixedBit) (start end : ℕ) (packet : List ℕ) → SendError → Type 0
//! SenderRefuses s fixed_bit start end packet error = PacketRefuses s.version fixed_bit start end packet error
//!     ⊎ (IsSealable s.version fixed_bit start end packet × NumberRefuses s start end error)
//! ```
//!
//! Definitions: [`Sender`](crate::specs::sending#Sender), [`PacketRefuses`](crate::specs::sending#PacketRefuses),
//! [`IsSealable`](crate::specs::sending#IsSealable), [`NumberRefuses`](crate::specs::sending#NumberRefuses).
//!
//! <div id="left"></div>
//!
//! ```text
//! -- The number of packets that the key may still seal (RFC 9001 section 6.6).
//! abbrev pub left : Sender → ℕ
//! left s = s.limit - s.sealed
//! ```
//!
//! Definitions: [`Sender`](crate::specs::sending#Sender).
//!
//! <div id="SendOutcome"></div>
//!
//! ```text
//! -- The outcome of sending a packet for a caller that keeps `kept_for_close` packets of the sender's key for the packet that
//! -- closes the connection. Either the packet is sent, `returned` is returned, and the caller's state becomes `after`; or it is
//! -- refused for a reason, and neither the packet nor the caller's state changes.
//! pub record SendOutcome {T State : Type 0} (s : Sender) (kept_for_close : ℕ) (fixed_bit : FixedBit) (start end : ℕ)
//!     (Refuses : SendError → Type 0) (old new : List ℕ) (result : Result T SendError) (returned : T) (before now after : State)
//!     : Type 0 where
//!   pub accepted : IsOk result
//!       ↔ ((kept_for_close < left s) × IsSealable s.version fixed_bit start end old × IsInTurn s start end)
//!   pub refused : IfErr result Refuses
//!   pub sent : OnOk result (IsSent s start end old new)
//!   pub returns : IfOk result (λ value. value ≡ returned)
//!   pub counted : OnOk result (now ≡ after)
//!   pub kept : OnErr result ((new ≡ old) × (now ≡ before))
//! ```
//!
//! Definitions: [`Sender`](crate::specs::sending#Sender), [`left`](crate::specs::sending#left),
//! [`IsSealable`](crate::specs::sending#IsSealable), [`IsInTurn`](crate::specs::sending#IsInTurn),
//! [`IsSent`](crate::specs::sending#IsSent).
//!
//! <div id="Runs"></div>
//!
//! ```text
//! -- The state of a sender after any calls, and the numbers that it sealed under, in one list for each key. A call leaves one of
//! -- the states above, or fails and leaves the sender unchanged.
//! pub data Runs : Sender → Sender → List (List ℕ) → Type 0 where
//!   none : (s : Sender) → Runs s s ([] ∷ [])
//!   sends : (s t : Sender) (numbers : List ℕ) (later : List (List ℕ)) → IsOpen s → Runs (after_send s) t (numbers ∷ later)
//!       → Runs s t ((s.next ∷ numbers) ∷ later)
//!   skips : (s t : Sender) (by_key : List (List ℕ)) (number : ℕ) → s.next ≤ number → Runs (after_skip s number) t by_key → Runs s t by_key
//!   hears : (s t : Sender) (by_key : List (List ℕ)) (number : ℕ) → number < s.next → Runs (after_acknowledgement s number) t by_key → Runs s t by_key
//!   confirms : (s t : Sender) (by_key : List (List ℕ)) → Runs (record s { confirmed = true }) t by_key → Runs s t by_key
//!   lowers : (s t : Sender) (by_key : List (List ℕ)) (limit : ℕ) → Runs (record s { limit = min s.limit limit }) t by_key → Runs s t by_key
//!   updates : (s t : Sender) (by_key : List (List ℕ)) (key : PacketKey) (secret : Option QuicSecretState)
//!       → Runs (after_update s key secret) t by_key → Runs s t ([] ∷ by_key)
//!   goes_on : (s t : Sender) (by_key : List (List ℕ)) (version : Version) (key : PacketKey) (header_key : HeaderKey)
//!       (secret : Option QuicSecretState) → Runs (with_installed_keys s version key header_key secret) t by_key → Runs s t ([] ∷ by_key)
//! ```
//!
//! Definitions: [`Sender`](crate::specs::sending#Sender), [`IsOpen`](crate::specs::sending#IsOpen),
//! [`after_send`](crate::specs::sending#after_send), [`after_skip`](crate::specs::sending#after_skip),
//! [`after_acknowledgement`](crate::specs::sending#after_acknowledgement),
//! [`PacketKey`](crate::specs::keys#PacketKey), [`QuicSecretState`](key_derivation::specs::quic#QuicSecretState),
//! [`after_update`](crate::specs::sending#after_update),
//! [`HeaderKey`](aead_ciphers::specs::header_protection#HeaderKey),
//! [`with_installed_keys`](crate::specs::sending#with_installed_keys).
