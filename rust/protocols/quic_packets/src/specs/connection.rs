// Written by tools/rust from crates/quic_packets/specs/Connection.antt. Don't edit.
//! The state of one endpoint of a connection, and what becomes of a packet that it sends or receives (RFC 9000 sections 12.2 and
//! 12.3, RFC 9001 sections 4.9, 5.7 and 6).
//!
//! The definitions of `crates/quic_packets/specs/Connection.antt` of the repository.
//!
//! <div id="Connection"></div>
//!
//! ```text
//! -- The state of one endpoint of a connection.
//! pub record Connection : Type 0 where
//!   -- its three encryption levels
//!   pub initial : Ends
//!   pub handshake : Ends
//!   pub one_rtt : Ends
//!   -- the receiver of 0-RTT packets, which shares the space of 1-RTT packets, and whether its keys were discarded
//!   pub zero_rtt : Option Receiver
//!   pub zero_rtt_discarded : Bool
//!   -- the count of packets that have failed authentication
//!   pub failures : Failures
//!   -- the number of packets that each key of a new sender may seal
//!   pub limit : ℕ
//!   -- what the fixed bit must be in a packet that arrives, and in one that is sent
//!   pub fixed_bit : FixedBit
//!   pub peer_fixed_bit : FixedBit
//! ```
//!
//! Definitions: [`Ends`](crate::specs::ends#Ends), [`Receiver`](crate::specs::receiving#Receiver),
//! [`Failures`](crate::specs::failures#Failures).
//!
//! <div id="ends_of"></div>
//!
//! ```text
//! abbrev pub ends_of : Connection → Level → Ends
//! ends_of c InitialLevel = c.initial
//! ends_of c HandshakeLevel = c.handshake
//! ends_of c OneRttLevel = c.one_rtt
//! ```
//!
//! Definitions: [`Connection`](crate::specs::connection#Connection), [`Ends`](crate::specs::ends#Ends).
//!
//! <div id="with_ends"></div>
//!
//! ```text
//! abbrev pub with_ends : Connection → Level → Ends → Connection
//! with_ends c InitialLevel ends = record c { initial = ends }
//! with_ends c HandshakeLevel ends = record c { handshake = ends }
//! with_ends c OneRttLevel ends = record c { one_rtt = ends }
//! ```
//!
//! Definitions: [`Connection`](crate::specs::connection#Connection), [`Ends`](crate::specs::ends#Ends).
//!
//! <div id="is_one_rtt"></div>
//!
//! ```text
//! abbrev pub is_one_rtt : Level → Bool
//! is_one_rtt OneRttLevel = true
//! is_one_rtt _ = false
//! ```
//!
//! <div id="kept_for_close_at"></div>
//!
//! ```text
//! -- This many packets of a level's key are kept for the packet that closes the connection (RFC 9001 section 6.6).
//! abbrev pub kept_for_close_at : Connection → Level → ℕ
//! kept_for_close_at c OneRttLevel = kept_for_close c.one_rtt
//! kept_for_close_at c _ = 1
//! ```
//!
//! Definitions: [`Connection`](crate::specs::connection#Connection),
//! [`kept_for_close`](crate::specs::ends#kept_for_close).
//!
//! <div id="after_sending"></div>
//!
//! ```text
//! -- The state of a level after its sender has sent a packet. After a 1-RTT packet, a key update is initiated if it is due and
//! -- allowed, and the receiver has its next key (RFC 9001 section 6.1).
//! abbrev pub after_sending : Level → Ends → Sender → Ends
//! after_sending OneRttLevel e s = with_next_key (updated_if_due (sent e s))
//! after_sending _ e s = sent e s
//! ```
//!
//! Definitions: [`Ends`](crate::specs::ends#Ends), [`Sender`](crate::specs::sending#Sender),
//! [`with_next_key`](crate::specs::ends#with_next_key), [`updated_if_due`](crate::specs::ends#updated_if_due),
//! [`sent`](crate::specs::ends#sent).
//!
//! <div id="updates_after"></div>
//!
//! ```text
//! -- A key update follows the packet that the sender of a level sends: after a 1-RTT packet, if one is then due and allowed.
//! abbrev pub updates_after : Level → Ends → Sender → Bool
//! updates_after OneRttLevel e s = initiates_update (sent e s)
//! updates_after _ e s = false
//! ```
//!
//! Definitions: [`Ends`](crate::specs::ends#Ends), [`Sender`](crate::specs::sending#Sender),
//! [`initiates_update`](crate::specs::ends#initiates_update), [`sent`](crate::specs::ends#sent).
//!
//! ```text
//! -- For packets of each type: the receiver that opens them, if its keys are installed, and the space that counts their numbers
//! -- (RFC 9000 section 12.3).
//! ```
//!
//! <div id="type_has_keys"></div>
//!
//! ```text
//! abbrev pub type_has_keys : PacketType → Bool
//! type_has_keys Initial = true
//! type_has_keys ZeroRtt = true
//! type_has_keys Handshake = true
//! type_has_keys OneRtt = true
//! type_has_keys _ = false
//! ```
//!
//! <div id="receiver_of"></div>
//!
//! ```text
//! abbrev pub receiver_of : Connection → PacketType → Option Receiver
//! receiver_of c Initial = c.initial.receiver
//! receiver_of c ZeroRtt = c.zero_rtt
//! receiver_of c Handshake = c.handshake.receiver
//! receiver_of c OneRtt = c.one_rtt.receiver
//! receiver_of c _ = None
//! ```
//!
//! Definitions: [`Connection`](crate::specs::connection#Connection),
//! [`Receiver`](crate::specs::receiving#Receiver).
//!
//! <div id="is_discarded"></div>
//!
//! ```text
//! -- The keys of packets of this type were discarded (RFC 9001 section 4.9), or there never will be any.
//! abbrev pub is_discarded : Connection → PacketType → Bool
//! is_discarded c Initial = c.initial.discarded
//! is_discarded c ZeroRtt = c.zero_rtt_discarded
//! is_discarded c Handshake = c.handshake.discarded
//! is_discarded c OneRtt = c.one_rtt.discarded
//! is_discarded c _ = false
//! ```
//!
//! Definitions: [`Connection`](crate::specs::connection#Connection).
//!
//! <div id="space_of"></div>
//!
//! ```text
//! abbrev pub space_of : Connection → PacketType → Space
//! space_of c Initial = c.initial.space
//! space_of c Handshake = c.handshake.space
//! space_of c _ = c.one_rtt.space
//! ```
//!
//! Definitions: [`Connection`](crate::specs::connection#Connection), [`Space`](crate::specs::space#Space).
//!
//! <div id="with_receiver"></div>
//!
//! ```text
//! -- The connection with this receiver and this space for packets of the type.
//! abbrev pub with_receiver : Connection → PacketType → Option Receiver → Space → Connection
//! with_receiver c Initial r s = record c { initial = record c.initial { receiver = r; space = s } }
//! with_receiver c ZeroRtt r s = record c { zero_rtt = r; one_rtt = record c.one_rtt { space = s } }
//! with_receiver c Handshake r s = record c { handshake = record c.handshake { receiver = r; space = s } }
//! with_receiver c OneRtt r s = record c { one_rtt = record c.one_rtt { receiver = r; space = s } }
//! with_receiver c _ r s = c
//! ```
//!
//! Definitions: [`Connection`](crate::specs::connection#Connection),
//! [`Receiver`](crate::specs::receiving#Receiver), [`Space`](crate::specs::space#Space).
//!
//! <div id="sender_after"></div>
//!
//! ```text
//! -- The 1-RTT sender after a packet of this type was received and left the 1-RTT receiver in this state.
//! abbrev pub sender_after : PacketType → Ends → Option Receiver → Option Sender
//! sender_after OneRtt e r = following e.sender (phase_of e.receiver) (phase_of r)
//! sender_after _ e r = e.sender
//! ```
//!
//! Definitions: [`Ends`](crate::specs::ends#Ends), [`Receiver`](crate::specs::receiving#Receiver),
//! [`Sender`](crate::specs::sending#Sender), [`following`](crate::specs::ends#following),
//! [`phase_of`](crate::specs::ends#phase_of).
//!
//! <div id="update_after"></div>
//!
//! ```text
//! -- The key update of the peer that a packet of this type shows, if it was received and left the 1-RTT receiver in this state.
//! abbrev pub update_after : PacketType → Ends → Option Receiver → Option PeerUpdate
//! update_after OneRtt e r = peer_update e.sender (phase_of e.receiver) (phase_of r)
//! update_after _ e r = None
//! ```
//!
//! Definitions: [`Ends`](crate::specs::ends#Ends), [`Receiver`](crate::specs::receiving#Receiver),
//! [`peer_update`](crate::specs::ends#peer_update), [`phase_of`](crate::specs::ends#phase_of).
//!
//! <div id="with_sender"></div>
//!
//! ```text
//! -- The connection with this sender of 1-RTT packets.
//! abbrev pub with_sender : Connection → Option Sender → Connection
//! with_sender c sender = record c { one_rtt = record c.one_rtt { sender = sender } }
//! ```
//!
//! Definitions: [`Connection`](crate::specs::connection#Connection), [`Sender`](crate::specs::sending#Sender).
//!
//! ```text
//! -- A packet of a datagram.
//! ```
//!
//! <div id="IsOwn"></div>
//!
//! ```text
//! -- The packet belongs to the connection: it has the destination ID of the datagram's first packet (RFC 9000 section 12.2), and
//! -- its type is one that has keys.
//! pub record IsOwn (id datagram : List ℕ) (parts : Packet) : Type 0 where
//!   pub addressed : slice_range datagram parts.destination_id.start parts.destination_id.end ≡ id
//!   pub keyed : type_has_keys parts.packet_type ≡ true
//! ```
//!
//! Definitions: [`type_has_keys`](crate::specs::connection#type_has_keys).
//!
//! <div id="IsPacketAt"></div>
//!
//! ```text
//! -- The packet that begins at a byte has these parts, belongs to the connection, and its keys were not discarded.
//! pub record IsPacketAt (c : Connection) (id_len : ℕ) (id datagram : List ℕ) (at : ℕ) (parts : Packet) : Type 0 where
//!   pub parsed : packet_of c.fixed_bit id_len datagram at ≡ Ok parts
//!   pub own : IsOwn id datagram parts
//!   pub undropped : IsFalse (is_discarded c parts.packet_type)
//! ```
//!
//! Definitions: [`Connection`](crate::specs::connection#Connection),
//! [`packet_of`](crate::specs::datagram#packet_of), [`IsOwn`](crate::specs::connection#IsOwn),
//! [`is_discarded`](crate::specs::connection#is_discarded).
//!
//! <div id="IsReceiving"></div>
//!
//! ```text
//! -- The limit on packets that fail authentication is not reached.
//! abbrev pub IsReceiving : Connection → Type 0
//! IsReceiving c = c.failures.count < c.failures.limit
//! ```
//!
//! Definitions: [`Connection`](crate::specs::connection#Connection).
//!
//! <div id="IsOpening"></div>
//!
//! ```text
//! -- The connection is to open the packet with these parts, with this receiver.
//! pub record IsOpening (c : Connection) (id_len : ℕ) (id datagram : List ℕ) (at : ℕ) (parts : Packet) (r : Receiver) : Type 0 where
//!   pub receiving : IsReceiving c
//!   pub packet : IsPacketAt c id_len id datagram at parts
//!   pub receiver : receiver_of c parts.packet_type ≡ Some r
//! ```
//!
//! Definitions: [`Connection`](crate::specs::connection#Connection),
//! [`Receiver`](crate::specs::receiving#Receiver), [`IsReceiving`](crate::specs::connection#IsReceiving),
//! [`IsPacketAt`](crate::specs::connection#IsPacketAt), [`receiver_of`](crate::specs::connection#receiver_of).
//!
//! <div id="IsToOpen"></div>
//!
//! ```text
//! -- The packet with these parts belongs to the connection, and the keys that open it are installed. It begins at the byte asked
//! -- for, has at least one byte, and ends within the datagram.
//! pub record IsToOpen (c : Connection) (id_len : ℕ) (id datagram : List ℕ) (at : ℕ) (parts : Packet) : Type 0 where
//!   pub packet : IsPacketAt c id_len id datagram at parts
//!   pub receiver : IsSome (receiver_of c parts.packet_type)
//!   pub begins : parts.start ≡ at
//!   pub some : parts.start < parts.end
//!   pub within : parts.end ≤ length datagram
//! ```
//!
//! Definitions: [`Connection`](crate::specs::connection#Connection),
//! [`IsPacketAt`](crate::specs::connection#IsPacketAt), [`receiver_of`](crate::specs::connection#receiver_of).
//!
//! <div id="next_packet_at"></div>
//!
//! ```text
//! -- The position after a packet that was parsed, or was rejected, where the next packet begins.
//! abbrev pub next_packet_at : Result Packet DatagramError → (len : ℕ) → ℕ
//! next_packet_at (Ok parts) len = parts.end
//! next_packet_at (Err error) len = next_after error len
//! ```
//!
//! Definitions: [`next_after`](crate::specs::datagram#next_after).
//!
//! <div id="IsStranger"></div>
//!
//! ```text
//! -- A packet that doesn't belong to the connection, or whose keys were discarded, is ignored.
//! abbrev pub IsStranger : (c : Connection) (id_len : ℕ) (id datagram : List ℕ) (at : ℕ) → Incoming → Type 0
//! IsStranger c id_len id datagram at incoming = (incoming ≡ Ignored) × ((parts : Packet) → ¬ IsPacketAt c id_len id datagram at parts)
//! ```
//!
//! Definitions: [`Connection`](crate::specs::connection#Connection),
//! [`IsPacketAt`](crate::specs::connection#IsPacketAt).
//!
//! <div id="IsWithoutKeys"></div>
//!
//! ```text
//! -- The packet belongs to the connection, and the keys that open it are not installed yet.
//! abbrev pub IsWithoutKeys : (c : Connection) (id_len : ℕ) (id datagram : List ℕ) (at : ℕ) → Incoming → Type 0
//! IsWithoutKeys c id_len id datagram at incoming = (parts : Packet) × IsPacketAt c id_len id datagram at parts
//!     × (incoming ≡ NoKeys parts.packet_type) × ¬ IsSome (receiver_of c parts.packet_type)
//! ```
//!
//! Definitions: [`Connection`](crate::specs::connection#Connection),
//! [`IsPacketAt`](crate::specs::connection#IsPacketAt), [`receiver_of`](crate::specs::connection#receiver_of).
//!
//! <div id="IsUnopened"></div>
//!
//! ```text
//! -- The step goes past a packet that is not opened.
//! pub record IsUnopened (c : Connection) (id_len : ℕ) (id datagram : List ℕ) (at : ℕ) (step : Step) : Type 0 where
//!   pub next : step.next ≡ next_packet_at (packet_of c.fixed_bit id_len datagram at) (length datagram)
//!   pub moves_on : at < length datagram → (at < step.next) × (step.next ≤ length datagram)
//!   pub incoming : IsStranger c id_len id datagram at step.incoming ⊎ IsWithoutKeys c id_len id datagram at step.incoming
//! ```
//!
//! Definitions: [`Connection`](crate::specs::connection#Connection),
//! [`next_packet_at`](crate::specs::connection#next_packet_at), [`packet_of`](crate::specs::datagram#packet_of),
//! [`IsStranger`](crate::specs::connection#IsStranger), [`IsWithoutKeys`](crate::specs::connection#IsWithoutKeys).
//!
//! ```text
//! -- The result.
//! ```
//!
//! <div id="packet_in"></div>
//!
//! ```text
//! -- The type of a packet that is returned as received, and what was received.
//! abbrev pub packet_in : Incoming → Option (PacketType × Received)
//! packet_in (PacketOf packet_type received update) = Some (packet_type, received)
//! packet_in _ = None
//! ```
//!
//! <div id="IfPacket"></div>
//!
//! ```text
//! -- If a packet is returned as received, it fulfils this.
//! abbrev pub IfPacket : Result Step ReceiveError → (PacketType → Received → Type 0) → Type 0
//! IfPacket result P = IfOk result (λ step. IfSome (packet_in step.incoming) (λ p. P p.0 p.1))
//! ```
//!
//! Definitions: [`packet_in`](crate::specs::connection#packet_in).
//!
//! <div id="given_of"></div>
//!
//! ```text
//! -- The result of `receive` for a packet that was given to a receiver, with the key update of the peer that the packet shows. An
//! -- error with a code is returned, since it closes the connection. After an error without one, the packet is dropped, and the
//! -- connection goes on.
//! abbrev pub given_of : (next : ℕ) → PacketType → Option PeerUpdate → Result Received ReceiveError → Result Step ReceiveError
//! given_of next packet_type update (Ok received) = Ok (record { next = next; incoming = PacketOf packet_type received update })
//! given_of next packet_type update (Err error) =
//!     if is_some (receive_error_code error) then Err error else Ok (record { next = next; incoming = Dropped error })
//! ```
//!
//! Definitions: [`receive_error_code`](crate::specs::errors#receive_error_code).
//!
//! <div id="IsTried"></div>
//!
//! ```text
//! -- The packet was given to the receiver of its type. `opened` is what the receiver returned, on which the result depends.
//! pub record IsTried (c c' : Connection) (parts : Packet) (r : Receiver) (old new : List ℕ) (result : Result Step ReceiveError)
//!     : Type 0 where
//!   pub opened : Result Received ReceiveError
//!   pub given : result
//!       ≡ given_of parts.end parts.packet_type (update_after parts.packet_type c.one_rtt c'.one_rtt.receiver) opened
//!   pub outcome : ReceiveOutcome r (space_of c parts.packet_type) c.failures parts old opened
//!       (unwrap_or (receiver_of c' parts.packet_type) r) (space_of c' parts.packet_type) c'.failures new
//!   pub receiver : IsSome (receiver_of c' parts.packet_type)
//!   pub followed : c'.one_rtt.sender ≡ sender_after parts.packet_type c.one_rtt c'.one_rtt.receiver
//!   pub others : c' ≡ record (with_sender (with_receiver c parts.packet_type (receiver_of c' parts.packet_type)
//!       (space_of c' parts.packet_type)) c'.one_rtt.sender) { failures = c'.failures }
//!   pub kept : OnErr opened (c' ≡ record c { failures = c'.failures })
//! ```
//!
//! Definitions: [`Connection`](crate::specs::connection#Connection),
//! [`Receiver`](crate::specs::receiving#Receiver), [`given_of`](crate::specs::connection#given_of),
//! [`update_after`](crate::specs::connection#update_after),
//! [`ReceiveOutcome`](crate::specs::receiving#ReceiveOutcome), [`space_of`](crate::specs::connection#space_of),
//! [`receiver_of`](crate::specs::connection#receiver_of), [`sender_after`](crate::specs::connection#sender_after),
//! [`with_sender`](crate::specs::connection#with_sender),
//! [`with_receiver`](crate::specs::connection#with_receiver).
//!
//! <div id="StepCase"></div>
//!
//! ```text
//! -- There are three cases for the packet at a byte of a datagram: the limit on failures is reached; the packet is passed over
//! -- unopened; or it is given to a receiver. In the first two cases nothing changes.
//! pub data StepCase (c c' : Connection) (id_len : ℕ) (id old new : List ℕ) (at : ℕ) (result : Result Step ReceiveError)
//!     : Type 0 where
//!   at_limit : c.failures.limit ≤ c.failures.count → result ≡ Err TooManyFailures → (c' ≡ c) × (new ≡ old)
//!       → StepCase c c' id_len id old new at result
//!   unopened : IsReceiving c → (step : Step) → IsUnopened c id_len id old at step → result ≡ Ok step → (c' ≡ c) × (new ≡ old)
//!       → StepCase c c' id_len id old new at result
//!   tried : (parts : Packet) (r : Receiver) → IsOpening c id_len id old at parts r → IsTried c c' parts r old new result
//!       → StepCase c c' id_len id old new at result
//! ```
//!
//! Definitions: [`Connection`](crate::specs::connection#Connection),
//! [`IsReceiving`](crate::specs::connection#IsReceiving), [`IsUnopened`](crate::specs::connection#IsUnopened),
//! [`Receiver`](crate::specs::receiving#Receiver), [`IsOpening`](crate::specs::connection#IsOpening),
//! [`IsTried`](crate::specs::connection#IsTried).
//!
//! <div id="StepOutcome"></div>
//!
//! ```text
//! -- The outcome of a call of `receive`: which case it is, and what follows in every case. The next packet begins where `next`
//! -- says, a received payload lies within the datagram, an error changes nothing in the connection, and no byte outside the packet
//! -- changes.
//! pub record StepOutcome (c c' : Connection) (id_len : ℕ) (id old new : List ℕ) (at : ℕ) (result : Result Step ReceiveError)
//!     : Type 0 where
//!   pub case : StepCase c c' id_len id old new at result
//!   pub next : IfOk result (λ step. step.next ≡ next_packet_at (packet_of c.fixed_bit id_len old at) (length old))
//!   pub moves_on : at < length old → IfOk result (λ step. (at < step.next) × (step.next ≤ length old))
//!   pub payload : IfPacket result (λ _ r. (at < r.payload.start) × (r.payload.start ≤ r.payload.end)
//!       × (r.payload.end + tag_len ≤ length old))
//!   pub kept : OnErr result (c' ≡ c)
//!   pub outside : (i : ℕ) → (i < at) ⊎ (next_packet_at (packet_of c.fixed_bit id_len old at) (length old) ≤ i)
//!       → slice_index new i ≡ slice_index old i
//! ```
//!
//! Definitions: [`Connection`](crate::specs::connection#Connection),
//! [`StepCase`](crate::specs::connection#StepCase), [`next_packet_at`](crate::specs::connection#next_packet_at),
//! [`packet_of`](crate::specs::datagram#packet_of), [`IfPacket`](crate::specs::connection#IfPacket),
//! [`tag_len`](aead_ciphers::specs::gcm#tag_len).
