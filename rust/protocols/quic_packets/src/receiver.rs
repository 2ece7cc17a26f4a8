// Written by tools/rust from crates/quic_packets/src/receiver.rt. Don't edit.
//! Receiving the packets of one encryption level, over key updates: unmasking the header, decoding the number, opening, and
//! checking for duplicates (RFC 9001 sections 5.3, 5.4, 6.2 to 6.6 and 9.5).

use crate::datagram::Packet;
use crate::failures::Failures;
use crate::first_byte::{
    KEY_PHASE_BIT, LONG_HEADER_FORM, LONG_RESERVED_BITS, SHORT_RESERVED_BITS, is_long,
};
use crate::header::{HeaderKey, SAMPLE_END, masked_bytes, restore_masked_bytes};
use crate::key::PacketKey;
use crate::key_error::KeyError;
use crate::keys::{Keys, keys_of};
use crate::numbers::{decode, truncated};
use crate::receive_error::ReceiveError;
use crate::space::Space;
use crate::suite::{algorithm, header_algorithm};
use crate::versions::is_other_version;
use aead_ciphers::aead::NONCE_LEN;
use core::mem;
use core::ops::Range;
use key_derivation::Suite;
use key_derivation::quic::{QuicSecret, Version};

/// The number, the payload and the key phase of a packet that was received.
#[derive(Clone, PartialEq, Eq, Debug)]
pub struct Received {
    /// The packet number.
    pub number: u64,
    /// The position of the decrypted payload in the datagram. It follows the header, which ends with the packet number.
    pub payload: Range<usize>,
    /// The Key Phase bit of a short header, or `false` for a long one.
    pub phase: bool,
}

/// Receives the packets of one encryption level in one version and, after key updates, those of each key phase in turn.
///
/// # Examples
///
/// `packet_at` finds a packet in its datagram, and the receiver opens it. A `Space` has the numbers that were received at the
/// level, and one `Failures` counts for the whole connection. A packet that comes twice is refused, and so is a forged one:
///
/// ```
/// # use key_derivation as deerlapse_key_derivation;
/// use std::error::Error;
///
/// use deerlapse_key_derivation::Secret;
/// use deerlapse_quic::{
///     Failures, FixedBit, QuicSecret, ReceiveError, Receiver, Sender, Space, Version, packet_at,
/// };
///
/// /// The connection ID of the receiving end.
/// const ID: [u8; 8] = [4; 8];
///
/// /// The secret of one direction, which both ends have from TLS.
/// fn secret() -> QuicSecret {
///     QuicSecret::new(Version::One, Secret::aes_128_gcm([1; 32]))
/// }
///
/// /// Returns a packet of the peer, with a short header and a number of one byte.
/// fn packet_of(peer: &mut Sender, frames: &[u8]) -> Result<Vec<u8>, Box<dyn Error>> {
///     let mut packet = [&[0x40], &ID[..], &[0], frames, &[0; 16]].concat();
///     peer.send(&mut packet, 9..10, FixedBit::Required)?;
///     Ok(packet)
/// }
///
/// let mut peer = Sender::from_secret(secret(), 0)?;
/// let mut receiver = Receiver::from_secret(secret());
/// let mut space = Space::<2>::new();
/// let mut failures = Failures::new();
///
/// let packet = packet_of(&mut peer, b"\x08\0hello")?;
/// let parts = packet_at(&packet, 0, ID.len(), FixedBit::Required)?;
///
/// let mut forged = packet.clone();
/// forged[12] ^= 1;
/// let refused = receiver.receive(&mut space, &mut failures, &mut forged, &parts);
/// assert_eq!(refused, Err(ReceiveError::Refused));
/// assert_eq!(failures.count(), 1);
///
/// let mut datagram = packet.clone();
/// let received = receiver.receive(&mut space, &mut failures, &mut datagram, &parts)?;
/// assert_eq!(datagram[received.payload], *b"\x08\0hello");
/// let mut again = packet.clone();
/// let refused = receiver.receive(&mut space, &mut failures, &mut again, &parts);
/// assert_eq!(refused, Err(ReceiveError::Duplicate));
///
/// // The handshake is confirmed, so the peer may update its keys. The next key opens its packet, and
/// // becomes the current one.
/// receiver.set_next()?;
/// peer.confirm_handshake();
/// peer.initiate_update()?;
/// let mut datagram = packet_of(&mut peer, b"\x08\0again")?;
/// let parts = packet_at(&datagram, 0, ID.len(), FixedBit::Required)?;
/// let received = receiver.receive(&mut space, &mut failures, &mut datagram, &parts)?;
/// assert_eq!((received.number, received.phase), (1, true));
/// assert!(receiver.phase());
///
/// // The ranges of an ACK frame, and what the timer of three probe timeouts calls.
/// assert_eq!(space.ranges().next(), Some(0..2));
/// receiver.forget_previous();
/// # Ok::<(), Box<dyn Error>>(())
/// ```
///
/// <details><summary>Model</summary>
///
/// ```text
/// ghost Value = { Receiver };
/// ghost view = { λ r. record {
///   version = r.version;
///   header = r.header;
///   secret = r.secret;
///   current = r.current;
///   next = r.next;
///   previous = r.previous;
///   phase = r.phase;
///   lowest = r.lowest;
///   highest = r.highest;
///   highest_previous = r.highest_previous;
///   highest_earlier = r.highest_earlier;
/// } };
/// ```
///
/// Definitions: [`Receiver`](crate::specs::receiving#Receiver).
///
/// </details>
pub struct Receiver {
    version: Version,
    header: HeaderKey,
    /// The secret of `next` or, if that is not set, of `current`. `None` if the receiver is made of keys.
    secret: Option<QuicSecret>,
    /// The key of the current phase.
    current: PacketKey,
    /// The key of the next phase, if it is set.
    next: Option<PacketKey>,
    /// The key of the previous phase, if there was one and it is not forgotten.
    previous: Option<PacketKey>,
    /// The Key Phase bit of `current`.
    phase: bool,
    /// The lowest number that `current` opened, or 0 in the first phase.
    lowest: u64,
    /// The highest number that `current` opened, or 0 if there is none.
    highest: u64,
    /// The highest number that the key of the previous phase opened, or 0 if there is none.
    highest_previous: u64,
    /// The highest number that was opened under the keys before that one, or 0 if there is none.
    highest_earlier: u64,
}

impl Receiver {
    /// Creates a receiver of a secret, which it keeps: its keys and those after each key update derive from it (RFC 9001
    /// sections 5.1 and 6.1), and its version is the secret's.
    ///
    /// <details><summary>Contract</summary>
    ///
    /// ```text
    /// ensures { result ≡ new_receiver secret.version (secret_header_key secret) (secret_key secret) (Some secret) }
    /// ```
    ///
    /// Definitions: [`new_receiver`](crate::specs::receiving#new_receiver),
    /// [`secret_header_key`](crate::specs::keys#secret_header_key), [`secret_key`](crate::specs::keys#secret_key).
    ///
    /// </details>
    pub fn from_secret(secret: QuicSecret) -> Self {
        let version = secret.version();
        let (current, header) = keys_of(&secret);
        Receiver::with_keys(version, header, current, Some(secret))
    }

    /// Creates a receiver with keys of the caller's, which must have the key lengths of the suite.
    ///
    /// # Errors
    ///
    /// Fails with `KeyLength` if a key is not as long as the suite's.
    ///
    /// <details><summary>Contract</summary>
    ///
    /// ```text
    /// ensures accepted { IsOk result ↔ HasKeyLengths suite keys.entry.key.now keys.entry.header_key.now }
    /// ensures refused { IsOkUnless result KeyError.KeyLength }
    /// ensures made { IfOk result (λ made. made ≡ new_receiver keys.entry.version (header_key suite keys.entry.header_key.now)
    ///     (packet_key suite keys.entry.key.now keys.entry.iv) None) }
    /// ```
    ///
    /// Definitions: [`HasKeyLengths`](crate::specs::sending#HasKeyLengths),
    /// [`new_receiver`](crate::specs::receiving#new_receiver), [`header_key`](crate::specs::keys#header_key),
    /// [`packet_key`](crate::specs::keys#packet_key).
    ///
    /// </details>
    pub fn new(suite: Suite, keys: Keys<'_>) -> Result<Self, KeyError> {
        let header = HeaderKey::new(header_algorithm(suite), keys.header_key)?;
        let current = PacketKey::new(algorithm(suite), keys.key, keys.iv)?;
        Ok(Receiver::with_keys(keys.version, header, current, None))
    }

    /// Creates a receiver with these keys. `secret` is their secret, or `None` for keys of the caller's.
    // ensures { result ≡ new_receiver version header current secret }
    fn with_keys(
        version: Version,
        header: HeaderKey,
        current: PacketKey,
        secret: Option<QuicSecret>,
    ) -> Self {
        Receiver {
            version,
            header,
            secret,
            current,
            next: None,
            previous: None,
            phase: false,
            lowest: 0,
            highest: 0,
            highest_previous: 0,
            highest_earlier: 0,
        }
    }

    /// Sets the key of the next phase to that of the next secret, unless it is set already (RFC 9001 section 6.1). It becomes
    /// the current key when it first opens a packet. The header key is unchanged (section 6).
    ///
    /// A peer may initiate the first key update once the handshake is confirmed, and each later one once it has received an
    /// acknowledgment of a packet of the current phase (section 6.1). A peer that answers a key update of this endpoint need not
    /// wait for such an acknowledgment (section 6.2). So call this when a receiver of 1-RTT packets is created, when such an
    /// acknowledgment is sent, and when this endpoint initiates a key update. Until then, a packet of the next phase is rejected
    /// as a forged one is.
    ///
    /// # Errors
    ///
    /// Fails with `NoSecret` if the receiver is not made of a secret. The receiver is then unchanged.
    ///
    /// <details><summary>Contract</summary>
    ///
    /// ```text
    /// ensures accepted { IsOk result ↔ IsSome self.old.secret }
    /// ensures refused { IsOkUnless result KeyError.NoSecret }
    /// ensures given { OnOk result (IfSome self.old.secret (λ held. self.new ≡ with_next self.old held)) }
    /// ensures kept { OnErr result (self.new ≡ self.old) }
    /// ```
    ///
    /// Definitions: [`with_next`](crate::specs::receiving#with_next).
    ///
    /// </details>
    pub fn set_next(&mut self) -> Result<(), KeyError> {
        let Some(secret) = &self.secret else {
            return Err(KeyError::NoSecret);
        };
        if self.next.is_none() {
            let next = secret.next();
            self.next = Some(PacketKey::from_secret(&next));
            self.secret = Some(next);
        }
        Ok(())
    }

    /// Sets the key and the IV of the next phase to the caller's, at the times that `set_next` describes. It replaces a next
    /// key that is already set, whereas `set_next` keeps it.
    ///
    /// # Errors
    ///
    /// Fails with `KeysDerived` if the receiver is made of a secret, and with `KeyLength` if `key` is not as long as the suite's
    /// keys. The receiver is then unchanged.
    ///
    /// <details><summary>Contract</summary>
    ///
    /// ```text
    /// ensures accepted { IsOk result
    ///     ↔ (¬ IsSome self.old.secret × (length key.now ≡ key_len self.old.current.algorithm)) }
    /// ensures derived { IsErrOf result KeyError.KeysDerived ↔ IsSome self.old.secret }
    /// ensures key_len { IsErrOf result KeyError.KeyLength
    ///     ↔ (¬ IsSome self.old.secret × (length key.now ≢ key_len self.old.current.algorithm)) }
    /// ensures given { OnOk result (self.new ≡ record self.old {
    ///   next = Some (record self.old.current { bytes = key.now; iv = iv });
    /// }) }
    /// ensures kept { OnErr result (self.new ≡ self.old) }
    /// ```
    ///
    /// Definitions: [`key_len`](aead_ciphers::specs::algorithm#key_len).
    ///
    /// </details>
    pub fn set_next_with(&mut self, key: &[u8], iv: [u8; NONCE_LEN]) -> Result<(), KeyError> {
        if self.secret.is_some() {
            return Err(KeyError::KeysDerived);
        }
        self.next = Some(PacketKey::new(self.current.algorithm(), key, iv)?);
        Ok(())
    }

    /// Returns the version of the packets.
    ///
    /// <details><summary>Contract</summary>
    ///
    /// ```text
    /// ensures { result ≡ self.now.version }
    /// ```
    ///
    /// </details>
    pub fn version(&self) -> Version {
        self.version
    }

    /// Returns the Key Phase bit of the current key (RFC 9000 section 17.3.1). It changes when a packet of the next phase is
    /// received.
    ///
    /// <details><summary>Contract</summary>
    ///
    /// ```text
    /// ensures { result ≡ self.now.phase }
    /// ```
    ///
    /// </details>
    pub fn phase(&self) -> bool {
        self.phase
    }

    /// Drops the key of the previous phase (RFC 9001 section 6.5). Afterwards, a packet of that phase that arrives late fails
    /// with `Refused`, and is counted as a packet that failed authentication (section 6.6). The highest number that the key
    /// opened stays: a packet of the current phase with a lower number still fails with `KeyUpdate`.
    ///
    /// <details><summary>Contract</summary>
    ///
    /// ```text
    /// ensures { self.new ≡ record self.old { previous = None } }
    /// ```
    ///
    /// </details>
    pub fn forget_previous(&mut self) {
        self.previous = None;
    }

    /// Receives a packet of a datagram, whose parts `packet_at` returns: unmasks its header, decodes its number, opens it, and
    /// counts its number as received. No byte of the datagram outside the packet changes.
    ///
    /// On success the header is unmasked, the decrypted payload follows it, and the tag is left after the payload. `space`
    /// holds the numbers received in the packet's number space, and `failures` is the one count of the connection.
    ///
    /// Before a packet is known to be authentic, no branch and no address depends on its masked bits, except by the length of
    /// its header and the key that opens it (RFC 9001 section 9.5).
    ///
    /// # Errors
    ///
    /// Fails, in this order, with `TooManyFailures` if the limit of `failures` is reached; with `PastEnd` if the packet ends
    /// after the datagram; with `OtherVersion` if it has a long header of another version than the receiver's; with `NoNumber` if
    /// it has no packet number; with `NumberAtFirstByte` if the number does not begin after the packet's first byte; with
    /// `NoSample` if the packet has fewer than 20 bytes from its number on; with `TooLong` if it is longer than AES-GCM allows;
    /// and with `Refused`, which is counted, if it is not authentic. The packet is then unchanged. For an authentic packet, which
    /// is then opened in place, fails with `ReservedBits` if its reserved bits are set, with `Duplicate` if its number was
    /// already received or is below the window of `space`, with `KeyUpdate` if its key phase is out of turn, which is so if the
    /// key of its phase is not held or if a packet with a higher number was opened under earlier keys (RFC 9001 section 6.4),
    /// and with `NoFrames` if its payload is empty.
    ///
    /// <details><summary>Contract</summary>
    ///
    /// ```text
    /// ensures outcome { ReceiveOutcome self.old space.old failures.old parts.now datagram.old result
    ///     self.new space.new failures.new datagram.new }
    /// ```
    ///
    /// Definitions: [`ReceiveOutcome`](crate::specs::receiving#ReceiveOutcome).
    ///
    /// </details>
    pub fn receive<const W: usize>(
        &mut self,
        space: &mut Space<W>,
        failures: &mut Failures,
        datagram: &mut [u8],
        parts: &Packet,
    ) -> Result<Received, ReceiveError> {
        let number_at = self.check_readable(failures, parts, datagram.len())?;
        let start = parts.start;
        let packet = &mut datagram[start..parts.end];
        match self.unprotect_and_open(space.largest(), packet, number_at, start) {
            Ok((first, received)) => {
                self.accept_opened(space, first, &received)?;
                Ok(received)
            }
            Err(error) => {
                failures.count_if_refused(error);
                Err(error)
            }
        }
    }

    /// Checks that the packet may be read, and returns the position of its number, counted from the packet's first byte.
    // ensures accepted { IsOk result ↔ IsReadable self.now failures.now parts.now len }
    // ensures refused { IfErr result (EarlyRefuses self.now failures.now parts.now len) }
    // ensures place { IfOk result (λ at. at ≡ number_in parts.now) }
    fn check_readable(
        &self,
        failures: &Failures,
        parts: &Packet,
        len: usize,
    ) -> Result<usize, ReceiveError> {
        if failures.is_at_limit() {
            return Err(ReceiveError::TooManyFailures);
        }
        if parts.end > len {
            return Err(ReceiveError::PastEnd);
        }
        if is_other_version(self.version, parts.version) {
            return Err(ReceiveError::OtherVersion);
        }
        let number_at = parts.number_at.ok_or(ReceiveError::NoNumber)?;
        if number_at <= parts.start {
            return Err(ReceiveError::NumberAtFirstByte);
        }
        if parts.end < number_at || parts.end - number_at < SAMPLE_END {
            return Err(ReceiveError::NoSample);
        }
        Ok(number_at - parts.start)
    }

    /// Unmasks the header, decodes the number and opens the packet. Returns the header's first byte as well. If opening fails,
    /// it writes the header's masked bytes back.
    // requires sample { HasSample number_at (length packet.old) }
    // requires place { start + length packet.old < 2 ^ 64 }
    // ensures opening { (plain : List ℕ) × (number : ℕ)
    //     × Reads self.now.header (expected largest) number_at packet.old plain number
    //     × Opening self.now start number_at plain number result packet.new }
    // ensures number { IfOk result (λ opened. IsNumber opened.1.number) }
    // ensures payload { IfOk result (λ opened. (start < opened.1.payload.start)
    //     × (opened.1.payload.start ≤ opened.1.payload.end)
    //     × (opened.1.payload.end + tag_len ≡ start + length packet.old)) }
    // ensures kept { OnErr result (packet.new ≡ packet.old) }
    fn unprotect_and_open(
        &self,
        largest: Option<u64>,
        packet: &mut [u8],
        number_at: usize,
        start: usize,
    ) -> Result<(u8, Received), ReceiveError> {
        let masked = masked_bytes(packet, number_at);
        let number_len = self.header.unprotect_sampled(packet, number_at);
        let first = packet[0];
        let header_len = number_at + number_len;
        let number = decode(
            largest,
            truncated(packet, number_at, number_len),
            number_len,
        );
        match self
            .opening_key(first, number)
            .open(number, packet, header_len)
        {
            Ok(payload_len) => {
                let from = start + header_len;
                let received = Received {
                    number,
                    payload: from..from + payload_len,
                    phase: first & (LONG_HEADER_FORM | KEY_PHASE_BIT) == KEY_PHASE_BIT,
                };
                Ok((first, received))
            }
            Err(error) => {
                restore_masked_bytes(packet, number_at, &masked);
                Err(error)
            }
        }
    }

    /// Returns the key of a packet with this first byte and number, or `None` if it isn't held.
    // ensures { option_copied result ≡ key_of self.now first number }
    fn key_of(&self, first: u8, number: u64) -> Option<&PacketKey> {
        if !self.is_other_phase(first) {
            Some(&self.current)
        } else if number < self.lowest {
            self.previous.as_ref()
        } else {
            self.next.as_ref()
        }
    }

    /// Returns whether a packet with this first byte is of the other key phase.
    // ensures { result ≡ is_other_phase self.now first }
    fn is_other_phase(&self, first: u8) -> bool {
        first & (LONG_HEADER_FORM | KEY_PHASE_BIT) == if self.phase { 0 } else { KEY_PHASE_BIT }
    }

    /// Returns the key with which a packet is opened. If the packet's own key is not held, this is the current key, so that
    /// rejecting the packet takes as long.
    // ensures { result.now ≡ opening_key self.now first number }
    fn opening_key(&self, first: u8, number: u64) -> &PacketKey {
        self.key_of(first, number).unwrap_or(&self.current)
    }

    /// Returns the highest number that was opened under keys before that of the packet.
    // ensures { result ≡ highest_before self.now first number }
    fn highest_before(&self, first: u8, number: u64) -> u64 {
        if !self.is_other_phase(first) {
            self.highest_previous
        } else if number < self.lowest {
            self.highest_earlier
        } else {
            self.highest
        }
    }

    /// Returns whether the key of a packet is held and its number is consistent with its key phase.
    // ensures { IsTrue result ↔ IsInTurn self.now first number }
    fn is_in_turn(&self, first: u8, number: u64) -> bool {
        self.key_of(first, number).is_some() && number >= self.highest_before(first, number)
    }

    /// Records a packet that was received: its number in the phase of its key, and a new phase if it is the first of the next
    /// key.
    // ensures { self.new ≡ received self.old first number }
    fn record_received(&mut self, first: u8, number: u64) {
        if !self.is_other_phase(first) {
            self.lowest = self.lowest.min(number);
            self.highest = self.highest.max(number);
        } else if number < self.lowest {
            self.highest_previous = self.highest_previous.max(number);
        } else {
            self.enter_next_phase(number);
        }
    }

    /// Makes the next key the current one, if it is held, and begins its phase with this number.
    // ensures { self.new ≡ updated self.old number self.old.next }
    fn enter_next_phase(&mut self, number: u64) {
        if let Some(next) = self.next.take() {
            self.previous = Some(mem::replace(&mut self.current, next));
            self.phase = !self.phase;
            self.highest_earlier = self.highest_previous;
            self.highest_previous = self.highest;
            self.lowest = number;
            self.highest = number;
        }
    }

    /// Checks a packet that was opened, and counts its number as received if it passes.
    // requires { IsNumber opened.now.number }
    // ensures accepted { IsOk result ↔ IsAcceptable self.old space.old first opened.now }
    // ensures refused { IfErr result (AcceptRefuses self.old space.old first opened.now) }
    // ensures moved_on { OnOk result (self.new ≡ received self.old first opened.now.number) }
    // ensures marked { OnOk result (Marks space.old opened.now.number space.new) }
    // ensures kept { OnErr result ((self.new ≡ self.old) × (space.new ≡ space.old)) }
    fn accept_opened<const W: usize>(
        &mut self,
        space: &mut Space<W>,
        first: u8,
        opened: &Received,
    ) -> Result<(), ReceiveError> {
        let number = opened.number;
        let reserved = if is_long(first) {
            LONG_RESERVED_BITS
        } else {
            SHORT_RESERVED_BITS
        };
        if first & reserved != 0 {
            return Err(ReceiveError::ReservedBits);
        }
        if !space.is_new(number) {
            return Err(ReceiveError::Duplicate);
        }
        if !self.is_in_turn(first, number) {
            return Err(ReceiveError::KeyUpdate);
        }
        if opened.payload.start >= opened.payload.end {
            return Err(ReceiveError::NoFrames);
        }
        space.mark(number);
        self.record_received(first, number);
        Ok(())
    }
}
