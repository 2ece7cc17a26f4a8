// Written by tools/rust from crates/quic_packets/src/sender.rt. Don't edit.
//! Sending the packets of one number space, over key updates: numbering, sealing and masking each in one call, skipping
//! numbers, and recording acknowledgments (RFC 9001 sections 5 and 6).

use crate::datagram::version_at;
use crate::first_byte::{KEY_PHASE_BIT, LONG_MASKED_BITS, SHORT_MASKED_BITS, is_long};
use crate::fixed_bit::FixedBit;
use crate::header::{HeaderKey, MAX_NUMBER_LEN, SAMPLE_END};
use crate::key::PacketKey;
use crate::key_error::KeyError;
use crate::keys::{Keys, keys_of};
use crate::number_error::NumberError;
use crate::numbers::number_len;
use crate::packet::{NUMBERS_END, payload_len};
use crate::send_error::SendError;
use crate::skipped::Skipped;
use crate::suite::{algorithm, header_algorithm};
use crate::versions::{bits_of, is_other_version, type_bits};
use aead_ciphers::aead::NONCE_LEN;
use aead_ciphers::gcm::fits;
use core::ops::Range;
use key_derivation::Suite;
use key_derivation::quic::{QuicSecret, Version};

/// The confidentiality limit of AES-GCM: the packets that one key may seal (RFC 9001 section 6.6).
pub const CONFIDENTIALITY_LIMIT: u64 = 1 << 23;

/// Sends the packets of one number space in one direction, under one key after another.
///
/// No number is used twice, not even under different keys. Each key seals at most 2^23 packets, as long as all keys differ: a
/// key that the caller gives again is counted from 0 again.
///
/// # Examples
///
/// A sender has the numbers of one encryption level. `next_number_len` tells how many bytes the next number needs, and
/// `acknowledged_in` keeps that low. The limit of the key calls for a key update, which the sender allows once a packet of the
/// current keys is acknowledged:
///
/// ```
/// # use key_derivation as deerlapse_key_derivation;
/// use std::error::Error;
///
/// use deerlapse_key_derivation::Secret;
/// use deerlapse_quic::{
///     FixedBit, KeyError, QuicSecret, SendError, Sender, ShortHeader, TAG_LEN, Version,
/// };
///
/// /// The connection ID of the peer.
/// const ID: [u8; 8] = [4; 8];
///
/// /// Returns the number of a packet with these frames, and the packet.
/// fn send(sender: &mut Sender, frames: &[u8]) -> Result<(u64, Vec<u8>), Box<dyn Error>> {
///     let number_len = sender.next_number_len().ok_or(SendError::NumberTooFar)?;
///     let header = ShortHeader {
///         destination_id: &ID,
///         phase: sender.phase(),
///         number_len,
///     };
///     let mut packet = vec![0; 1 + ID.len() + number_len];
///     let room = header.write(&mut packet)?;
///     packet.extend(frames);
///     packet.extend([0; TAG_LEN]);
///     let number = sender.send(&mut packet, room, FixedBit::Required)?;
///     Ok((number, packet))
/// }
///
/// let secret = QuicSecret::new(Version::One, Secret::aes_128_gcm([1; 32]));
/// let mut sender = Sender::from_secret(secret, 0)?.with_limit(2);
/// let (number, packet) = send(&mut sender, b"\x08\0hello")?;
/// assert_eq!((number, packet.len()), (0, 1 + 8 + 1 + 7 + 16));
/// assert_eq!(sender.remaining(), 1);
///
/// // The first key update waits for the handshake alone.
/// assert_eq!(
///     sender.initiate_update(),
///     Err(KeyError::HandshakeUnconfirmed)
/// );
/// sender.confirm_handshake();
/// sender.initiate_update()?;
/// let (number, _) = send(&mut sender, b"\x08\0again")?;
/// assert_eq!((number, sender.phase(), sender.remaining()), (1, true, 1));
///
/// // The peer has acknowledged packet 1 in a packet of this phase.
/// assert_eq!(sender.initiate_update(), Err(KeyError::PhaseUnacknowledged));
/// sender.acknowledged_in(1, true)?;
/// sender.initiate_update()?;
/// # Ok::<(), Box<dyn Error>>(())
/// ```
///
/// <details><summary>Model</summary>
///
/// ```text
/// ghost Value = { Sender };
/// ghost view = { λ s. record {
///   version = s.version;
///   key = s.key;
///   header_key = s.header_key;
///   secret = s.secret;
///   next = s.next;
///   largest = s.largest_acknowledged;
///   skipped = s.skipped;
///   phase = s.phase;
///   sealed = s.sealed;
///   limit = s.limit;
///   first = s.first;
///   first_of_phase = s.first_of_phase;
///   acknowledged = s.is_acknowledged;
///   confirmed = s.is_confirmed;
/// } };
/// ghost invariant = { λ s. (s.limit ≤ 2 ^ 23) × (s.next ≤ 2 ^ 62) × (expected s.largest_acknowledged ≤ s.next) };
/// ```
///
/// Definitions: [`Sender`](crate::specs::sending#Sender), [`expected`](crate::specs::numbers#expected).
///
/// </details>
pub struct Sender {
    version: Version,
    key: PacketKey,
    header_key: HeaderKey,
    /// The secret of `key`, or `None` if the sender was created with keys of the caller's.
    secret: Option<QuicSecret>,
    /// The number of the next packet.
    next: u64,
    largest_acknowledged: Option<u64>,
    skipped: Skipped,
    /// The Key Phase bit of `key`.
    phase: bool,
    /// The number of packets that `key` has sealed.
    sealed: u64,
    /// The number of packets that each key may seal.
    limit: u64,
    /// The lowest number whose acknowledgment allows the next key update: `first_of_phase`, or the end of a range of skipped
    /// numbers that was forgotten in this phase, if that is higher.
    first: u64,
    /// The next number when this phase began.
    first_of_phase: u64,
    /// Whether a packet of this phase is acknowledged, or it is the first phase.
    is_acknowledged: bool,
    /// Whether the handshake is confirmed.
    is_confirmed: bool,
}

impl Sender {
    /// Creates a sender of a secret, which it keeps: its keys and those after each key update derive from it (RFC 9001 sections
    /// 5.1 and 6.1), and its version is the secret's. The first packet has the number `first`.
    ///
    /// The Key Phase bit is 0, and the handshake is not confirmed.
    ///
    /// # Errors
    ///
    /// Fails with `NumbersEnded` if `first` is above 2^62.
    ///
    /// <details><summary>Contract</summary>
    ///
    /// ```text
    /// ensures accepted { IsOk result ↔ (first ≤ 2 ^ 62) }
    /// ensures refused { IsOkUnless result KeyError.NumbersEnded }
    /// ensures made { IfOk result (λ made. made
    ///     ≡ new_sender secret.version (secret_key secret) (secret_header_key secret) (Some secret) first) }
    /// ```
    ///
    /// Definitions: [`new_sender`](crate::specs::sending#new_sender), [`secret_key`](crate::specs::keys#secret_key),
    /// [`secret_header_key`](crate::specs::keys#secret_header_key).
    ///
    /// </details>
    pub fn from_secret(secret: QuicSecret, first: u64) -> Result<Self, KeyError> {
        let version = secret.version();
        let (key, header_key) = keys_of(&secret);
        Sender::with_keys(version, key, header_key, Some(secret), first)
    }

    /// Creates a sender with keys of the caller's, which must have the key lengths of the suite. The first packet has the
    /// number `first`.
    ///
    /// The Key Phase bit is 0, and the handshake is not confirmed.
    ///
    /// # Errors
    ///
    /// Fails with `KeyLength` if a key is not as long as the suite's, and with `NumbersEnded` if `first` is above 2^62.
    ///
    /// <details><summary>Contract</summary>
    ///
    /// ```text
    /// ensures accepted { IsOk result
    ///     ↔ (HasKeyLengths suite keys.entry.key.now keys.entry.header_key.now × (first ≤ 2 ^ 62)) }
    /// ensures key_len { IsErrOf result KeyError.KeyLength
    ///     ↔ ¬ HasKeyLengths suite keys.entry.key.now keys.entry.header_key.now }
    /// ensures ended { IsErrOf result KeyError.NumbersEnded
    ///     ↔ (HasKeyLengths suite keys.entry.key.now keys.entry.header_key.now × (2 ^ 62 < first)) }
    /// ensures made { IfOk result (λ made. made ≡ new_sender keys.entry.version
    ///     (packet_key suite keys.entry.key.now keys.entry.iv) (header_key suite keys.entry.header_key.now) None first) }
    /// ```
    ///
    /// Definitions: [`HasKeyLengths`](crate::specs::sending#HasKeyLengths),
    /// [`new_sender`](crate::specs::sending#new_sender), [`packet_key`](crate::specs::keys#packet_key),
    /// [`header_key`](crate::specs::keys#header_key).
    ///
    /// </details>
    pub fn new(suite: Suite, keys: Keys<'_>, first: u64) -> Result<Self, KeyError> {
        let header_key = HeaderKey::new(header_algorithm(suite), keys.header_key)?;
        let key = PacketKey::new(algorithm(suite), keys.key, keys.iv)?;
        Sender::with_keys(keys.version, key, header_key, None, first)
    }

    /// Creates a sender with these keys. `secret` is their secret, or `None` for keys of the caller's.
    // ensures accepted { IsOk result ↔ (first ≤ 2 ^ 62) }
    // ensures refused { IsOkUnless result KeyError.NumbersEnded }
    // ensures made { IfOk result (λ made. made ≡ new_sender version key header_key secret first) }
    fn with_keys(
        version: Version,
        key: PacketKey,
        header_key: HeaderKey,
        secret: Option<QuicSecret>,
        first: u64,
    ) -> Result<Self, KeyError> {
        if first > NUMBERS_END {
            return Err(KeyError::NumbersEnded);
        }
        Ok(Sender {
            version,
            key,
            header_key,
            secret,
            next: first,
            largest_acknowledged: None,
            skipped: Skipped::new(),
            phase: false,
            sealed: 0,
            limit: CONFIDENTIALITY_LIMIT,
            first,
            first_of_phase: first,
            is_acknowledged: true,
            is_confirmed: false,
        })
    }

    /// Lowers the number of packets that each key may seal to `limit`. A higher limit has no effect.
    ///
    /// <details><summary>Contract</summary>
    ///
    /// ```text
    /// ensures { result ≡ record self { limit = min self.limit limit } }
    /// ```
    ///
    /// </details>
    pub fn with_limit(mut self, limit: u64) -> Self {
        self.limit = self.limit.min(limit);
        self
    }

    /// Returns the version of the packets.
    ///
    /// <details><summary>Contract</summary>
    ///
    /// ```text
    /// ensures { result ≡ self.now.version }
    /// ```
    ///
    /// </details>
    pub fn version(&self) -> Version {
        self.version
    }

    /// Returns the number of the next packet, or 2^62 if no number is left.
    ///
    /// <details><summary>Contract</summary>
    ///
    /// ```text
    /// ensures { result ≡ self.now.next }
    /// ```
    ///
    /// </details>
    pub fn next_number(&self) -> u64 {
        self.next
    }

    /// Returns the largest number of the space that the peer has acknowledged, or `None` if there is none.
    ///
    /// <details><summary>Contract</summary>
    ///
    /// ```text
    /// ensures { result ≡ self.now.largest }
    /// ```
    ///
    /// </details>
    pub fn largest_acknowledged(&self) -> Option<u64> {
        self.largest_acknowledged
    }

    /// Returns the number of packets that the current key has sealed.
    ///
    /// <details><summary>Contract</summary>
    ///
    /// ```text
    /// ensures { result ≡ self.now.sealed }
    /// ```
    ///
    /// </details>
    pub fn sealed(&self) -> u64 {
        self.sealed
    }

    /// Returns the number of packets that each key may seal.
    ///
    /// <details><summary>Contract</summary>
    ///
    /// ```text
    /// ensures { result ≡ self.now.limit }
    /// ```
    ///
    /// </details>
    pub fn limit(&self) -> u64 {
        self.limit
    }

    /// Returns how many packets can still be sent without a key update: the number of packets that the current key may still
    /// seal, or the number of packet numbers that are left in the space, whichever is lower.
    ///
    /// <details><summary>Contract</summary>
    ///
    /// ```text
    /// ensures { result ≡ min (self.now.limit - self.now.sealed) (2 ^ 62 - self.now.next) }
    /// ```
    ///
    /// </details>
    pub fn remaining(&self) -> u64 {
        let numbers = NUMBERS_END - self.next;
        self.limit.saturating_sub(self.sealed).min(numbers)
    }

    /// Returns the Key Phase bit of the next packet (RFC 9000 section 17.3.1).
    ///
    /// <details><summary>Contract</summary>
    ///
    /// ```text
    /// ensures { result ≡ self.now.phase }
    /// ```
    ///
    /// </details>
    pub fn phase(&self) -> bool {
        self.phase
    }

    /// Returns the first number of the current key phase: the next number at the time when the sender was created, keys were
    /// installed, or the keys were last updated. A packet that was sent is of the current phase if its number isn't below this
    /// one, and of an earlier phase otherwise. `skip_to` doesn't change it.
    ///
    /// <details><summary>Contract</summary>
    ///
    /// ```text
    /// ensures { result ≡ self.now.first_of_phase }
    /// ```
    ///
    /// </details>
    pub fn first_of_phase(&self) -> u64 {
        self.first_of_phase
    }

    /// Returns the least length of the next packet number's encoding in bytes, from 1 to 4 (RFC 9000 section 17.1, appendix
    /// A.2). `send` takes this length and any longer one, up to 4 bytes.
    ///
    /// Returns `None` if `send` cannot send the number: no number is left, or 4 bytes are too few.
    ///
    /// <details><summary>Contract</summary>
    ///
    /// ```text
    /// ensures encodable { IsSome result ↔ (IsNumber self.now.next × IsEncodable self.now) }
    /// ensures rooms { IfSome result (λ n. (start end : ℕ)
    ///     → IsRoom self.now.next self.now.largest start end ↔ ((start + n ≤ end) × (end ≤ start + 4))) }
    /// ensures few { IfSome result (λ n. (0 < n) × (n ≤ 4)) }
    /// ```
    ///
    /// Definitions: [`IsNumber`](crate::specs::packet#IsNumber), [`IsEncodable`](crate::specs::sending#IsEncodable),
    /// [`IsRoom`](crate::specs::sending#IsRoom).
    ///
    /// </details>
    pub fn next_number_len(&self) -> Option<usize> {
        number_len(self.next, self.largest_acknowledged)
    }

    /// Leaves the numbers below `number` unused, so that `number` is the next one. A peer that acknowledges one of them has not
    /// received it (RFC 9000 section 21.4), and `acknowledged` rejects that.
    ///
    /// Up to eight ranges of skipped numbers are kept, over key updates and installed keys. A skip that needs a ninth forgets the
    /// lowest one, whose numbers are acknowledged from then on as if they were sent.
    ///
    /// # Errors
    ///
    /// Fails with `NumberUsed` if the next number is already above `number`, and with `NumbersEnded` if `number` is above 2^62.
    /// The sender is then unchanged.
    ///
    /// <details><summary>Contract</summary>
    ///
    /// ```text
    /// ensures accepted { IsOk result ↔ ((self.old.next ≤ number) × (number ≤ 2 ^ 62)) }
    /// ensures used { IsErrOf result NumberError.NumberUsed ↔ (number < self.old.next) }
    /// ensures ended { IsErrOf result NumberError.NumbersEnded ↔ (2 ^ 62 < number) }
    /// ensures skipped { OnOk result (self.new ≡ after_skip self.old number) }
    /// ensures kept { OnErr result (self.new ≡ self.old) }
    /// ```
    ///
    /// Definitions: [`after_skip`](crate::specs::sending#after_skip).
    ///
    /// </details>
    pub fn skip_to(&mut self, number: u64) -> Result<(), NumberError> {
        if number < self.next {
            return Err(NumberError::NumberUsed);
        }
        if number > NUMBERS_END {
            return Err(NumberError::NumbersEnded);
        }
        if number > self.next {
            let forgotten = self.skipped.add_range(self.next, number);
            self.first = self.first.max(forgotten);
        }
        self.next = number;
        Ok(())
    }

    /// Records that the handshake is confirmed (RFC 9001 section 4.1.2).
    ///
    /// <details><summary>Contract</summary>
    ///
    /// ```text
    /// ensures { self.new ≡ record self.old { confirmed = true } }
    /// ```
    ///
    /// </details>
    pub fn confirm_handshake(&mut self) {
        self.is_confirmed = true;
    }

    /// Records that the peer has acknowledged the packet with this number. The largest acknowledged number of the space, which
    /// stays over key updates and installed keys, determines how many bytes later numbers need (RFC 9000 section 17.1). A peer
    /// that acknowledges what it didn't receive shortens only numbers that it must decode itself.
    ///
    /// A number of the current key phase allows the next key update (RFC 9001 section 6.1), unless it is below the end of a range
    /// of skipped numbers that was forgotten.
    ///
    /// # Errors
    ///
    /// Fails with `NeverSent` if `number` is not below the next number, or is in a range of skipped numbers that is kept (see
    /// `skip_to`). The sender is then unchanged, and the connection must be closed (RFC 9000 section 13.1).
    ///
    /// <details><summary>Contract</summary>
    ///
    /// ```text
    /// ensures accepted { IsOk result ↔ IsFalse (is_unsent self.old number) }
    /// ensures refused { IsOkUnless result NumberError.NeverSent }
    /// ensures acknowledged { OnOk result (self.new ≡ after_acknowledgement self.old number) }
    /// ensures kept { OnErr result (self.new ≡ self.old) }
    /// ```
    ///
    /// Definitions: [`is_unsent`](crate::specs::sending#is_unsent),
    /// [`after_acknowledgement`](crate::specs::sending#after_acknowledgement).
    ///
    /// </details>
    pub fn acknowledged(&mut self, number: u64) -> Result<(), NumberError> {
        if self.is_unsent(number) {
            return Err(NumberError::NeverSent);
        }
        self.largest_acknowledged = match self.largest_acknowledged {
            Some(largest) => Some(largest.max(number)),
            None => Some(number),
        };
        if number >= self.first {
            self.is_acknowledged = true;
        }
        Ok(())
    }

    /// Records an acknowledgment as `acknowledged` does, where `phase` is the Key Phase bit of the packet that brought it
    /// (`Received::phase`).
    ///
    /// # Errors
    ///
    /// Fails with `NeverSent` as `acknowledged` does, and with `UpdateUnanswered` if `phase` differs from the sender's and
    /// `number` is not below `first_of_phase`: the peer received a packet of the current keys, and answered it under older ones.
    /// The sender is then unchanged, and the connection is closed (RFC 9001 section 6.2). So an update of the peer must be
    /// followed before the acknowledgments of the packet that begins it are recorded. A packet of two phases before has the bit
    /// of the current one, and isn't told from it: the receiver has to forget the previous key before an update is initiated
    /// (section 6.5).
    ///
    /// <details><summary>Contract</summary>
    ///
    /// ```text
    /// ensures accepted { IsOk result
    ///     ↔ (IsFalse (is_unsent self.old number) × ¬ IsUnanswered self.old number phase) }
    /// ensures never_sent { IsErrOf result NumberError.NeverSent ↔ IsTrue (is_unsent self.old number) }
    /// ensures unanswered { IsErrOf result NumberError.UpdateUnanswered
    ///     ↔ (IsFalse (is_unsent self.old number) × IsUnanswered self.old number phase) }
    /// ensures acknowledged { OnOk result (self.new ≡ after_acknowledgement self.old number) }
    /// ensures kept { OnErr result (self.new ≡ self.old) }
    /// ```
    ///
    /// Definitions: [`is_unsent`](crate::specs::sending#is_unsent),
    /// [`IsUnanswered`](crate::specs::sending#IsUnanswered),
    /// [`after_acknowledgement`](crate::specs::sending#after_acknowledgement).
    ///
    /// </details>
    pub fn acknowledged_in(&mut self, number: u64, phase: bool) -> Result<(), NumberError> {
        if !self.is_unsent(number) && number >= self.first_of_phase && phase != self.phase {
            return Err(NumberError::UpdateUnanswered);
        }
        self.acknowledged(number)
    }

    /// Returns whether this number was not sent, as far as the ranges of skipped numbers tell.
    // ensures { result ≡ is_unsent self.now number }
    fn is_unsent(&self, number: u64) -> bool {
        number >= self.next || self.skipped.contains(number)
    }

    /// Initiates a key update: continues with the keys of the next secret, in the other key phase (RFC 9001 section 6.1). The
    /// header key is unchanged.
    ///
    /// # Errors
    ///
    /// Fails with `HandshakeUnconfirmed` if the handshake is not confirmed, with `PhaseUnacknowledged` if there was an update
    /// and no packet of its phase is acknowledged yet, and with `NoSecret` if the sender is not made of a secret. The sender is
    /// then unchanged.
    ///
    /// <details><summary>Contract</summary>
    ///
    /// ```text
    /// ensures accepted { IsOk result
    ///     ↔ (IsTrue self.old.confirmed × IsTrue self.old.acknowledged × IsSome self.old.secret) }
    /// ensures unconfirmed { IsErrOf result KeyError.HandshakeUnconfirmed ↔ ¬ IsTrue self.old.confirmed }
    /// ensures unacknowledged { IsErrOf result KeyError.PhaseUnacknowledged
    ///     ↔ (IsTrue self.old.confirmed × ¬ IsTrue self.old.acknowledged) }
    /// ensures no_secret { IsErrOf result KeyError.NoSecret
    ///     ↔ (IsTrue self.old.confirmed × IsTrue self.old.acknowledged × ¬ IsSome self.old.secret) }
    /// ensures updated { OnOk result (IfSome self.old.secret (λ held. self.new ≡ after_derived_update self.old held)) }
    /// ensures kept { OnErr result (self.new ≡ self.old) }
    /// ```
    ///
    /// Definitions: [`after_derived_update`](crate::specs::sending#after_derived_update).
    ///
    /// </details>
    pub fn initiate_update(&mut self) -> Result<(), KeyError> {
        self.check_update()?;
        self.follow_update()
    }

    /// Initiates a key update to a packet key and an IV of the caller's, as `initiate_update` does to those of the next secret.
    ///
    /// # Errors
    ///
    /// Fails with `HandshakeUnconfirmed` and `PhaseUnacknowledged` as `initiate_update` does, with `KeysDerived` if the sender is
    /// made of a secret, and with `KeyLength` if `key` is not as long as the suite's keys. The sender is then unchanged.
    ///
    /// <details><summary>Contract</summary>
    ///
    /// ```text
    /// ensures accepted { IsOk result ↔ (IsTrue self.old.confirmed × IsTrue self.old.acknowledged
    ///     × ¬ IsSome self.old.secret × (length key.now ≡ key_len self.old.key.algorithm)) }
    /// ensures unconfirmed { IsErrOf result KeyError.HandshakeUnconfirmed ↔ ¬ IsTrue self.old.confirmed }
    /// ensures unacknowledged { IsErrOf result KeyError.PhaseUnacknowledged
    ///     ↔ (IsTrue self.old.confirmed × ¬ IsTrue self.old.acknowledged) }
    /// ensures derived { IsErrOf result KeyError.KeysDerived
    ///     ↔ (IsTrue self.old.confirmed × IsTrue self.old.acknowledged × IsSome self.old.secret) }
    /// ensures key_len { IsErrOf result KeyError.KeyLength
    ///     ↔ (IsTrue self.old.confirmed × IsTrue self.old.acknowledged × ¬ IsSome self.old.secret
    ///     × (length key.now ≢ key_len self.old.key.algorithm)) }
    /// ensures updated { OnOk result (self.new
    ///     ≡ after_update self.old (record self.old.key { bytes = key.now; iv = iv }) None) }
    /// ensures kept { OnErr result (self.new ≡ self.old) }
    /// ```
    ///
    /// Definitions: [`key_len`](aead_ciphers::specs::algorithm#key_len),
    /// [`after_update`](crate::specs::sending#after_update).
    ///
    /// </details>
    pub fn initiate_update_with(
        &mut self,
        key: &[u8],
        iv: [u8; NONCE_LEN],
    ) -> Result<(), KeyError> {
        self.check_update()?;
        self.follow_update_with(key, iv)
    }

    /// Returns whether `initiate_update` would succeed.
    ///
    /// <details><summary>Contract</summary>
    ///
    /// ```text
    /// ensures { IsTrue result
    ///     ↔ (IsTrue self.now.confirmed × IsTrue self.now.acknowledged × IsSome self.now.secret) }
    /// ```
    ///
    /// </details>
    pub fn can_update(&self) -> bool {
        self.is_confirmed && self.is_acknowledged && self.secret.is_some()
    }

    /// Checks that this endpoint may initiate a key update.
    // ensures accepted { IsOk result ↔ (IsTrue self.now.confirmed × IsTrue self.now.acknowledged) }
    // ensures unconfirmed { IsErrOf result KeyError.HandshakeUnconfirmed ↔ ¬ IsTrue self.now.confirmed }
    // ensures unacknowledged { IsErrOf result KeyError.PhaseUnacknowledged
    //     ↔ (IsTrue self.now.confirmed × ¬ IsTrue self.now.acknowledged) }
    // ensures others { ¬ IsErrOf result KeyError.NoSecret × ¬ IsErrOf result KeyError.KeysDerived
    //     × ¬ IsErrOf result KeyError.KeyLength }
    fn check_update(&self) -> Result<(), KeyError> {
        if !self.is_confirmed {
            return Err(KeyError::HandshakeUnconfirmed);
        }
        if !self.is_acknowledged {
            return Err(KeyError::PhaseUnacknowledged);
        }
        Ok(())
    }

    /// Follows a key update of the peer: continues with the keys of the next secret, in the other key phase (RFC 9001 section
    /// 6.2). The header key is unchanged.
    ///
    /// # Errors
    ///
    /// Fails with `NoSecret` if the sender is not made of a secret. The sender is then unchanged.
    ///
    /// <details><summary>Contract</summary>
    ///
    /// ```text
    /// ensures accepted { IsOk result ↔ IsSome self.old.secret }
    /// ensures refused { IsOkUnless result KeyError.NoSecret }
    /// ensures updated { OnOk result (IfSome self.old.secret (λ held. self.new ≡ after_derived_update self.old held)) }
    /// ensures kept { OnErr result (self.new ≡ self.old) }
    /// ```
    ///
    /// Definitions: [`after_derived_update`](crate::specs::sending#after_derived_update).
    ///
    /// </details>
    pub fn follow_update(&mut self) -> Result<(), KeyError> {
        let Some(secret) = &self.secret else {
            return Err(KeyError::NoSecret);
        };
        let next = secret.next();
        let key = PacketKey::from_secret(&next);
        self.start_next_phase(key, Some(next));
        Ok(())
    }

    /// Follows a key update of the peer with a packet key and an IV of the caller's, as `follow_update` does with those of the
    /// next secret.
    ///
    /// # Errors
    ///
    /// Fails with `KeysDerived` if the sender is made of a secret, and with `KeyLength` if `key` is not as long as the suite's
    /// keys. The sender is then unchanged.
    ///
    /// <details><summary>Contract</summary>
    ///
    /// ```text
    /// ensures accepted { IsOk result
    ///     ↔ (¬ IsSome self.old.secret × (length key.now ≡ key_len self.old.key.algorithm)) }
    /// ensures derived { IsErrOf result KeyError.KeysDerived ↔ IsSome self.old.secret }
    /// ensures key_len { IsErrOf result KeyError.KeyLength
    ///     ↔ (¬ IsSome self.old.secret × (length key.now ≢ key_len self.old.key.algorithm)) }
    /// ensures updated { OnOk result (self.new
    ///     ≡ after_update self.old (record self.old.key { bytes = key.now; iv = iv }) None) }
    /// ensures kept { OnErr result (self.new ≡ self.old) }
    /// ```
    ///
    /// Definitions: [`key_len`](aead_ciphers::specs::algorithm#key_len),
    /// [`after_update`](crate::specs::sending#after_update).
    ///
    /// </details>
    pub fn follow_update_with(&mut self, key: &[u8], iv: [u8; NONCE_LEN]) -> Result<(), KeyError> {
        if self.secret.is_some() {
            return Err(KeyError::KeysDerived);
        }
        let key = PacketKey::new(self.key.algorithm(), key, iv)?;
        self.start_next_phase(key, None);
        Ok(())
    }

    /// Continues with this key, in the next key phase, which begins with the next number.
    // ensures { self.new ≡ after_update self.old key secret }
    fn start_next_phase(&mut self, key: PacketKey, secret: Option<QuicSecret>) {
        self.key = key;
        self.secret = secret;
        self.phase = !self.phase;
        self.sealed = 0;
        self.first = self.next;
        self.first_of_phase = self.next;
        self.is_acknowledged = false;
    }

    /// Continues with the keys of another secret in the same space of numbers: turns the sender of 0-RTT packets into that of
    /// 1-RTT packets (RFC 9000 section 12.3), and gives a client the Initial keys that it has after a Retry packet, when its
    /// Initial packets continue with their numbers (section 17.2.5.3).
    ///
    /// The next number, the largest acknowledged one and the limit stay. Everything else is as `from_secret` creates it: the
    /// version is the secret's.
    ///
    /// # Errors
    ///
    /// Fails with `NoSecret` if the sender is not made of a secret. The sender is then unchanged.
    ///
    /// <details><summary>Contract</summary>
    ///
    /// ```text
    /// ensures accepted { IsOk result ↔ IsSome self.old.secret }
    /// ensures refused { IsOkUnless result KeyError.NoSecret }
    /// ensures installed { OnOk result (self.new
    ///     ≡ with_installed_keys self.old secret.version (secret_key secret) (secret_header_key secret) (Some secret)) }
    /// ensures kept { OnErr result (self.new ≡ self.old) }
    /// ```
    ///
    /// Definitions: [`with_installed_keys`](crate::specs::sending#with_installed_keys),
    /// [`secret_key`](crate::specs::keys#secret_key), [`secret_header_key`](crate::specs::keys#secret_header_key).
    ///
    /// </details>
    pub fn install_secret(&mut self, secret: QuicSecret) -> Result<(), KeyError> {
        if self.secret.is_none() {
            return Err(KeyError::NoSecret);
        }
        let version = secret.version();
        let (key, header_key) = keys_of(&secret);
        self.install(version, key, header_key, Some(secret));
        Ok(())
    }

    /// Continues with keys of the caller's, as `install_secret` does with those of a secret: after 0-RTT packets, and after a
    /// Retry packet, with the numbers of the Initial packets before it (RFC 9000 section 17.2.5.3).
    ///
    /// # Errors
    ///
    /// Fails with `KeysDerived` if the sender is made of a secret, and with `KeyLength` if a key is not as long as the suite's.
    /// The sender is then unchanged.
    ///
    /// <details><summary>Contract</summary>
    ///
    /// ```text
    /// ensures accepted { IsOk result ↔ (¬ IsSome self.old.secret
    ///     × HasKeyLengths suite keys.entry.key.now keys.entry.header_key.now) }
    /// ensures derived { IsErrOf result KeyError.KeysDerived ↔ IsSome self.old.secret }
    /// ensures key_len { IsErrOf result KeyError.KeyLength ↔ (¬ IsSome self.old.secret
    ///     × ¬ HasKeyLengths suite keys.entry.key.now keys.entry.header_key.now) }
    /// ensures installed { OnOk result (self.new
    ///     ≡ with_installed_keys self.old keys.entry.version (packet_key suite keys.entry.key.now keys.entry.iv)
    ///     (header_key suite keys.entry.header_key.now) None) }
    /// ensures kept { OnErr result (self.new ≡ self.old) }
    /// ```
    ///
    /// Definitions: [`HasKeyLengths`](crate::specs::sending#HasKeyLengths),
    /// [`with_installed_keys`](crate::specs::sending#with_installed_keys),
    /// [`packet_key`](crate::specs::keys#packet_key), [`header_key`](crate::specs::keys#header_key).
    ///
    /// </details>
    pub fn install_keys(&mut self, suite: Suite, keys: Keys<'_>) -> Result<(), KeyError> {
        if self.secret.is_some() {
            return Err(KeyError::KeysDerived);
        }
        let header_key = HeaderKey::new(header_algorithm(suite), keys.header_key)?;
        let key = PacketKey::new(algorithm(suite), keys.key, keys.iv)?;
        self.install(keys.version, key, header_key, None);
        Ok(())
    }

    /// Continues with these keys, in the first key phase.
    // ensures { self.new ≡ with_installed_keys self.old version key header_key secret }
    fn install(
        &mut self,
        version: Version,
        key: PacketKey,
        header_key: HeaderKey,
        secret: Option<QuicSecret>,
    ) {
        self.version = version;
        self.key = key;
        self.header_key = header_key;
        self.secret = secret;
        self.phase = false;
        self.sealed = 0;
        self.first = self.next;
        self.first_of_phase = self.next;
        self.is_acknowledged = true;
        self.is_confirmed = false;
    }

    /// Sends a packet, and returns its number: writes the number to the range `number`, and its length and the key phase to the
    /// first byte, clears the reserved bits, encrypts the payload in place, writes the tag to the last 16 bytes, and masks the
    /// header.
    ///
    /// The packet is the header, which ends with room for the number, the payload, and 16 bytes for the tag. The room has from
    /// `next_number_len` to 4 bytes. A long header's Length field, which comes before the number, is the caller's
    /// responsibility.
    ///
    /// # Errors
    ///
    /// Fails with `TooShort` if the packet has fewer than `number.end + 16` bytes; with `TooLong` if it is longer than AES-GCM
    /// allows; with `NumberAtFirstByte` if `number.start` is 0; with `NoSample` if number and payload together have fewer than
    /// 4 bytes; with `NoProtection` for a Version Negotiation packet, or one of the type bits that Retry has in the sender's
    /// version; with `OtherVersion` for a long header of another version than the sender's; with `NoFixedBit` if the fixed bit is
    /// 0 and `fixed_bit` is `Required`; with `EmptyPayload` if it has just `number.end + 16` bytes; with `KeyUsedUp` if the key
    /// has reached its limit; with `NumbersEnded` if no number is left; with `NumberTooFar` if 4 bytes cannot encode the number;
    /// and with `NumberLength` if the room has fewer bytes than that, or more than 4. The packet and the sender are then
    /// unchanged.
    ///
    /// <details><summary>Contract</summary>
    ///
    /// ```text
    /// ensures outcome { SendOutcome self.old 0 fixed_bit number.start number.end
    ///     (SenderRefuses self.old fixed_bit number.start number.end packet.old) packet.old packet.new
    ///     result self.old.next self.old self.new (after_send self.old) }
    /// ```
    ///
    /// Definitions: [`SendOutcome`](crate::specs::sending#SendOutcome),
    /// [`SenderRefuses`](crate::specs::sending#SenderRefuses), [`after_send`](crate::specs::sending#after_send).
    ///
    /// </details>
    pub fn send(
        &mut self,
        packet: &mut [u8],
        number: Range<usize>,
        fixed_bit: FixedBit,
    ) -> Result<u64, SendError> {
        let number_at = number.start;
        let header_len = number.end;
        check_packet(packet, number_at, header_len, fixed_bit, self.version)?;
        self.check_number(number_at, header_len)?;
        let next = self.next;
        write_number(packet, number_at, header_len, next, self.phase);
        self.key.seal_fitting(next, packet, header_len);
        self.header_key.protect_sampled(packet, number_at);
        self.next += 1;
        self.sealed += 1;
        Ok(next)
    }

    /// Checks that the key may seal another packet, and that the next number can be written from byte `number_at` up to
    /// `header_len`.
    // ensures accepted { IsOk result ↔ IsInTurn self.now number_at header_len }
    // ensures refused { IfErr result (NumberRefuses self.now number_at header_len) }
    // ensures bound { OnOk result (header_len ≤ number_at + 4) }
    fn check_number(&self, number_at: usize, header_len: usize) -> Result<(), SendError> {
        if self.sealed >= self.limit {
            return Err(SendError::KeyUsedUp);
        }
        if self.next >= NUMBERS_END {
            return Err(SendError::NumbersEnded);
        }
        let least = self.next_number_len().ok_or(SendError::NumberTooFar)?;
        if header_len < number_at {
            return Err(SendError::NumberLength);
        }
        if !(least..=MAX_NUMBER_LEN).contains(&(header_len - number_at)) {
            return Err(SendError::NumberLength);
        }
        Ok(())
    }
}

/// Checks that the packet can be sealed and protected in this version.
// ensures accepted { IsOk result ↔ IsSealable version fixed_bit number_at header_len packet.now }
// ensures refused { IfErr result (PacketRefuses version fixed_bit number_at header_len packet.now) }
fn check_packet(
    packet: &[u8],
    number_at: usize,
    header_len: usize,
    fixed_bit: FixedBit,
    version: Version,
) -> Result<(), SendError> {
    let payload_len = payload_len(packet, header_len).ok_or(SendError::TooShort)?;
    if !fits(header_len, payload_len) {
        return Err(SendError::TooLong);
    }
    if number_at == 0 {
        return Err(SendError::NumberAtFirstByte);
    }
    if packet.len() < SAMPLE_END || packet.len() - SAMPLE_END < number_at {
        return Err(SendError::NoSample);
    }
    if is_retry_or_version_negotiation(version, packet) {
        return Err(SendError::NoProtection);
    }
    let number = header_version(packet);
    if is_other_version(version, number) {
        return Err(SendError::OtherVersion);
    }
    if fixed_bit.is_lacking(number, packet[0]) {
        return Err(SendError::NoFixedBit);
    }
    if payload_len == 0 {
        return Err(SendError::EmptyPayload);
    }
    Ok(())
}

/// Returns the version in a long header, or `None` for a short one.
// requires { 5 ≤ length packet.now }
// ensures { result ≡ header_version packet.now }
fn header_version(packet: &[u8]) -> Option<u32> {
    if is_long(packet[0]) {
        Some(version_at(packet, 0))
    } else {
        None
    }
}

/// Returns whether the header is of a type without protection: Version Negotiation or, by the type bits of this version, Retry.
// requires { 5 ≤ length packet.now }
// ensures { result ≡ is_retry_or_version_negotiation version packet.now }
fn is_retry_or_version_negotiation(version: Version, packet: &[u8]) -> bool {
    let is_retry = bits_of(packet[0]) == type_bits(version).retry;
    let is_version_negotiation =
        packet[1] == 0 && packet[2] == 0 && packet[3] == 0 && packet[4] == 0;
    is_long(packet[0]) && (is_retry || is_version_negotiation)
}

/// Writes the packet number, and into the first byte its length and the key phase.
// requires after_first { 0 < number_at }
// requires some { number_at < header_len }
// requires few { header_len ≤ number_at + 4 }
// requires within { header_len ≤ length packet.old }
// ensures { packet.new ≡ numbered_packet phase number number_at header_len packet.old }
fn write_number(packet: &mut [u8], number_at: usize, header_len: usize, number: u64, phase: bool) {
    let first = packet[0];
    let len = header_len - number_at;
    let bytes = number.to_be_bytes();
    packet[number_at..header_len].copy_from_slice(&bytes[bytes.len() - len..]);
    packet[0] = first_byte(first, len, phase);
}

/// Returns the first byte of a header with the length of the packet number and, in a short header, the key phase. The reserved
/// bits are 0.
// requires { (0 < number_len) × (number_len ≤ 4) }
// ensures { result ≡ first_byte phase number_len first }
fn first_byte(first: u8, number_len: usize, phase: bool) -> u8 {
    let low = number_len as u8 - 1;
    if is_long(first) {
        first & !LONG_MASKED_BITS | low
    } else {
        let key_phase = if phase { KEY_PHASE_BIT } else { 0 };
        first & !SHORT_MASKED_BITS | key_phase | low
    }
}
