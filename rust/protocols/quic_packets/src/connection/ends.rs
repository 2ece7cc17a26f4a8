// Written by tools/rust from crates/quic_packets/src/connection/ends.rt. Don't edit.
//! The keys and packet numbers of one encryption level: its sender, its receiver, and the numbers that were received.

use crate::connection::incoming::{Attempt, PeerUpdate};
use crate::datagram::Packet;
use crate::failures::Failures;
use crate::fixed_bit::FixedBit;
use crate::key_error::KeyError;
use crate::number_error::NumberError;
use crate::receive_error::ReceiveError;
use crate::receiver::{Received, Receiver};
use crate::send_error::SendError;
use crate::sender::Sender;
use crate::space::Space;
use core::ops::Range;
use key_derivation::quic::QuicSecret;

/// The number of a packet that was sent, and whether a key update followed it.
#[derive(Clone, Copy, PartialEq, Eq, Debug)]
pub struct SentPacket {
    /// The packet number.
    pub number: u64,
    /// Whether a key update followed the packet, so that the next one is of the next key phase (RFC 9001 section 6.1).
    pub keys_updated: bool,
}

/// A key update is due once fewer packets than this are left to the key, and fewer than half of its limit.
const LEFT_AT_UPDATE: u64 = 1 << 16;

/// The keys and packet numbers of one encryption level.
// Model:
// ghost Value = { Ends };
// ghost view = { λ e. record {
//   sender = e.sender;
//   receiver = e.receiver;
//   space = e.space;
//   discarded = e.is_discarded;
// } };
// ghost invariant = { λ e. is_derived e.sender ≡ true };
pub(crate) struct Ends<const W: usize> {
    sender: Option<Sender>,
    receiver: Option<Receiver>,
    space: Space<W>,
    /// Whether the keys were discarded, so that none can be installed.
    is_discarded: bool,
}

impl<const W: usize> Ends<W> {
    /// Creates a level without keys.
    // requires some { 2 ≤ W }
    // requires few { W ≤ 64 }
    // ensures { result ≡ no_ends W }
    pub(crate) fn new() -> Self {
        Ends {
            sender: None,
            receiver: None,
            space: Space::new(),
            is_discarded: false,
        }
    }

    /// Returns the sender, or `None` if no keys are installed for it.
    // ensures { option_copied result ≡ self.now.sender }
    pub(crate) fn sender(&self) -> Option<&Sender> {
        self.sender.as_ref()
    }

    /// Returns the numbers that were received.
    // ensures { result.now ≡ self.now.space }
    pub(crate) fn space(&self) -> &Space<W> {
        &self.space
    }

    /// Returns whether the keys of the receiver are installed.
    // ensures { IsTrue result ↔ IsSome self.now.receiver }
    pub(crate) fn has_receiver(&self) -> bool {
        self.receiver.is_some()
    }

    /// Returns whether the keys were discarded.
    // ensures { result ≡ self.now.discarded }
    pub(crate) fn is_discarded(&self) -> bool {
        self.is_discarded
    }

    /// Checks that the keys were not discarded, and fails with `Discarded` otherwise.
    // ensures accepted { IsOk result ↔ IsFalse self.now.discarded }
    // ensures refused { IsOkUnless result KeyError.Discarded }
    fn check_not_discarded(&self) -> Result<(), KeyError> {
        if self.is_discarded {
            return Err(KeyError::Discarded);
        }
        Ok(())
    }

    /// Creates the sender of a secret, or lets the one that is there continue with the keys of the secret.
    // ensures installs { Installs self.old.discarded result self.old self.new
    //     (record self.old { sender = Some (installed self.old.sender secret limit) }) }
    pub(crate) fn install_sender(
        &mut self,
        secret: QuicSecret,
        limit: u64,
    ) -> Result<(), KeyError> {
        self.check_not_discarded()?;
        if let Some(sender) = &mut self.sender {
            let Ok(()) = sender.install_secret(secret) else {
                unreachable!();
            };
            return Ok(());
        }
        let Ok(sender) = Sender::from_secret(secret, 0) else {
            unreachable!();
        };
        self.sender = Some(sender.with_limit(limit));
        Ok(())
    }

    /// Creates the receiver of a secret, in place of the one that is there.
    // ensures installs { Installs self.old.discarded result self.old self.new (record self.old {
    //   receiver = Some (new_receiver secret.version (secret_header_key secret) (secret_key secret) (Some secret));
    // }) }
    pub(crate) fn install_receiver(&mut self, secret: QuicSecret) -> Result<(), KeyError> {
        self.check_not_discarded()?;
        self.receiver = Some(Receiver::from_secret(secret));
        Ok(())
    }

    /// Sets the receiver's next key, unless it is set or there is no receiver.
    // ensures { self.new ≡ with_next_key self.old }
    pub(crate) fn set_next_key(&mut self) {
        if let Some(receiver) = &mut self.receiver {
            let _ = receiver.set_next();
        }
    }

    /// Discards the keys of both directions, so that none can be installed again.
    // ensures { self.new ≡ after_discard self.old }
    pub(crate) fn discard(&mut self) {
        self.sender = None;
        self.receiver = None;
        self.is_discarded = true;
    }

    /// Sends a packet, if the key may seal more than `kept_for_close` packets. No key update follows.
    // ensures outcome { EndOutcome self.old.sender kept_for_close fixed_bit number.start number.end packet.old packet.new
    //     result (λ s. false) self.old self.new (λ s. sent self.old s) }
    pub(crate) fn send(
        &mut self,
        packet: &mut [u8],
        number: Range<usize>,
        fixed_bit: FixedBit,
        kept_for_close: u64,
    ) -> Result<SentPacket, SendError> {
        let Some(sender) = &mut self.sender else {
            return Err(SendError::NoKeys);
        };
        if sender.limit().saturating_sub(sender.sealed()) <= kept_for_close {
            return Err(SendError::KeyUsedUp);
        }
        let number = sender.send(packet, number, fixed_bit)?;
        Ok(SentPacket {
            number,
            keys_updated: false,
        })
    }

    /// Sends a 1-RTT packet, initiates a key update if one is due, and sets the receiver's next key.
    // ensures outcome { EndOutcome self.old.sender (kept_for_close self.old) fixed_bit number.start number.end
    //     packet.old packet.new result (λ s. initiates_update (sent self.old s)) self.old self.new
    //     (λ s. with_next_key (updated_if_due (sent self.old s))) }
    pub(crate) fn send_one_rtt(
        &mut self,
        packet: &mut [u8],
        number: Range<usize>,
        fixed_bit: FixedBit,
    ) -> Result<SentPacket, SendError> {
        let kept_for_close = self.kept_for_close();
        let sent = self.send(packet, number, fixed_bit, kept_for_close)?;
        let keys_updated = self.initiate_update_if_due();
        self.set_next_key();
        Ok(SentPacket {
            number: sent.number,
            keys_updated,
        })
    }

    /// Returns how many packets of a 1-RTT key are kept for the packet that closes the connection: one, or none if a key update
    /// may be initiated.
    // ensures { result ≡ kept_for_close self.now }
    fn kept_for_close(&self) -> u64 {
        if self.may_update() { 0 } else { 1 }
    }

    /// Returns whether a key update may be initiated (RFC 9001 section 6.1).
    // ensures { result ≡ may_update self.now }
    fn may_update(&self) -> bool {
        match &self.sender {
            Some(sender) => self.receiver.is_some() && sender.can_update(),
            None => false,
        }
    }

    /// Returns whether so few packets are left to the sender's key that it should be updated.
    // ensures { result ≡ is_update_due self.now.sender }
    fn is_update_due(&self) -> bool {
        match &self.sender {
            Some(sender) => {
                let left = sender.limit().saturating_sub(sender.sealed());
                left < LEFT_AT_UPDATE && 2 * left < sender.limit()
            }
            None => false,
        }
    }

    /// Initiates a key update, and drops the receiver's previous key (RFC 9001 sections 6.1 and 6.5).
    // ensures accepted { IsOk result ↔ IsTrue (may_update self.old) }
    // ensures unconfirmed { IsErrOf result KeyError.HandshakeUnconfirmed ↔ ¬ IsTrue (is_confirmed self.old) }
    // ensures unacknowledged { IsErrOf result KeyError.PhaseUnacknowledged
    //     ↔ (IsTrue (is_confirmed self.old) × ¬ IsTrue (may_update self.old)) }
    // ensures initiated { OnOk result (self.new ≡ initiated self.old) }
    // ensures kept { OnErr result (self.new ≡ self.old) }
    pub(crate) fn initiate_update(&mut self) -> Result<(), KeyError> {
        if self.receiver.is_none() {
            return Err(KeyError::HandshakeUnconfirmed);
        }
        let Some(sender) = &mut self.sender else {
            return Err(KeyError::HandshakeUnconfirmed);
        };
        sender.initiate_update()?;
        self.forget_previous();
        Ok(())
    }

    /// Initiates a key update if one is due and may be initiated, and returns whether it did.
    // ensures updated { self.new ≡ updated_if_due self.old }
    // ensures is { result ≡ initiates_update self.old }
    pub(crate) fn initiate_update_if_due(&mut self) -> bool {
        self.is_update_due() && self.initiate_update().is_ok()
    }

    /// Leaves the sender's numbers below `number` unused, as `Sender::skip_to` does.
    // ensures no_keys { IsErrOf result NumberError.NoKeys ↔ ¬ IsSome self.old.sender }
    // ensures used { IfSome self.old.sender (λ s. IsErrOf result NumberError.NumberUsed ↔ (number < s.next)) }
    // ensures ended { IfSome self.old.sender (λ s. IsErrOf result NumberError.NumbersEnded ↔ (2 ^ 62 < number)) }
    // ensures accepted { IfSome self.old.sender (λ s. IsOk result ↔ ((s.next ≤ number) × (number ≤ 2 ^ 62))) }
    // ensures skipped { IfSome self.old.sender (λ s. OnOk result
    //     (self.new ≡ record self.old { sender = Some (after_skip s number) })) }
    // ensures kept { OnErr result (self.new ≡ self.old) }
    pub(crate) fn skip_to(&mut self, number: u64) -> Result<(), NumberError> {
        match &mut self.sender {
            Some(sender) => sender.skip_to(number),
            None => Err(NumberError::NoKeys),
        }
    }

    /// Records an acknowledgment, as `Sender::acknowledged_in` does.
    // ensures no_keys { IsErrOf result NumberError.NoKeys ↔ ¬ IsSome self.old.sender }
    // ensures never_sent { IfSome self.old.sender (λ s. IsErrOf result NumberError.NeverSent
    //     ↔ IsTrue (is_unsent s number)) }
    // ensures unanswered { IfSome self.old.sender (λ s. IsErrOf result NumberError.UpdateUnanswered
    //     ↔ (IsFalse (is_unsent s number) × IsUnanswered s number phase)) }
    // ensures accepted { IfSome self.old.sender (λ s. IsOk result
    //     ↔ (IsFalse (is_unsent s number) × ¬ IsUnanswered s number phase)) }
    // ensures acknowledged { IfSome self.old.sender (λ s. OnOk result
    //     (self.new ≡ record self.old { sender = Some (after_acknowledgement s number) })) }
    // ensures kept { OnErr result (self.new ≡ self.old) }
    pub(crate) fn acknowledged(&mut self, number: u64, phase: bool) -> Result<(), NumberError> {
        match &mut self.sender {
            Some(sender) => sender.acknowledged_in(number, phase),
            None => Err(NumberError::NoKeys),
        }
    }

    /// Records that the handshake is confirmed.
    // ensures { self.new ≡ record self.old { sender = confirmed self.old.sender } }
    pub(crate) fn confirm_handshake(&mut self) {
        if let Some(sender) = &mut self.sender {
            sender.confirm_handshake();
        }
    }

    /// Drops the receiver's key of the previous phase.
    // ensures { self.new ≡ record self.old { receiver = forgotten self.old.receiver } }
    pub(crate) fn forget_previous(&mut self) {
        if let Some(receiver) = &mut self.receiver {
            receiver.forget_previous();
        }
    }

    /// Receives a packet with the receiver, as `Receiver::receive` does.
    // requires { IsSome self.old.receiver }
    // ensures tried { IfSome self.old.receiver (λ r. IfSome self.new.receiver (λ r'. ReceiveOutcome r self.old.space failures.old
    //     parts.now datagram.old result r' self.new.space failures.new datagram.new)) }
    // ensures some { IsSome self.new.receiver }
    // ensures sender { self.new.sender ≡ self.old.sender }
    // ensures discarded { self.new.discarded ≡ self.old.discarded }
    // ensures kept { OnErr result (self.new ≡ self.old) }
    pub(crate) fn receive(
        &mut self,
        failures: &mut Failures,
        datagram: &mut [u8],
        parts: &Packet,
    ) -> Result<Received, ReceiveError> {
        let Some(receiver) = &mut self.receiver else {
            unreachable!();
        };
        receiver.receive(&mut self.space, failures, datagram, parts)
    }

    /// Receives a packet with another receiver, and counts its number in the space of this level.
    // ensures tried { ReceiveOutcome receiver.old self.old.space failures.old parts.now datagram.old result receiver.new
    //     self.new.space failures.new datagram.new }
    // ensures ends { self.new ≡ record self.old { space = self.new.space } }
    // ensures kept { OnErr result ((self.new ≡ self.old) × (receiver.new ≡ receiver.old)) }
    pub(crate) fn receive_with(
        &mut self,
        receiver: &mut Receiver,
        failures: &mut Failures,
        datagram: &mut [u8],
        parts: &Packet,
    ) -> Result<Received, ReceiveError> {
        receiver.receive(&mut self.space, failures, datagram, parts)
    }

    /// Receives a 1-RTT packet. If it is the first that the next keys open, the sender follows the update of the peer.
    // requires { IsSome self.old.receiver }
    // ensures tried { IfSome self.old.receiver (λ r. IfSome self.new.receiver (λ r'. ReceiveOutcome r self.old.space failures.old
    //     parts.now datagram.old result.outcome r' self.new.space failures.new datagram.new)) }
    // ensures some { IsSome self.new.receiver }
    // ensures followed { self.new.sender ≡ following self.old.sender (phase_of self.old.receiver) (phase_of self.new.receiver) }
    // ensures discarded { self.new.discarded ≡ self.old.discarded }
    // ensures update { result.update ≡ peer_update self.old.sender (phase_of self.old.receiver) (phase_of self.new.receiver) }
    // ensures kept { OnErr result.outcome (self.new ≡ self.old) }
    pub(crate) fn receive_one_rtt(
        &mut self,
        failures: &mut Failures,
        datagram: &mut [u8],
        parts: &Packet,
    ) -> Attempt {
        let Some(receiver) = &mut self.receiver else {
            unreachable!();
        };
        let before = receiver.phase();
        let outcome = receiver.receive(&mut self.space, failures, datagram, parts);
        let after = receiver.phase();
        let update = if before == after {
            None
        } else {
            Some(self.follow_peer_update(after))
        };
        Attempt { outcome, update }
    }

    /// Updates the sender's keys to this phase, which the receiver has entered, unless the sender is in it already. Returns
    /// which endpoint has initiated the update.
    // ensures followed { self.new ≡ record self.old { sender = in_phase self.old.sender phase } }
    // ensures is { result ≡ update_into self.old.sender phase }
    fn follow_peer_update(&mut self, phase: bool) -> PeerUpdate {
        if let Some(sender) = &mut self.sender {
            if sender.phase() == phase {
                return PeerUpdate::Answered;
            }
            let _ = sender.follow_update();
        }
        PeerUpdate::Initiated
    }
}
