//! The receiving end of QUIC's packets.

use quic_packets::{
    Failures, FixedBit, Packet, ReceiveError, Received, Receiver, Space, packet_at,
};

/// A receiver with what its packets share.
pub struct End {
    pub receiver: Receiver,
    pub space: Space<2>,
    pub failures: Failures,
}

impl End {
    /// Creates an end that has received nothing.
    pub fn new(receiver: Receiver) -> Self {
        End {
            receiver,
            space: Space::new(),
            failures: Failures::new(),
        }
    }

    /// Receives a packet, whose parts are these.
    pub fn receive(
        &mut self,
        datagram: &mut [u8],
        parts: &Packet,
    ) -> Result<Received, ReceiveError> {
        self.receiver
            .receive(&mut self.space, &mut self.failures, datagram, parts)
    }

    /// Receives a packet that is a whole datagram. A short header has an ID of `id_len` bytes.
    ///
    /// # Panics
    ///
    /// Panics if the datagram doesn't begin with a packet.
    pub fn receive_whole(
        &mut self,
        datagram: &mut [u8],
        id_len: usize,
    ) -> Result<Received, ReceiveError> {
        let parts = packet_at(datagram, 0, id_len, FixedBit::Required).expect("a packet");
        self.receive(datagram, &parts)
    }
}
