//! Packets of QUIC (RFC 9001 section 5).

use crate::gcm::{bytes, Gcm};
use deerlapse::{QuicKey, MASK_LEN, SAMPLE_LEN, TAG_LEN};
use rustls::crypto::cipher::{AeadKey, Iv};
use rustls::quic::{Algorithm, HeaderProtectionKey, PacketKey, Tag};
use rustls::Error;

/// The bit of the first byte that a long header has (RFC 8999 section 5.1).
const LONG_HEADER: u8 = 0x80;

struct Packets(QuicKey);

struct Headers(deerlapse::HeaderProtectionKey);

impl Algorithm for Gcm {
    fn packet_key(&self, key: AeadKey, iv: Iv) -> Box<dyn PacketKey> {
        let key = QuicKey::new(key.as_ref(), &bytes(&iv));
        Box::new(Packets(key.expect("a suite's key has 16 or 32 bytes")))
    }

    fn header_protection_key(&self, key: AeadKey) -> Box<dyn HeaderProtectionKey> {
        let key = deerlapse::HeaderProtectionKey::new(key.as_ref());
        Box::new(Headers(key.expect("a suite's key has 16 or 32 bytes")))
    }

    fn aead_key_len(&self) -> usize {
        self.len()
    }
}

impl PacketKey for Packets {
    fn encrypt_in_place(
        &self,
        packet_number: u64,
        header: &[u8],
        payload: &mut [u8],
    ) -> Result<Tag, Error> {
        let Packets(key) = self;
        key.seal_in_place_separate_tag(packet_number, header, payload)
            .map(|tag| Tag::from(tag.as_slice()))
            .map_err(|_| Error::EncryptError)
    }

    fn decrypt_in_place<'a>(
        &self,
        packet_number: u64,
        header: &[u8],
        payload: &'a mut [u8],
    ) -> Result<&'a [u8], Error> {
        let Packets(key) = self;
        key.open_in_place(packet_number, header, payload)
            .map(|plaintext| &*plaintext)
            .map_err(|_| Error::DecryptError)
    }

    fn tag_len(&self) -> usize {
        TAG_LEN
    }

    /// RFC 9001 section 6.6: 2^23 packets.
    fn confidentiality_limit(&self) -> u64 {
        1 << 23
    }

    /// RFC 9001 section 6.6: 2^52 packets.
    fn integrity_limit(&self) -> u64 {
        1 << 52
    }
}

impl Headers {
    /// The mask for a sample, if it and the packet number have lengths that they can have. The mask has one byte for the
    /// first byte of the packet, and one for each of its number (RFC 9001 section 5.4.1).
    fn mask(&self, sample: &[u8], packet_number: &[u8]) -> Result<[u8; MASK_LEN], Error> {
        let sample = sample
            .try_into()
            .map_err(|_| Error::General("a sample has 16 bytes".into()))?;
        if packet_number.len() >= MASK_LEN {
            return Err(Error::General("a packet number has at most 4 bytes".into()));
        }
        Ok(self.0.new_mask(sample))
    }
}

/// XORs the bits of the first byte that are protected (RFC 9001 section 5.4.1).
fn xor_first(first: &mut u8, mask: u8) {
    let protected = if *first & LONG_HEADER != 0 {
        0x0f
    } else {
        0x1f
    };
    *first ^= mask & protected;
}

/// XORs a packet number, whose length is in a first byte that is not protected (RFC 9000 sections 17.2 and 17.3).
fn xor_number(packet_number: &mut [u8], mask: &[u8], first: u8) {
    let len = usize::from(first & 0x03) + 1;
    for (byte, mask) in packet_number.iter_mut().zip(mask).take(len) {
        *byte ^= mask;
    }
}

impl HeaderProtectionKey for Headers {
    fn encrypt_in_place(
        &self,
        sample: &[u8],
        first: &mut u8,
        packet_number: &mut [u8],
    ) -> Result<(), Error> {
        let mask = self.mask(sample, packet_number)?;
        xor_number(packet_number, &mask[1..], *first);
        xor_first(first, mask[0]);
        Ok(())
    }

    fn decrypt_in_place(
        &self,
        sample: &[u8],
        first: &mut u8,
        packet_number: &mut [u8],
    ) -> Result<(), Error> {
        let mask = self.mask(sample, packet_number)?;
        xor_first(first, mask[0]);
        xor_number(packet_number, &mask[1..], *first);
        Ok(())
    }

    fn sample_len(&self) -> usize {
        SAMPLE_LEN
    }
}
