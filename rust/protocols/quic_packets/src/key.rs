// Written by tools/rust from crates/quic_packets/src/key.rt. Don't edit.
//! A packet protection key, which seals and opens packets by their packet numbers (RFC 9001 section 5.3).

use crate::key_error::KeyError;
use crate::keys::packet_key;
use crate::packet::{NUMBERS_END, payload_len};
use crate::receive_error::ReceiveError;
use crate::send_error::SendError;
use aead_ciphers::aead::{
    Aad, Algorithm, MAX_TAG_LEN, NONCE_LEN, Nonce, Tag, UnboundKey, nonce_of,
};
use aead_ciphers::gcm::fits;
use aead_ciphers_wide::aead::LessSafeKey;
use key_derivation::quic::QuicSecret;

/// The length of a tag in bytes.
pub const TAG_LEN: usize = MAX_TAG_LEN;

/// A key and IV of one direction, which seals and opens packets by their numbers, in any order and without allocating.
///
/// It keeps no count: the caller must not use a number twice for sealing, and must keep the limit on packets (RFC 9001 section
/// 6.6). `Sender` and `Receiver` do both. Sealing and opening each have calls for a packet in one slice, for a payload apart
/// from its header, and from one buffer to another.
///
/// # Examples
///
/// A packet is sealed under its number, and then its header is masked. The other end unmasks the header, which tells how many
/// bytes the number has, decodes the number, and opens the packet:
///
/// ```
/// # use key_derivation as deerlapse_key_derivation;
/// use std::error::Error;
///
/// use deerlapse_key_derivation::Secret;
/// use deerlapse_quic::numbers::{decode, number_len, truncated};
/// use deerlapse_quic::{
///     HeaderKey, PacketKey, QuicSecret, ReceiveError, ShortHeader, TAG_LEN, Version,
/// };
///
/// let secret = QuicSecret::new(Version::One, Secret::aes_128_gcm([1; 32]));
/// let (key, header_key) = (
///     PacketKey::from_secret(&secret),
///     HeaderKey::from_secret(&secret),
/// );
///
/// // Packet 300 is sent, and 299 is the largest number that the peer has acknowledged.
/// let (number, acknowledged) = (300u64, Some(299));
/// let number_len = number_len(number, acknowledged).ok_or("a number that is too far")?;
/// let header = ShortHeader {
///     destination_id: &[4; 8],
///     phase: false,
///     number_len,
/// };
/// let mut packet = vec![0; 9 + number_len];
/// let room = header.write(&mut packet)?;
/// let header_len = room.end;
/// packet[room.clone()].copy_from_slice(&number.to_be_bytes()[8 - number_len..]);
/// packet.extend(b"\x08\0hello");
/// packet.extend([0; TAG_LEN]);
/// key.seal(number, &mut packet, header_len)?;
/// header_key.protect(&mut packet, room.start)?;
///
/// // The peer has received packet 299.
/// let mut forged = packet.clone();
/// let number_len = header_key.unprotect(&mut packet, 9)?;
/// let number = decode(Some(299), truncated(&packet, 9, number_len), number_len);
/// let payload_len = key.open(number, &mut packet, 9 + number_len)?;
/// assert_eq!(number, 300);
/// assert_eq!(packet[9 + number_len..][..payload_len], *b"\x08\0hello");
///
/// // A changed packet is refused. The caller counts it among the failures of the connection.
/// forged[12] ^= 1;
/// header_key.unprotect(&mut forged, 9)?;
/// assert_eq!(key.open(300, &mut forged, 10), Err(ReceiveError::Refused));
/// # Ok::<(), Box<dyn Error>>(())
/// ```
///
/// <details><summary>Model</summary>
///
/// ```text
/// ghost Value = { PacketKey };
/// ghost view = { λ key. record { algorithm = key.key.algorithm; bytes = key.key.bytes; iv = key.iv } };
/// ```
///
/// Definitions: [`PacketKey`](crate::specs::keys#PacketKey).
///
/// </details>
pub struct PacketKey {
    key: LessSafeKey,
    iv: [u8; NONCE_LEN],
}

impl PacketKey {
    /// Creates a key from 16 or 32 bytes, the key length of the algorithm. `iv` is the IV of the packet protection keys (RFC
    /// 9001 section 5.1).
    ///
    /// # Errors
    ///
    /// Fails with `KeyLength` if `key` is not as long.
    ///
    /// <details><summary>Contract</summary>
    ///
    /// ```text
    /// ensures accepted { IsOk result ↔ (length key.now ≡ key_len algorithm.now) }
    /// ensures refused { IsOkUnless result KeyError.KeyLength }
    /// ensures made { IfOk result (λ made. made
    ///     ≡ record { algorithm = algorithm.now; bytes = key.now; iv = iv }) }
    /// ```
    ///
    /// Definitions: [`key_len`](aead_ciphers::specs::algorithm#key_len).
    ///
    /// </details>
    pub fn new(
        algorithm: &'static Algorithm,
        key: &[u8],
        iv: [u8; NONCE_LEN],
    ) -> Result<Self, KeyError> {
        match UnboundKey::new(algorithm, key) {
            Ok(key) => Ok(PacketKey {
                key: LessSafeKey::new(key),
                iv,
            }),
            Err(_) => Err(KeyError::KeyLength),
        }
    }

    /// Creates the key of a secret, with its IV (RFC 9001 section 5.1).
    ///
    /// <details><summary>Contract</summary>
    ///
    /// ```text
    /// ensures { result ≡ secret_key secret.now }
    /// ```
    ///
    /// Definitions: [`secret_key`](crate::specs::keys#secret_key).
    ///
    /// </details>
    pub fn from_secret(secret: &QuicSecret) -> Self {
        let keys = secret.packet_keys();
        packet_key(secret.suite(), keys.key.as_slice(), keys.iv)
    }

    /// Returns the key's algorithm.
    ///
    /// <details><summary>Contract</summary>
    ///
    /// ```text
    /// ensures { result.now ≡ self.now.algorithm }
    /// ```
    ///
    /// </details>
    pub fn algorithm(&self) -> &'static Algorithm {
        self.key.algorithm()
    }

    /// Seals the packet with this number in place: a header of `header_len` bytes, the payload, and 16 bytes for the tag.
    ///
    /// The header is left unmasked, for `HeaderKey::protect`.
    ///
    /// # Errors
    ///
    /// Fails with `TooShort` if the packet has fewer than `header_len + 16` bytes, with `TooLong` if it is longer than AES-GCM
    /// allows, and with `NumbersEnded` if `number` is 2^62 or more. The packet is then unchanged.
    ///
    /// <details><summary>Contract</summary>
    ///
    /// ```text
    /// ensures accepted { IsOk result ↔ (PacketFits header_len (length packet.old) × IsNumber number) }
    /// ensures too_short { IsErrOf result SendError.TooShort ↔ (length packet.old < header_len + tag_len) }
    /// ensures too_long { IsErrOf result SendError.TooLong ↔ ((header_len + tag_len ≤ length packet.old)
    ///     × ¬ Fits header_len (length packet.old - tag_len - header_len)) }
    /// ensures ended { IsErrOf result SendError.NumbersEnded
    ///     ↔ (PacketFits header_len (length packet.old) × (2 ^ 62 ≤ number)) }
    /// ensures sealed { OnOk result (packet.new
    ///     ≡ sealed_packet self.now.bytes (xored_nonce self.now.iv number) header_len packet.old) }
    /// ensures kept { OnErr result (packet.new ≡ packet.old) }
    /// ```
    ///
    /// Definitions: [`PacketFits`](aead_ciphers::specs::packet#PacketFits),
    /// [`IsNumber`](crate::specs::packet#IsNumber), [`tag_len`](aead_ciphers::specs::gcm#tag_len),
    /// [`Fits`](aead_ciphers::specs::gcm#Fits), [`sealed_packet`](aead_ciphers::specs::packet#sealed_packet),
    /// [`xored_nonce`](aead_ciphers::specs::counting#xored_nonce).
    ///
    /// </details>
    pub fn seal(&self, number: u64, packet: &mut [u8], header_len: usize) -> Result<(), SendError> {
        let payload_len = payload_len(packet, header_len).ok_or(SendError::TooShort)?;
        if !fits(header_len, payload_len) {
            return Err(SendError::TooLong);
        }
        if number >= NUMBERS_END {
            return Err(SendError::NumbersEnded);
        }
        self.seal_fitting(number, packet, header_len);
        Ok(())
    }

    /// Seals a packet as `seal` does, where AES-GCM allows the lengths and the number is below 2^62.
    // requires fits { PacketFits header_len (length packet.old) }
    // requires number { IsNumber number }
    // ensures { packet.new
    //     ≡ sealed_packet self.now.bytes (xored_nonce self.now.iv number) header_len packet.old }
    pub(crate) fn seal_fitting(&self, number: u64, packet: &mut [u8], header_len: usize) {
        let nonce = nonce_of(&self.iv, number);
        let Ok(()) = self.key.seal_packet_in_place(nonce, packet, header_len) else {
            unreachable!();
        };
    }

    /// Seals a payload that is apart from its header, as `seal` does, and returns the tag.
    ///
    /// # Errors
    ///
    /// Fails with `TooLong` and `NumbersEnded` as `seal` does. The payload is then unchanged.
    ///
    /// <details><summary>Contract</summary>
    ///
    /// ```text
    /// ensures accepted { IsOk result ↔ (Fits (length header.now) (length payload.old) × IsNumber number) }
    /// ensures too_long { IsErrOf result SendError.TooLong ↔ ¬ Fits (length header.now) (length payload.old) }
    /// ensures ended { IsErrOf result SendError.NumbersEnded
    ///     ↔ (Fits (length header.now) (length payload.old) × (2 ^ 62 ≤ number)) }
    /// ensures ciphertext { OnOk result (payload.new
    ///     ≡ gcm_encrypted (aes self.now.bytes) (xored_nonce self.now.iv number) payload.old) }
    /// ensures tag { IfOk result (λ tag. tag ≡ gcm_tag (aes self.now.bytes) (xored_nonce self.now.iv number)
    ///     header.now payload.new) }
    /// ensures kept { OnErr result (payload.new ≡ payload.old) }
    /// ```
    ///
    /// Definitions: [`Fits`](aead_ciphers::specs::gcm#Fits), [`IsNumber`](crate::specs::packet#IsNumber),
    /// [`gcm_encrypted`](aead_ciphers::specs::gcm#gcm_encrypted), [`aes`](aead_ciphers_base::specs::aes#aes),
    /// [`xored_nonce`](aead_ciphers::specs::counting#xored_nonce), [`gcm_tag`](aead_ciphers::specs::gcm#gcm_tag).
    ///
    /// </details>
    pub fn seal_separate_tag(
        &self,
        number: u64,
        header: &[u8],
        payload: &mut [u8],
    ) -> Result<Tag, SendError> {
        if !fits(header.len(), payload.len()) {
            return Err(SendError::TooLong);
        }
        let nonce = self.nonce(number).ok_or(SendError::NumbersEnded)?;
        let Ok(tag) = self
            .key
            .seal_in_place_separate_tag(nonce, Aad::from(header), payload)
        else {
            unreachable!();
        };
        Ok(tag)
    }

    /// Seals a payload from one buffer to another, as `seal` does: writes the ciphertext and its tag to `out`, which has 16
    /// bytes more than the payload.
    ///
    /// # Errors
    ///
    /// Fails with `OutputLength` if `out` does not have that length, and with `TooLong` and `NumbersEnded` as `seal` does. `out`
    /// is then unchanged.
    ///
    /// <details><summary>Contract</summary>
    ///
    /// ```text
    /// ensures accepted { IsOk result ↔ ((length out.old ≡ length payload.now + tag_len)
    ///     × Fits (length header.now) (length payload.now) × IsNumber number) }
    /// ensures output { IsErrOf result SendError.OutputLength ↔ (length out.old ≢ length payload.now + tag_len) }
    /// ensures too_long { IsErrOf result SendError.TooLong ↔ ((length out.old ≡ length payload.now + tag_len)
    ///     × ¬ Fits (length header.now) (length payload.now)) }
    /// ensures ended { IsErrOf result SendError.NumbersEnded ↔ ((length out.old ≡ length payload.now + tag_len)
    ///     × Fits (length header.now) (length payload.now) × (2 ^ 62 ≤ number)) }
    /// ensures sealed { OnOk result (out.new ≡ gcm_sealed (aes self.now.bytes) (xored_nonce self.now.iv number)
    ///     header.now payload.now) }
    /// ensures kept { OnErr result (out.new ≡ out.old) }
    /// ```
    ///
    /// Definitions: [`tag_len`](aead_ciphers::specs::gcm#tag_len), [`Fits`](aead_ciphers::specs::gcm#Fits),
    /// [`IsNumber`](crate::specs::packet#IsNumber), [`gcm_sealed`](aead_ciphers::specs::gcm#gcm_sealed),
    /// [`aes`](aead_ciphers_base::specs::aes#aes), [`xored_nonce`](aead_ciphers::specs::counting#xored_nonce).
    ///
    /// </details>
    pub fn seal_to(
        &self,
        number: u64,
        header: &[u8],
        payload: &[u8],
        out: &mut [u8],
    ) -> Result<(), SendError> {
        if out.len() < MAX_TAG_LEN || out.len() - MAX_TAG_LEN != payload.len() {
            return Err(SendError::OutputLength);
        }
        if !fits(header.len(), payload.len()) {
            return Err(SendError::TooLong);
        }
        let nonce = self.nonce(number).ok_or(SendError::NumbersEnded)?;
        let (ciphertext, tag) = out.split_at_mut(payload.len());
        ciphertext.copy_from_slice(payload);
        let Ok(made) = self
            .key
            .seal_in_place_separate_tag(nonce, Aad::from(header), ciphertext)
        else {
            unreachable!();
        };
        tag.copy_from_slice(made.as_ref());
        Ok(())
    }

    /// Opens the packet with this number in place, and returns the length of the payload in bytes.
    ///
    /// The unmasked header has `header_len` bytes. On success the plaintext payload follows it, and the tag is left after the
    /// payload.
    ///
    /// # Errors
    ///
    /// Fails with `TooShort` if the packet has fewer than `header_len + 16` bytes, with `TooLong` if it is longer than AES-GCM
    /// allows, with `NumbersEnded` if `number` is 2^62 or more, and with `Refused` if the tag is wrong. The packet is then
    /// unchanged.
    ///
    /// <details><summary>Contract</summary>
    ///
    /// ```text
    /// ensures accepted { IsOk result ↔ (PacketFits header_len (length packet.old) × IsNumber number
    ///     × IsGenuine self.now.bytes (xored_nonce self.now.iv number) header_len packet.old) }
    /// ensures too_short { IsErrOf result ReceiveError.TooShort ↔ (length packet.old < header_len + tag_len) }
    /// ensures too_long { IsErrOf result ReceiveError.TooLong
    ///     ↔ ((header_len + tag_len ≤ length packet.old)
    ///     × ¬ Fits header_len (length packet.old - tag_len - header_len)) }
    /// ensures ended { IsErrOf result ReceiveError.NumbersEnded
    ///     ↔ (PacketFits header_len (length packet.old) × (2 ^ 62 ≤ number)) }
    /// ensures forged { IsErrOf result ReceiveError.Refused
    ///     ↔ (PacketFits header_len (length packet.old) × IsNumber number
    ///     × ¬ IsGenuine self.now.bytes (xored_nonce self.now.iv number) header_len packet.old) }
    /// ensures opened { OnOk result (OpenedPacket self.now.bytes (xored_nonce self.now.iv number)
    ///     header_len packet.old true packet.new) }
    /// ensures payload_len { IfOk result (λ n. n ≡ length packet.old - tag_len - header_len) }
    /// ensures kept { OnErr result (packet.new ≡ packet.old) }
    /// ```
    ///
    /// Definitions: [`PacketFits`](aead_ciphers::specs::packet#PacketFits),
    /// [`IsNumber`](crate::specs::packet#IsNumber), [`IsGenuine`](crate::specs::packet#IsGenuine),
    /// [`xored_nonce`](aead_ciphers::specs::counting#xored_nonce), [`tag_len`](aead_ciphers::specs::gcm#tag_len),
    /// [`Fits`](aead_ciphers::specs::gcm#Fits), [`OpenedPacket`](aead_ciphers::specs::packet#OpenedPacket).
    ///
    /// </details>
    pub fn open(
        &self,
        number: u64,
        packet: &mut [u8],
        header_len: usize,
    ) -> Result<usize, ReceiveError> {
        let payload_len = payload_len(packet, header_len).ok_or(ReceiveError::TooShort)?;
        if !fits(header_len, payload_len) {
            return Err(ReceiveError::TooLong);
        }
        let nonce = self.nonce(number).ok_or(ReceiveError::NumbersEnded)?;
        match self
            .key
            .open_packet_in_place_after_header(nonce, packet, header_len)
        {
            Ok(_) => Ok(payload_len),
            Err(_) => Err(ReceiveError::Refused),
        }
    }

    /// Opens a payload that is apart from its header and ends with its 16-byte tag, as `open` does, and returns the length of
    /// the plaintext in bytes. The plaintext begins where the ciphertext did, and the tag is left after it.
    ///
    /// # Errors
    ///
    /// Fails with `TooShort` if `payload` has fewer than 16 bytes, and with `TooLong`, `NumbersEnded` and `Refused` as `open`
    /// does. The payload is then unchanged.
    ///
    /// <details><summary>Contract</summary>
    ///
    /// ```text
    /// ensures accepted { IsOk result ↔ ((tag_len ≤ length payload.old)
    ///     × Fits (length header.now) (length payload.old - tag_len) × IsNumber number
    ///     × EndsWithTag self.now.bytes (xored_nonce self.now.iv number) header.now payload.old) }
    /// ensures too_short { IsErrOf result ReceiveError.TooShort ↔ (length payload.old < tag_len) }
    /// ensures too_long { IsErrOf result ReceiveError.TooLong ↔ ((tag_len ≤ length payload.old)
    ///     × ¬ Fits (length header.now) (length payload.old - tag_len)) }
    /// ensures ended { IsErrOf result ReceiveError.NumbersEnded ↔ ((tag_len ≤ length payload.old)
    ///     × Fits (length header.now) (length payload.old - tag_len) × (2 ^ 62 ≤ number)) }
    /// ensures forged { IsErrOf result ReceiveError.Refused ↔ ((tag_len ≤ length payload.old)
    ///     × Fits (length header.now) (length payload.old - tag_len) × IsNumber number
    ///     × ¬ EndsWithTag self.now.bytes (xored_nonce self.now.iv number) header.now payload.old) }
    /// ensures opened { OnOk result (OpenedAttached (aes self.now.bytes) (xored_nonce self.now.iv number)
    ///     header.now 0 payload.old true payload.new) }
    /// ensures payload_len { IfOk result (λ n. n ≡ length payload.old - tag_len) }
    /// ensures kept { OnErr result (payload.new ≡ payload.old) }
    /// ```
    ///
    /// Definitions: [`tag_len`](aead_ciphers::specs::gcm#tag_len), [`Fits`](aead_ciphers::specs::gcm#Fits),
    /// [`IsNumber`](crate::specs::packet#IsNumber), [`EndsWithTag`](crate::specs::packet#EndsWithTag),
    /// [`xored_nonce`](aead_ciphers::specs::counting#xored_nonce),
    /// [`OpenedAttached`](aead_ciphers::specs::gcm#OpenedAttached), [`aes`](aead_ciphers_base::specs::aes#aes).
    ///
    /// </details>
    pub fn open_payload(
        &self,
        number: u64,
        header: &[u8],
        payload: &mut [u8],
    ) -> Result<usize, ReceiveError> {
        if payload.len() < MAX_TAG_LEN {
            return Err(ReceiveError::TooShort);
        }
        let payload_len = payload.len() - MAX_TAG_LEN;
        if !fits(header.len(), payload_len) {
            return Err(ReceiveError::TooLong);
        }
        let nonce = self.nonce(number).ok_or(ReceiveError::NumbersEnded)?;
        match self
            .key
            .open_within_to_front(nonce, Aad::from(header), payload, 0..)
        {
            Ok(_) => Ok(payload_len),
            Err(_) => Err(ReceiveError::Refused),
        }
    }

    /// Opens a payload that is apart from its header and its tag, as `open` does.
    ///
    /// # Errors
    ///
    /// Fails with `TooLong`, `NumbersEnded` and `Refused` as `open` does. The payload is then unchanged.
    ///
    /// <details><summary>Contract</summary>
    ///
    /// ```text
    /// ensures accepted { IsOk result ↔ (Fits (length header.now) (length payload.old) × IsNumber number
    ///     × (tag ≡ gcm_tag (aes self.now.bytes) (xored_nonce self.now.iv number) header.now payload.old)) }
    /// ensures too_long { IsErrOf result ReceiveError.TooLong ↔ ¬ Fits (length header.now) (length payload.old) }
    /// ensures ended { IsErrOf result ReceiveError.NumbersEnded
    ///     ↔ (Fits (length header.now) (length payload.old) × (2 ^ 62 ≤ number)) }
    /// ensures forged { IsErrOf result ReceiveError.Refused ↔ (Fits (length header.now) (length payload.old)
    ///     × IsNumber number
    ///     × (tag ≢ gcm_tag (aes self.now.bytes) (xored_nonce self.now.iv number) header.now payload.old)) }
    /// ensures opened { OnOk result (payload.new
    ///     ≡ gcm_decrypted (aes self.now.bytes) (xored_nonce self.now.iv number) payload.old) }
    /// ensures kept { OnErr result (payload.new ≡ payload.old) }
    /// ```
    ///
    /// Definitions: [`Fits`](aead_ciphers::specs::gcm#Fits), [`IsNumber`](crate::specs::packet#IsNumber),
    /// [`gcm_tag`](aead_ciphers::specs::gcm#gcm_tag), [`aes`](aead_ciphers_base::specs::aes#aes),
    /// [`xored_nonce`](aead_ciphers::specs::counting#xored_nonce),
    /// [`gcm_decrypted`](aead_ciphers::specs::gcm#gcm_decrypted).
    ///
    /// </details>
    pub fn open_separate_tag(
        &self,
        number: u64,
        header: &[u8],
        payload: &mut [u8],
        tag: Tag,
    ) -> Result<(), ReceiveError> {
        if !fits(header.len(), payload.len()) {
            return Err(ReceiveError::TooLong);
        }
        let nonce = self.nonce(number).ok_or(ReceiveError::NumbersEnded)?;
        match self.key.open_in_place_separate_tag_to_front(
            nonce,
            Aad::from(header),
            tag,
            payload,
            0..,
        ) {
            Ok(_) => Ok(()),
            Err(_) => Err(ReceiveError::Refused),
        }
    }

    /// Opens a payload from one buffer to another, as `open` does: `sealed` is the ciphertext and its tag, and the plaintext is
    /// written to `out`, which has 16 bytes fewer.
    ///
    /// # Errors
    ///
    /// Fails with `OutputLength` if `out` does not have that length, and with `TooLong`, `NumbersEnded` and `Refused` as `open`
    /// does. `out` is then unchanged.
    ///
    /// <details><summary>Contract</summary>
    ///
    /// ```text
    /// ensures accepted { IsOk result ↔ ((length sealed.now ≡ length out.old + tag_len)
    ///     × Fits (length header.now) (length out.old) × IsNumber number
    ///     × EndsWithTag self.now.bytes (xored_nonce self.now.iv number) header.now sealed.now) }
    /// ensures output { IsErrOf result ReceiveError.OutputLength ↔ (length sealed.now ≢ length out.old + tag_len) }
    /// ensures too_long { IsErrOf result ReceiveError.TooLong ↔ ((length sealed.now ≡ length out.old + tag_len)
    ///     × ¬ Fits (length header.now) (length out.old)) }
    /// ensures ended { IsErrOf result ReceiveError.NumbersEnded ↔ ((length sealed.now ≡ length out.old + tag_len)
    ///     × Fits (length header.now) (length out.old) × (2 ^ 62 ≤ number)) }
    /// ensures forged { IsErrOf result ReceiveError.Refused ↔ ((length sealed.now ≡ length out.old + tag_len)
    ///     × Fits (length header.now) (length out.old) × IsNumber number
    ///     × ¬ EndsWithTag self.now.bytes (xored_nonce self.now.iv number) header.now sealed.now) }
    /// ensures opened { OnOk result (out.new ≡ gcm_decrypted (aes self.now.bytes)
    ///     (xored_nonce self.now.iv number) (take (length out.old) sealed.now)) }
    /// ensures kept { OnErr result (out.new ≡ out.old) }
    /// ```
    ///
    /// Definitions: [`tag_len`](aead_ciphers::specs::gcm#tag_len), [`Fits`](aead_ciphers::specs::gcm#Fits),
    /// [`IsNumber`](crate::specs::packet#IsNumber), [`EndsWithTag`](crate::specs::packet#EndsWithTag),
    /// [`xored_nonce`](aead_ciphers::specs::counting#xored_nonce),
    /// [`gcm_decrypted`](aead_ciphers::specs::gcm#gcm_decrypted), [`aes`](aead_ciphers_base::specs::aes#aes).
    ///
    /// </details>
    pub fn open_to(
        &self,
        number: u64,
        header: &[u8],
        sealed: &[u8],
        out: &mut [u8],
    ) -> Result<(), ReceiveError> {
        let (ciphertext, tag) = sealed
            .split_last_chunk::<MAX_TAG_LEN>()
            .ok_or(ReceiveError::OutputLength)?;
        if out.len() != ciphertext.len() {
            return Err(ReceiveError::OutputLength);
        }
        if !fits(header.len(), out.len()) {
            return Err(ReceiveError::TooLong);
        }
        let nonce = self.nonce(number).ok_or(ReceiveError::NumbersEnded)?;
        let tag = Tag::from(*tag);
        self.key
            .open_to(nonce, Aad::from(header), tag, ciphertext, out)
            .map_err(|_| ReceiveError::Refused)
    }

    /// Returns the nonce of the packet with this number (RFC 9001 section 5.3), or `None` if the number is 2^62 or more.
    // ensures some { IsSome result ↔ IsNumber number }
    // ensures nonce { IfSome result (λ nonce. nonce ≡ xored_nonce self.now.iv number) }
    fn nonce(&self, number: u64) -> Option<Nonce> {
        if number < NUMBERS_END {
            Some(nonce_of(&self.iv, number))
        } else {
            None
        }
    }
}
