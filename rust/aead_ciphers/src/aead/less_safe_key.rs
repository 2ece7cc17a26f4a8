// Written by tools/rust from crates/aead_ciphers/src/aead/less_safe_key.rt. Don't edit.
//! The AEAD key whose calls take the nonce as an argument.

use crate::aead::algorithm::Algorithm;
use crate::aead::in_out::InOut;
use crate::aead::lend::lend_plaintext;
use crate::aead::unbound_key::UnboundKey;
use crate::aes_gcm::GcmKey;
use aead_ciphers_base::aes::Work;
use aead_ciphers_base::error::Unspecified;
use aead_ciphers_base::values::{Aad, MAX_TAG_LEN, Nonce, Tag};
use core::fmt;
use core::ops::RangeFrom;

/// An AEAD key whose calls take the nonce as an argument. It is the caller's responsibility that no nonce is used twice
/// under one key (SP 800-38D section 8).
///
/// Programs use the alias of the same name, which fixes `K` and has an example: `deerlapse::aead::LessSafeKey` in Rust,
/// `aead_ciphers_wide::aead::LessSafeKey` in Rattle.
///
/// <details><summary>Model</summary>
///
/// ```text
/// ghost Value = { AeadKey };
/// ghost view = { λ key. record { algorithm = key.algorithm.now; bytes = K.bytes_of key.key } };
/// ghost invariant = { λ key. K.is_expanded key.key };
/// ```
///
/// Definitions: [`AeadKey`](crate::specs::aead_key#AeadKey).
///
/// </details>
pub struct LessSafeKey<K: GcmKey> {
    key: K,
    algorithm: &'static Algorithm,
}

/// Copies the expanded key and its algorithm. Cloning allocates no memory and always succeeds.
///
/// <details><summary>Ghost items</summary>
///
/// ```text
/// // What holds of a value and of what `clone` returns for it.
/// ghost is_clone = { λ key clone. clone ≡ key };
/// // For which values `clone` doesn't fail.
/// ghost is_infallible = { λ _. ⊤ };
/// ```
///
/// </details>
impl<K: GcmKey> Clone for LessSafeKey<K> {
    fn clone(&self) -> Self {
        LessSafeKey {
            key: self.key.clone(),
            algorithm: self.algorithm,
        }
    }
}

impl<K: GcmKey> LessSafeKey<K> {
    /// Creates a key for nonces of the caller's choice. The round keys (FIPS 197 section 5.2) and the hash subkey
    /// (SP 800-38D section 7.1 step 1) are computed here, once.
    ///
    /// <details><summary>Contract</summary>
    ///
    /// ```text
    /// ensures { result ≡ key }
    /// ```
    ///
    /// </details>
    pub fn new(key: UnboundKey) -> Self {
        let mut made = LessSafeKey {
            key: K::zeros(),
            algorithm: key.algorithm(),
        };
        made.key.expand(key.key_bytes(), &mut Work::new());
        made
    }

    /// Creates a key from `key`, which [`GcmKey::expand`] must have made of `algorithm.key_len()` bytes.
    ///
    /// In Rust nothing checks this. If it was made of another number of bytes, [`algorithm`](Self::algorithm) returns the
    /// wrong algorithm. If it isn't as `expand` left it, a call may panic or return wrong results.
    ///
    /// <details><summary>Contract</summary>
    ///
    /// ```text
    /// requires expanded { K.is_expanded key }
    /// requires lengths { length (K.bytes_of key) ≡ key_len algorithm.now }
    /// ensures { result ≡ record { algorithm = algorithm.now; bytes = K.bytes_of key } }
    /// ```
    ///
    /// Definitions: [`key_len`](crate::specs::algorithm#key_len).
    ///
    /// </details>
    pub fn from_expanded(algorithm: &'static Algorithm, key: K) -> Self {
        LessSafeKey { key, algorithm }
    }

    /// Borrows the expanded key, for the calls of its own type.
    ///
    /// <details><summary>Contract</summary>
    ///
    /// ```text
    /// ensures expanded { K.is_expanded result.now }
    /// ensures bytes { K.bytes_of result.now ≡ self.now.bytes }
    /// ```
    ///
    /// </details>
    pub fn expanded(&self) -> &K {
        &self.key
    }

    /// Returns the algorithm of the key.
    ///
    /// <details><summary>Contract</summary>
    ///
    /// ```text
    /// ensures { result.now ≡ self.now.algorithm }
    /// ```
    ///
    /// </details>
    pub fn algorithm(&self) -> &'static Algorithm {
        self.algorithm
    }

    /// Encrypts `in_out` in place, and returns the 16-byte tag of the ciphertext and `aad` (SP 800-38D algorithm 4).
    ///
    /// `in_out` holds the plaintext before the call, and the equally long ciphertext after it.
    ///
    /// # Errors
    ///
    /// Fails with `Unspecified`, and leaves `in_out` unchanged, if the plaintext is longer than 2^36 - 32 bytes or
    /// `aad` is 2^61 bytes or longer (SP 800-38D section 5.2.1.1).
    ///
    /// <details><summary>Contract</summary>
    ///
    /// ```text
    /// ensures accepted { IsOk result ↔ Fits (length (aad_bytes aad.entry)) (length in_out.old) }
    /// ensures ciphertext { OnOk result (in_out.new ≡ gcm_encrypted (aes self.now.bytes) nonce in_out.old) }
    /// ensures tag { IfOk result (λ tag. tag ≡ gcm_tag (aes self.now.bytes) nonce (aad_bytes aad.entry) in_out.new) }
    /// ensures refused { OnErr result (in_out.new ≡ in_out.old) }
    /// ```
    ///
    /// Definitions: [`Fits`](crate::specs::gcm#Fits), [`aad_bytes`](aead_ciphers_base::specs::values#aad_bytes),
    /// [`gcm_encrypted`](crate::specs::gcm#gcm_encrypted), [`aes`](aead_ciphers_base::specs::aes#aes),
    /// [`gcm_tag`](crate::specs::gcm#gcm_tag).
    ///
    /// </details>
    pub fn seal_in_place_separate_tag(
        &self,
        nonce: Nonce,
        aad: Aad<'_>,
        in_out: &mut [u8],
    ) -> Result<Tag, Unspecified> {
        self.key.seal(nonce, aad, in_out, &mut Work::new())
    }

    /// Encrypts the bytes of `in_out` in place, and appends the tag of the ciphertext and `aad` (SP 800-38D
    /// algorithm 4).
    ///
    /// `in_out` holds n bytes of plaintext before the call, and n bytes of ciphertext followed by the 16-byte tag after
    /// it.
    ///
    /// # Errors
    ///
    /// Fails with `Unspecified`, and leaves the bytes of `in_out` unchanged, if there is no room for the tag, which is
    /// reserved first, or else if the lengths exceed the limits of
    /// [`seal_in_place_separate_tag`](Self::seal_in_place_separate_tag).
    ///
    /// <details><summary>Contract</summary>
    ///
    /// ```text
    /// ensures sealed { OnOk result (B.bytes in_out.new
    ///     ≡ gcm_sealed (aes self.now.bytes) nonce (aad_bytes aad.entry) (B.bytes in_out.old)) }
    /// ensures refused { OnErr result (B.bytes in_out.new ≡ B.bytes in_out.old) }
    /// ensures length { OnOk result (length (B.bytes in_out.new) ≡ length (B.bytes in_out.old) + tag_len) }
    /// ensures granted { IsOk result → B.may_grant in_out.old }
    /// ensures fits { IsOk result → Fits (length (aad_bytes aad.entry)) (length (B.bytes in_out.old)) }
    /// ensures refuses { OnErr result (Fits (length (aad_bytes aad.entry)) (length (B.bytes in_out.old))
    ///     → B.may_refuse in_out.old) }
    /// ```
    ///
    /// Definitions: [`gcm_sealed`](crate::specs::gcm#gcm_sealed), [`aes`](aead_ciphers_base::specs::aes#aes),
    /// [`aad_bytes`](aead_ciphers_base::specs::values#aad_bytes), [`tag_len`](crate::specs::gcm#tag_len),
    /// [`Fits`](crate::specs::gcm#Fits).
    ///
    /// </details>
    pub fn seal_in_place_append_tag<B: InOut>(
        &self,
        nonce: Nonce,
        aad: Aad<'_>,
        in_out: &mut B,
    ) -> Result<(), Unspecified> {
        in_out.grow_by_tag()?;
        self.seal_with_room(nonce, aad, in_out)
    }

    /// Encrypts all but the last 16 bytes in place, and overwrites those with the tag. If the lengths exceed the limits
    /// of `seal_in_place_separate_tag`, fails with `Unspecified` and removes those 16 bytes.
    // requires { tag_len ≤ length (B.bytes in_out.old) }
    // ensures accepted { IsOk result ↔ Fits (length (aad_bytes aad.entry)) (length (B.bytes in_out.old) - tag_len) }
    // ensures sealed { let message = take (length (B.bytes in_out.old) - tag_len) (B.bytes in_out.old) in
    //     OnOk result (B.bytes in_out.new ≡ gcm_sealed (aes self.now.bytes) nonce (aad_bytes aad.entry) message) }
    // ensures length { OnOk result (length (B.bytes in_out.new) ≡ length (B.bytes in_out.old)) }
    // ensures kept { let message = take (length (B.bytes in_out.old) - tag_len) (B.bytes in_out.old) in
    //     OnErr result (B.bytes in_out.new ≡ message) }
    pub(crate) fn seal_with_room<B: InOut>(
        &self,
        nonce: Nonce,
        aad: Aad<'_>,
        in_out: &mut B,
    ) -> Result<(), Unspecified> {
        let bytes = in_out.as_mut_bytes();
        let message_len = bytes.len() - MAX_TAG_LEN;
        let (message, room) = bytes.split_at_mut(message_len);
        match self.key.seal(nonce, aad, message, &mut Work::new()) {
            Ok(tag) => {
                room.copy_from_slice(tag.as_ref());
                Ok(())
            }
            Err(error) => {
                in_out.cut_tag();
                Err(error)
            }
        }
    }

    /// Seals a packet in place (SP 800-38D algorithm 4): a header of `header_len` bytes, which is the AAD, then the
    /// plaintext, then 16 bytes of room, to which the tag is written.
    ///
    /// # Errors
    ///
    /// Fails with `Unspecified`, and leaves the packet unchanged, if it is shorter than `header_len + 16` bytes, or
    /// else if the lengths exceed the limits of [`seal_in_place_separate_tag`](Self::seal_in_place_separate_tag).
    ///
    /// <details><summary>Contract</summary>
    ///
    /// ```text
    /// ensures accepted { IsOk result ↔ PacketFits header_len (length packet.old) }
    /// ensures sealed { OnOk result (packet.new ≡ sealed_packet self.now.bytes nonce header_len packet.old) }
    /// ensures refused { OnErr result (packet.new ≡ packet.old) }
    /// ```
    ///
    /// Definitions: [`PacketFits`](crate::specs::packet#PacketFits),
    /// [`sealed_packet`](crate::specs::packet#sealed_packet).
    ///
    /// </details>
    pub fn seal_packet_in_place(
        &self,
        nonce: Nonce,
        packet: &mut [u8],
        header_len: usize,
    ) -> Result<(), Unspecified> {
        if packet.len() < MAX_TAG_LEN || packet.len() - MAX_TAG_LEN < header_len {
            return Err(Unspecified);
        }
        let (header, body) = packet.split_at_mut(header_len);
        let message_len = body.len() - MAX_TAG_LEN;
        let (message, tag_bytes) = body.split_at_mut(message_len);
        let tag = self.seal_in_place_separate_tag(nonce, Aad::from(&*header), message)?;
        tag_bytes.copy_from_slice(tag.as_ref());
        Ok(())
    }

    /// Opens a ciphertext in place with a separate tag, and returns the plaintext (SP 800-38D algorithm 5).
    ///
    /// The ciphertext is `in_out[ciphertext]`. The plaintext, which is equally long, is written to the front of
    /// `in_out`. The bytes after it are unchanged.
    ///
    /// # Errors
    ///
    /// Fails with `Unspecified`, and leaves `in_out` unchanged, in these cases, which are checked in this order:
    ///
    /// - `ciphertext.start` is greater than `in_out.len()`.
    /// - The lengths exceed the limits of [`seal_in_place_separate_tag`](Self::seal_in_place_separate_tag).
    /// - `tag` is not the tag of the ciphertext and `aad`.
    ///
    /// <details><summary>Contract</summary>
    ///
    /// ```text
    /// ensures opened { Opened (aes self.now.bytes) nonce (aad_bytes aad.entry) tag ciphertext.start
    ///     in_out.old (is_ok result) (lent_buffer result in_out.old) }
    /// ensures plaintext { IfOk result (λ plaintext. plaintext.now
    ///     ≡ gcm_decrypted (aes self.now.bytes) nonce (drop ciphertext.start in_out.old)) }
    /// ensures* writes_back { sem 𝓛 (LendsFront in_out.entry result (length in_out.old - ciphertext.start)) }
    /// ```
    ///
    /// Definitions: [`Opened`](crate::specs::gcm#Opened), [`aes`](aead_ciphers_base::specs::aes#aes),
    /// [`aad_bytes`](aead_ciphers_base::specs::values#aad_bytes), [`lent_buffer`](crate::specs::lending#lent_buffer),
    /// [`gcm_decrypted`](crate::specs::gcm#gcm_decrypted), [`LendsFront`](crate::specs::lending#LendsFront).
    ///
    /// </details>
    pub fn open_in_place_separate_tag<'a>(
        &self,
        nonce: Nonce,
        aad: Aad<'_>,
        tag: Tag,
        in_out: &'a mut [u8],
        ciphertext: RangeFrom<usize>,
    ) -> Result<&'a mut [u8], Unspecified> {
        let opened = self.open_in_place_separate_tag_to_front(nonce, aad, tag, in_out, ciphertext);
        lend_plaintext(in_out, opened)
    }

    /// Like [`open_in_place_separate_tag`](Self::open_in_place_separate_tag), but returns the length of the plaintext
    /// in bytes. The plaintext is at the front of `in_out`. ring has no such method.
    ///
    /// <details><summary>Contract</summary>
    ///
    /// ```text
    /// ensures opened { Opened (aes self.now.bytes) nonce (aad_bytes aad.entry) tag ciphertext.start
    ///     in_out.old (is_ok result) in_out.new }
    /// ensures count { IfOk result (λ n. n ≡ length in_out.old - ciphertext.start) }
    /// ensures refused { OnErr result (in_out.new ≡ in_out.old) }
    /// ```
    ///
    /// Definitions: [`Opened`](crate::specs::gcm#Opened), [`aes`](aead_ciphers_base::specs::aes#aes),
    /// [`aad_bytes`](aead_ciphers_base::specs::values#aad_bytes).
    ///
    /// </details>
    pub fn open_in_place_separate_tag_to_front(
        &self,
        nonce: Nonce,
        aad: Aad<'_>,
        tag: Tag,
        in_out: &mut [u8],
        ciphertext: RangeFrom<usize>,
    ) -> Result<usize, Unspecified> {
        self.key
            .open(nonce, aad, tag, in_out, ciphertext, &mut Work::new())
    }

    /// Opens a ciphertext in place with its tag attached, and returns the plaintext (SP 800-38D algorithm 5).
    ///
    /// The ciphertext followed by the 16-byte tag is `in_out[ciphertext_and_tag]`. The plaintext, which is as long as
    /// the ciphertext, is written to the front of `in_out`. The bytes after it, including the tag, are unchanged.
    ///
    /// # Errors
    ///
    /// Fails with `Unspecified`, and leaves `in_out` unchanged, in these cases, which are checked in this order:
    ///
    /// - `in_out` is shorter than 16 bytes.
    /// - `ciphertext_and_tag.start` is greater than `in_out.len() - 16`.
    /// - The lengths exceed the limits of [`seal_in_place_separate_tag`](Self::seal_in_place_separate_tag).
    /// - The tag is not that of the ciphertext and `aad`.
    ///
    /// <details><summary>Contract</summary>
    ///
    /// ```text
    /// ensures opened { OpenedAttached (aes self.now.bytes) nonce (aad_bytes aad.entry) ciphertext_and_tag.start
    ///     in_out.old (is_ok result) (lent_buffer result in_out.old) }
    /// ensures plaintext { IfOk result (λ plaintext. plaintext.now
    ///     ≡ gcm_decrypted (aes self.now.bytes) nonce
    ///     (drop ciphertext_and_tag.start (take (length in_out.old - tag_len) in_out.old))) }
    /// ensures* writes_back { sem 𝓛 (LendsFront in_out.entry result (length in_out.old - tag_len - ciphertext_and_tag.start)) }
    /// ```
    ///
    /// Definitions: [`OpenedAttached`](crate::specs::gcm#OpenedAttached), [`aes`](aead_ciphers_base::specs::aes#aes),
    /// [`aad_bytes`](aead_ciphers_base::specs::values#aad_bytes), [`lent_buffer`](crate::specs::lending#lent_buffer),
    /// [`gcm_decrypted`](crate::specs::gcm#gcm_decrypted), [`tag_len`](crate::specs::gcm#tag_len),
    /// [`LendsFront`](crate::specs::lending#LendsFront).
    ///
    /// </details>
    pub fn open_within<'a>(
        &self,
        nonce: Nonce,
        aad: Aad<'_>,
        in_out: &'a mut [u8],
        ciphertext_and_tag: RangeFrom<usize>,
    ) -> Result<&'a mut [u8], Unspecified> {
        let opened = self.open_within_to_front(nonce, aad, in_out, ciphertext_and_tag);
        lend_plaintext(in_out, opened)
    }

    /// Like [`open_within`](Self::open_within), but returns the length of the plaintext in bytes. The plaintext is at
    /// the front of `in_out`. ring has no such method.
    ///
    /// <details><summary>Contract</summary>
    ///
    /// ```text
    /// ensures opened { OpenedAttached (aes self.now.bytes) nonce (aad_bytes aad.entry) ciphertext_and_tag.start
    ///     in_out.old (is_ok result) in_out.new }
    /// ensures count { IfOk result (λ n. n ≡ length in_out.old - tag_len - ciphertext_and_tag.start) }
    /// ensures refused { OnErr result (in_out.new ≡ in_out.old) }
    /// ```
    ///
    /// Definitions: [`OpenedAttached`](crate::specs::gcm#OpenedAttached), [`aes`](aead_ciphers_base::specs::aes#aes),
    /// [`aad_bytes`](aead_ciphers_base::specs::values#aad_bytes), [`tag_len`](crate::specs::gcm#tag_len).
    ///
    /// </details>
    pub fn open_within_to_front(
        &self,
        nonce: Nonce,
        aad: Aad<'_>,
        in_out: &mut [u8],
        ciphertext_and_tag: RangeFrom<usize>,
    ) -> Result<usize, Unspecified> {
        let (before_tag, tag) = in_out
            .split_last_chunk_mut::<MAX_TAG_LEN>()
            .ok_or(Unspecified)?;
        let tag = Tag::from(*tag);
        self.key.open(
            nonce,
            aad,
            tag,
            before_tag,
            ciphertext_and_tag,
            &mut Work::new(),
        )
    }

    /// Opens the whole of `in_out`, like [`open_within`](Self::open_within) with the range `0..`.
    ///
    /// <details><summary>Contract</summary>
    ///
    /// ```text
    /// ensures opened { OpenedAttached (aes self.now.bytes) nonce (aad_bytes aad.entry) 0
    ///     in_out.old (is_ok result) (lent_buffer result in_out.old) }
    /// ensures plaintext { IfOk result (λ plaintext. plaintext.now
    ///     ≡ gcm_decrypted (aes self.now.bytes) nonce (take (length in_out.old - tag_len) in_out.old)) }
    /// ensures* writes_back { sem 𝓛 (LendsFront in_out.entry result (length in_out.old - tag_len)) }
    /// ```
    ///
    /// Definitions: [`OpenedAttached`](crate::specs::gcm#OpenedAttached), [`aes`](aead_ciphers_base::specs::aes#aes),
    /// [`aad_bytes`](aead_ciphers_base::specs::values#aad_bytes), [`lent_buffer`](crate::specs::lending#lent_buffer),
    /// [`gcm_decrypted`](crate::specs::gcm#gcm_decrypted), [`tag_len`](crate::specs::gcm#tag_len),
    /// [`LendsFront`](crate::specs::lending#LendsFront).
    ///
    /// </details>
    pub fn open_in_place<'a>(
        &self,
        nonce: Nonce,
        aad: Aad<'_>,
        in_out: &'a mut [u8],
    ) -> Result<&'a mut [u8], Unspecified> {
        let opened = self.open_in_place_to_front(nonce, aad, in_out);
        lend_plaintext(in_out, opened)
    }

    /// Like [`open_in_place`](Self::open_in_place), but returns the length of the plaintext in bytes. The plaintext is
    /// at the front of `in_out`. ring has no such method.
    ///
    /// <details><summary>Contract</summary>
    ///
    /// ```text
    /// ensures opened { OpenedAttached (aes self.now.bytes) nonce (aad_bytes aad.entry) 0
    ///     in_out.old (is_ok result) in_out.new }
    /// ensures count { IfOk result (λ n. n ≡ length in_out.old - tag_len) }
    /// ensures refused { OnErr result (in_out.new ≡ in_out.old) }
    /// ```
    ///
    /// Definitions: [`OpenedAttached`](crate::specs::gcm#OpenedAttached), [`aes`](aead_ciphers_base::specs::aes#aes),
    /// [`aad_bytes`](aead_ciphers_base::specs::values#aad_bytes), [`tag_len`](crate::specs::gcm#tag_len).
    ///
    /// </details>
    pub fn open_in_place_to_front(
        &self,
        nonce: Nonce,
        aad: Aad<'_>,
        in_out: &mut [u8],
    ) -> Result<usize, Unspecified> {
        self.open_within_to_front(nonce, aad, in_out, 0..)
    }

    /// Opens `ciphertext` with a separate tag, and writes the plaintext to `out`, which must be equally long (SP 800-38D
    /// algorithm 5).
    ///
    /// # Errors
    ///
    /// Fails with `Unspecified`, and leaves `out` unchanged, if the lengths exceed the limits of
    /// [`seal_in_place_separate_tag`](Self::seal_in_place_separate_tag), or if `tag` is not the tag of the ciphertext
    /// and `aad`.
    ///
    /// # Panics
    ///
    /// In Rust, panics if the tag is right and `out` and `ciphertext` differ in length.
    ///
    /// <details><summary>Contract</summary>
    ///
    /// ```text
    /// requires { length out.old ≡ length ciphertext.now }
    /// ensures accepted { IsOk result ↔ (Fits (length (aad_bytes aad.entry)) (length ciphertext.now)
    ///     × (tag ≡ gcm_tag (aes self.now.bytes) nonce (aad_bytes aad.entry) ciphertext.now)) }
    /// ensures plaintext { OnOk result (out.new ≡ gcm_decrypted (aes self.now.bytes) nonce ciphertext.now) }
    /// ensures refused { OnErr result (out.new ≡ out.old) }
    /// ```
    ///
    /// Definitions: [`Fits`](crate::specs::gcm#Fits), [`aad_bytes`](aead_ciphers_base::specs::values#aad_bytes),
    /// [`gcm_tag`](crate::specs::gcm#gcm_tag), [`aes`](aead_ciphers_base::specs::aes#aes),
    /// [`gcm_decrypted`](crate::specs::gcm#gcm_decrypted).
    ///
    /// </details>
    pub fn open_to(
        &self,
        nonce: Nonce,
        aad: Aad<'_>,
        tag: Tag,
        ciphertext: &[u8],
        out: &mut [u8],
    ) -> Result<(), Unspecified> {
        self.key
            .open_to(nonce, aad, tag, ciphertext, out, &mut Work::new())
    }

    /// Opens a packet in place, and returns the length of the plaintext in bytes (SP 800-38D algorithm 5). The packet is
    /// one that [`seal_packet_in_place`](Self::seal_packet_in_place) seals: the plaintext replaces the ciphertext, and
    /// header and tag are unchanged.
    ///
    /// # Errors
    ///
    /// Fails with `Unspecified`, and leaves the packet unchanged, if it is shorter than `header_len + 16` bytes, if the
    /// lengths exceed the limits of [`seal_in_place_separate_tag`](Self::seal_in_place_separate_tag), or if the tag is
    /// not that of the ciphertext and the header.
    ///
    /// <details><summary>Contract</summary>
    ///
    /// ```text
    /// ensures opened { OpenedPacket self.now.bytes nonce header_len packet.old (is_ok result) packet.new }
    /// ensures count { IfOk result (λ n. n ≡ length packet.old - tag_len - header_len) }
    /// ensures refused { OnErr result (packet.new ≡ packet.old) }
    /// ```
    ///
    /// Definitions: [`OpenedPacket`](crate::specs::packet#OpenedPacket), [`tag_len`](crate::specs::gcm#tag_len).
    ///
    /// </details>
    pub fn open_packet_in_place_after_header(
        &self,
        nonce: Nonce,
        packet: &mut [u8],
        header_len: usize,
    ) -> Result<usize, Unspecified> {
        let Some((header, body)) = packet.split_at_mut_checked(header_len) else {
            return Err(Unspecified);
        };
        self.open_within_to_front(nonce, Aad::from(&*header), body, 0..)
    }
}

/// <details><summary>Ghost items</summary>
///
/// ```text
/// // `Some` of what `{:?}` prints.
/// ghost debug_output = { λ key. Some (key_debug_text (codes "LessSafeKey") key) };
/// ```
///
/// Definitions: [`key_debug_text`](crate::specs::aead_key#key_debug_text).
///
/// </details>
impl<K: GcmKey> fmt::Debug for LessSafeKey<K> {
    fn fmt(&self, f: &mut fmt::Formatter<'_>) -> fmt::Result {
        let algorithm = self.algorithm;
        write!(f, "LessSafeKey {{ algorithm: {algorithm:?} }}")
    }
}
