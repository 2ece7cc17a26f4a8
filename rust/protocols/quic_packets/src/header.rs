// Written by tools/rust from crates/quic_packets/src/header.rt. Don't edit.
//! Header protection: masking and unmasking the first byte and the packet number of a header (RFC 9001 section 5.4).

use crate::first_byte::{LONG_MASKED_BITS, NUMBER_LEN_BITS, SHORT_MASKED_BITS, is_long};
use crate::key_error::KeyError;
use crate::keys::header_key;
use crate::mask_error::MaskError;
use aead_ciphers::aead::quic::Algorithm;
use aead_ciphers_wide::aead::quic::HeaderProtectionKey;
use key_derivation::quic::QuicSecret;

/// The longest packet number in bytes. The sample begins this many bytes after the start of the packet number, however long
/// that is.
pub(crate) const MAX_NUMBER_LEN: usize = 4;

/// The length of a sample in bytes (RFC 9001 section 5.4.2).
pub const SAMPLE_LEN: usize = 16;

/// The end of the sample, in bytes after the start of the packet number.
pub(crate) const SAMPLE_END: usize = MAX_NUMBER_LEN + SAMPLE_LEN;

/// A header protection key (RFC 9001 section 5.4). It masks and unmasks headers, and does not depend on the packet number.
///
/// <details><summary>Model</summary>
///
/// ```text
/// ghost Value = { Rattle.aead_ciphers.specs.HeaderProtection.HeaderKey };
/// ghost view = { λ key. key.key };
/// ```
///
/// </details>
pub struct HeaderKey {
    key: HeaderProtectionKey,
}

impl HeaderKey {
    /// Creates a header protection key from 16 or 32 bytes, the key length of the algorithm.
    ///
    /// # Errors
    ///
    /// Fails with `KeyLength` if `key` is not as long.
    ///
    /// <details><summary>Contract</summary>
    ///
    /// ```text
    /// ensures accepted { IsOk result ↔ (length key.now ≡ key_len algorithm.now) }
    /// ensures refused { IsOkUnless result KeyError.KeyLength }
    /// ensures algorithm { IfOk result (λ made. made.algorithm ≡ algorithm.now) }
    /// ensures bytes { IfOk result (λ made. made.bytes ≡ key.now) }
    /// ```
    ///
    /// Definitions: [`key_len`](aead_ciphers::specs::header_protection#key_len).
    ///
    /// </details>
    pub fn new(algorithm: &Algorithm, key: &[u8]) -> Result<Self, KeyError> {
        match HeaderProtectionKey::new(algorithm, key) {
            Ok(key) => Ok(HeaderKey { key }),
            Err(_) => Err(KeyError::KeyLength),
        }
    }

    /// Creates the header protection key of a secret (RFC 9001 section 5.1).
    ///
    /// <details><summary>Contract</summary>
    ///
    /// ```text
    /// ensures { result ≡ secret_header_key secret.now }
    /// ```
    ///
    /// Definitions: [`secret_header_key`](crate::specs::keys#secret_header_key).
    ///
    /// </details>
    pub fn from_secret(secret: &QuicSecret) -> Self {
        header_key(secret.suite(), secret.header_key().as_slice())
    }

    /// Masks the first byte of a header and its packet number, by a sample of the sealed packet (RFC 9001 section 5.4.1).
    ///
    /// It masks four bits of the first byte of a long header or five of a short one, and as many bytes of the packet number as
    /// the first byte says, or all of `number` if these are fewer.
    ///
    /// # Errors
    ///
    /// Fails with `NoSample` if `sample` does not have 16 bytes, and with `NumberLength` if `number` has more than 4. Both are
    /// then unchanged.
    ///
    /// <details><summary>Contract</summary>
    ///
    /// ```text
    /// ensures accepted { IsOk result ↔ ((length sample.now ≡ 16) × (length number.old ≤ 4)) }
    /// ensures no_sample { IsErrOf result MaskError.NoSample ↔ (length sample.now ≢ 16) }
    /// ensures number_len { IsErrOf result MaskError.NumberLength
    ///     ↔ ((length sample.now ≡ 16) × (4 < length number.old)) }
    /// ensures masked { OnOk result (MaskedParts (header_protection self.now.algorithm self.now.bytes sample.now)
    ///     (number_len first.old) first.old number.old first.new number.new) }
    /// ensures first_kept { OnErr result (first.new ≡ first.old) }
    /// ensures number_kept { OnErr result (number.new ≡ number.old) }
    /// ```
    ///
    /// Definitions: [`MaskedParts`](crate::specs::header#MaskedParts),
    /// [`header_protection`](aead_ciphers::specs::header_protection#header_protection),
    /// [`number_len`](crate::specs::header#number_len).
    ///
    /// </details>
    pub fn encrypt_in_place(
        &self,
        sample: &[u8],
        first: &mut u8,
        number: &mut [u8],
    ) -> Result<(), MaskError> {
        let mask = self.mask_of_sample(sample, number)?;
        let number_len = number_len_in(*first);
        *first ^= first_mask(*first, mask[0]);
        mask_number(number, number_len, &mask);
        Ok(())
    }

    /// Unmasks the first byte of a header and its packet number, by a sample of the sealed packet (RFC 9001 section 5.4.1).
    ///
    /// It unmasks as many bytes of the packet number as the first byte then says, or all of `number` if these are fewer. Give
    /// four bytes, of which the ones after the packet number are unchanged.
    ///
    /// # Errors
    ///
    /// Fails as `encrypt_in_place` does.
    ///
    /// <details><summary>Contract</summary>
    ///
    /// ```text
    /// ensures accepted { IsOk result ↔ ((length sample.now ≡ 16) × (length number.old ≤ 4)) }
    /// ensures no_sample { IsErrOf result MaskError.NoSample ↔ (length sample.now ≢ 16) }
    /// ensures number_len { IsErrOf result MaskError.NumberLength
    ///     ↔ ((length sample.now ≡ 16) × (4 < length number.old)) }
    /// ensures masked { OnOk result (MaskedParts (header_protection self.now.algorithm self.now.bytes sample.now)
    ///     (number_len first.new) first.old number.old first.new number.new) }
    /// ensures first_kept { OnErr result (first.new ≡ first.old) }
    /// ensures number_kept { OnErr result (number.new ≡ number.old) }
    /// ```
    ///
    /// Definitions: [`MaskedParts`](crate::specs::header#MaskedParts),
    /// [`header_protection`](aead_ciphers::specs::header_protection#header_protection),
    /// [`number_len`](crate::specs::header#number_len).
    ///
    /// </details>
    pub fn decrypt_in_place(
        &self,
        sample: &[u8],
        first: &mut u8,
        number: &mut [u8],
    ) -> Result<(), MaskError> {
        let mask = self.mask_of_sample(sample, number)?;
        *first ^= first_mask(*first, mask[0]);
        mask_number(number, number_len_in(*first), &mask);
        Ok(())
    }

    /// Masks the header of a sealed packet whose packet number begins at byte `number_at` (RFC 9001 section 5.4.1).
    ///
    /// It masks four bits of the first byte of a long header or five of a short one, and every byte of the packet number.
    ///
    /// # Errors
    ///
    /// Fails with `NumberAtFirstByte` if `number_at` is 0, and with `NoSample` if the packet has fewer than `number_at + 20`
    /// bytes. The packet is then unchanged.
    ///
    /// <details><summary>Contract</summary>
    ///
    /// ```text
    /// ensures accepted { IsOk result ↔ HasSample number_at (length packet.old) }
    /// ensures first_byte { IsErrOf result MaskError.NumberAtFirstByte ↔ (number_at ≡ 0) }
    /// ensures no_sample { IsErrOf result MaskError.NoSample
    ///     ↔ ((0 < number_at) × (length packet.old < number_at + 20)) }
    /// ensures protected { OnOk result (Protected self.now number_at packet.old packet.new) }
    /// ensures kept { OnErr result (packet.new ≡ packet.old) }
    /// ```
    ///
    /// Definitions: [`HasSample`](crate::specs::header#HasSample), [`Protected`](crate::specs::header#Protected).
    ///
    /// </details>
    pub fn protect(&self, packet: &mut [u8], number_at: usize) -> Result<(), MaskError> {
        check_sample(packet, number_at)?;
        self.protect_sampled(packet, number_at);
        Ok(())
    }

    /// Masks a header as `protect` does, where the packet is long enough for a sample.
    // requires { HasSample number_at (length packet.old) }
    // ensures { Protected self.now number_at packet.old packet.new }
    pub(crate) fn protect_sampled(&self, packet: &mut [u8], number_at: usize) {
        let sample = sample_of(packet, number_at);
        let mut first = packet[0];
        let number = &mut packet[number_at..number_at + MAX_NUMBER_LEN];
        let Ok(()) = self.encrypt_in_place(&sample, &mut first, number) else {
            unreachable!();
        };
        packet[0] = first;
    }

    /// Unmasks the header of a received packet whose packet number begins at byte `number_at`, and returns the length of the
    /// packet number in bytes, from 1 to 4 (RFC 9001 section 5.4.1).
    ///
    /// The packet is not known to be authentic until it is opened.
    ///
    /// # Errors
    ///
    /// Fails with `NumberAtFirstByte` if `number_at` is 0, and with `NoSample` if the packet has fewer than `number_at + 20`
    /// bytes. The packet is then unchanged.
    ///
    /// <details><summary>Contract</summary>
    ///
    /// ```text
    /// ensures accepted { IsOk result ↔ HasSample number_at (length packet.old) }
    /// ensures first_byte { IsErrOf result MaskError.NumberAtFirstByte ↔ (number_at ≡ 0) }
    /// ensures no_sample { IsErrOf result MaskError.NoSample
    ///     ↔ ((0 < number_at) × (length packet.old < number_at + 20)) }
    /// ensures unprotected { OnOk result (Unprotected self.now number_at packet.old packet.new) }
    /// ensures number_len { IfOk result (λ n. n ≡ number_len (slice_index packet.new 0)) }
    /// ensures few { IfOk result (λ n. (0 < n) × (n ≤ 4)) }
    /// ensures kept { OnErr result (packet.new ≡ packet.old) }
    /// ```
    ///
    /// Definitions: [`HasSample`](crate::specs::header#HasSample), [`Unprotected`](crate::specs::header#Unprotected),
    /// [`number_len`](crate::specs::header#number_len).
    ///
    /// </details>
    pub fn unprotect(&self, packet: &mut [u8], number_at: usize) -> Result<usize, MaskError> {
        check_sample(packet, number_at)?;
        Ok(self.unprotect_sampled(packet, number_at))
    }

    /// Unmasks a header as `unprotect` does, where the packet is long enough for a sample.
    // requires { HasSample number_at (length packet.old) }
    // ensures unprotected { Unprotected self.now number_at packet.old packet.new }
    // ensures number_len { result ≡ number_len (slice_index packet.new 0) }
    // ensures few { (0 < result) × (result ≤ 4) }
    pub(crate) fn unprotect_sampled(&self, packet: &mut [u8], number_at: usize) -> usize {
        let sample = sample_of(packet, number_at);
        let mut first = packet[0];
        let number = &mut packet[number_at..number_at + MAX_NUMBER_LEN];
        let Ok(()) = self.decrypt_in_place(&sample, &mut first, number) else {
            unreachable!();
        };
        packet[0] = first;
        number_len_in(first)
    }

    /// Returns the mask for a sample. Fails with `NoSample` if the sample doesn't have 16 bytes, and with `NumberLength` if the
    /// packet number has more than 4.
    // ensures accepted { IsOk result ↔ ((length sample.now ≡ 16) × (length number.now ≤ 4)) }
    // ensures no_sample { IsErrOf result MaskError.NoSample ↔ (length sample.now ≢ 16) }
    // ensures number_len { IsErrOf result MaskError.NumberLength
    //     ↔ ((length sample.now ≡ 16) × (4 < length number.now)) }
    // ensures mask { IfOk result (λ mask. mask
    //     ≡ header_protection self.now.algorithm self.now.bytes sample.now) }
    fn mask_of_sample(&self, sample: &[u8], number: &[u8]) -> Result<[u8; 5], MaskError> {
        let Ok(mask) = self.key.new_mask(sample) else {
            return Err(MaskError::NoSample);
        };
        if number.len() > MAX_NUMBER_LEN {
            return Err(MaskError::NumberLength);
        }
        Ok(mask)
    }
}

/// Returns the sample of a packet that is long enough for one (RFC 9001 section 5.4.2).
// requires { HasSample number_at (length packet.now) }
// ensures { result ≡ slice_range packet.now (number_at + 4) (number_at + 20) }
fn sample_of(packet: &[u8], number_at: usize) -> [u8; SAMPLE_LEN] {
    let mut sample = [0; SAMPLE_LEN];
    sample.copy_from_slice(&packet[number_at + MAX_NUMBER_LEN..number_at + SAMPLE_END]);
    sample
}

/// Checks that the packet has a first byte before its number, and is long enough for a sample.
// ensures accepted { IsOk result ↔ HasSample number_at (length packet.now) }
// ensures first_byte { IsErrOf result MaskError.NumberAtFirstByte ↔ (number_at ≡ 0) }
// ensures no_sample { IsErrOf result MaskError.NoSample
//     ↔ ((0 < number_at) × (length packet.now < number_at + 20)) }
fn check_sample(packet: &[u8], number_at: usize) -> Result<(), MaskError> {
    if number_at == 0 {
        return Err(MaskError::NumberAtFirstByte);
    }
    if packet.len() < SAMPLE_END || packet.len() - SAMPLE_END < number_at {
        return Err(MaskError::NoSample);
    }
    Ok(())
}

/// Returns the bytes of a header that `unprotect` may change: the first byte, and four from the packet number on.
// requires { HasSample number_at (length packet.now) }
// ensures { HasMaskedBytes result number_at packet.now }
pub(crate) fn masked_bytes(packet: &[u8], number_at: usize) -> [u8; 5] {
    [
        packet[0],
        packet[number_at],
        packet[number_at + 1],
        packet[number_at + 2],
        packet[number_at + 3],
    ]
}

/// Writes the bytes that `masked_bytes` returned back to the header.
// requires first_byte { 0 < number_at }
// requires within { number_at + 4 ≤ length packet.old }
// ensures bytes { HasMaskedBytes bytes.now number_at packet.new }
// ensures others { (i : ℕ) → 0 < i → (i < number_at) ⊎ (number_at + 4 ≤ i)
//     → slice_index packet.new i ≡ slice_index packet.old i }
pub(crate) fn restore_masked_bytes(packet: &mut [u8], number_at: usize, bytes: &[u8; 5]) {
    packet[0] = bytes[0];
    for i in 0..MAX_NUMBER_LEN {
        packet[number_at + i] = bytes[i + 1];
    }
}

/// Returns the length of the packet number in bytes, from the lowest bits of the unmasked first byte.
// ensures is { result ≡ number_len first }
// ensures few { (0 < result) × (result ≤ 4) }
fn number_len_in(first: u8) -> usize {
    (first & NUMBER_LEN_BITS) as usize + 1
}

/// Returns what the first byte of a header is XORed with: the bits of the mask's first byte that its form allows. `first` may
/// be masked or unmasked.
// ensures { result ≡ first_mask first mask }
fn first_mask(first: u8, mask: u8) -> u8 {
    if is_long(first) {
        mask & LONG_MASKED_BITS
    } else {
        mask & SHORT_MASKED_BITS
    }
}

/// XORs the first `number_len` bytes of `number` with the mask's bytes after the first.
///
/// It reads and writes every byte, whatever the length, because the length in a received header is not authenticated before the
/// packet is opened (RFC 9001 section 9.5).
// requires room { length number.old ≤ 4 }
// requires few { number_len ≤ 4 }
// ensures number { (i : ℕ) → i < number_len → i < length number.old
//     → slice_index number.new i ≡ bit_xor (slice_index number.old i) (slice_index mask.now (i + 1)) }
// ensures others { (i : ℕ) → number_len ≤ i → slice_index number.new i ≡ slice_index number.old i }
// ensures len { length number.new ≡ length number.old }
fn mask_number(number: &mut [u8], number_len: usize, mask: &[u8; 5]) {
    for i in 0..number.len() {
        number[i] ^= byte_if_below(mask[i + 1], i, number_len);
    }
}

/// Returns the byte if `i < number_len`, and zero otherwise, without a branch.
// requires index { i < 4 }
// requires few { number_len ≤ 4 }
// ensures below { i < number_len → result ≡ byte }
// ensures above { number_len ≤ i → result ≡ 0 }
fn byte_if_below(byte: u8, i: usize, number_len: usize) -> u8 {
    let is_below = i.wrapping_sub(number_len) >> (usize::BITS - 1);
    byte & (is_below as u8).wrapping_neg()
}
