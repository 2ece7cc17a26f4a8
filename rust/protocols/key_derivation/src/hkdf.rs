// Written by tools/rust from crates/key_derivation/src/hkdf.rt. Don't edit.
//! HKDF (RFC 5869), and HKDF-Expand-Label and Derive-Secret of TLS 1.3 (RFC 8446 section 7.1).

use crate::error::DerivationError;
use crate::hash::Hash;
use crate::hmac::{HmacKey, hmac};
use crate::suite::Suite;
use crate::suite_key::SuiteKey;

/// The length of the longest label in bytes, without its prefix `tls13 `.
pub const MAX_LABEL_LEN: usize = 249;

/// The length of the longest context in bytes.
pub const MAX_CONTEXT_LEN: usize = 255;

/// The length of the longest HkdfLabel in bytes: two for the length, and two vectors of at most 255 bytes with their lengths.
const MAX_INFO_LEN: usize = 514;

/// HKDF-Extract (RFC 5869 section 2.2): returns the pseudorandom key of a salt and input keying material.
///
/// <details><summary>Contract</summary>
///
/// ```text
/// ensures { H.Output.items result ≡ hkdf_extract H.function salt.now ikm.now }
/// ```
///
/// Definitions: [`hkdf_extract`](crate::specs::hkdf#hkdf_extract).
///
/// </details>
pub fn extract<H: Hash>(salt: &[u8], ikm: &[u8]) -> H::Output {
    hmac::<H>(salt, ikm)
}

/// HKDF-Expand (RFC 5869 section 2.3): fills `out` with the output keying material of a pseudorandom key.
///
/// # Errors
///
/// Fails with `TooLong` if `out` is longer than 255 digests. It is then unchanged.
///
/// <details><summary>Contract</summary>
///
/// ```text
/// ensures accepted { IsOk result ↔ (length out.old ≤ 255 * H.OUTPUT_LEN) }
/// ensures refused { IsOkUnless result DerivationError.TooLong }
/// ensures expanded { OnOk result
///     (out.new ≡ hkdf_expand H.function prk.now info.now (length out.old)) }
/// ensures kept { OnErr result (out.new ≡ out.old) }
/// ```
///
/// Definitions: [`hkdf_expand`](crate::specs::hkdf#hkdf_expand).
///
/// </details>
pub fn expand<H: Hash>(prk: &[u8], info: &[u8], out: &mut [u8]) -> Result<(), DerivationError> {
    Expander::<H>::new(prk).expand(&[info], out)
}

/// A pseudorandom key of HKDF-Expand (RFC 5869 section 2.3), kept as one HMAC key for any number of outputs.
pub struct Expander<H> {
    key: HmacKey<H>,
}

impl<H: Hash> Expander<H> {
    /// Creates an expander from a pseudorandom key of any length.
    ///
    /// <details><summary>Contract</summary>
    ///
    /// ```text
    /// ensures { IsExpander H.function H.holds prk.now result }
    /// ```
    ///
    /// Definitions: [`IsExpander`](crate::specs::hmac_state#IsExpander).
    ///
    /// </details>
    pub fn new(prk: &[u8]) -> Self {
        Expander {
            key: HmacKey::new(prk),
        }
    }

    /// HKDF-Expand (RFC 5869 section 2.3): fills `out` with output keying material. The pieces of `info`, one after another,
    /// are the info.
    ///
    /// # Errors
    ///
    /// Fails with `TooLong` if `out` is longer than 255 digests. It is then unchanged.
    ///
    /// <details><summary>Contract</summary>
    ///
    /// ```text
    /// ensures accepted { IsOk result ↔ (length out.old ≤ 255 * H.OUTPUT_LEN) }
    /// ensures refused { IsOkUnless result DerivationError.TooLong }
    /// ensures expanded { OnOk result ((prk : List ℕ) → IsExpander H.function H.holds prk self.now
    ///     → out.new ≡ hkdf_expand H.function prk (joined_pieces info.now) (length out.old)) }
    /// ensures kept { OnErr result (out.new ≡ out.old) }
    /// ```
    ///
    /// Definitions: [`IsExpander`](crate::specs::hmac_state#IsExpander),
    /// [`hkdf_expand`](crate::specs::hkdf#hkdf_expand), [`joined_pieces`](crate::specs::hmac_state#joined_pieces).
    ///
    /// </details>
    pub fn expand(&self, info: &[&[u8]], out: &mut [u8]) -> Result<(), DerivationError> {
        check_okm_len::<H>(out.len())?;
        self.fill_okm(info, out);
        Ok(())
    }

    /// HKDF-Expand for a length of one digest: returns the output keying material. The pieces of `info`, one after another, are
    /// the info.
    ///
    /// <details><summary>Contract</summary>
    ///
    /// ```text
    /// ensures { (prk : List ℕ) → IsExpander H.function H.holds prk self.now
    ///     → H.Output.items result ≡ hkdf_expand H.function prk (joined_pieces info.now) H.OUTPUT_LEN }
    /// ```
    ///
    /// Definitions: [`IsExpander`](crate::specs::hmac_state#IsExpander),
    /// [`hkdf_expand`](crate::specs::hkdf#hkdf_expand), [`joined_pieces`](crate::specs::hmac_state#joined_pieces).
    ///
    /// </details>
    pub fn expand_block(&self, info: &[&[u8]]) -> H::Output {
        let mut hasher = update_all(self.key.start(), info);
        hasher.update(&[1]);
        self.key.finish(hasher)
    }

    /// Fills `out`, which is not too long, with output keying material.
    // requires { length out.old ≤ 255 * H.OUTPUT_LEN }
    // ensures { (prk : List ℕ) → IsExpander H.function H.holds prk self.now
    //     → out.new ≡ hkdf_expand H.function prk (joined_pieces info.now) (length out.old) }
    fn fill_okm(&self, info: &[&[u8]], out: &mut [u8]) {
        let len = out.len();
        let count = (len + H::OUTPUT_LEN - 1) / H::OUTPUT_LEN;
        let mut filled = 0usize;
        for i in 0..count {
            let mut hasher = self.key.start();
            hasher.update(&out[filled.saturating_sub(H::OUTPUT_LEN)..filled]);
            hasher = update_all(hasher, info);
            hasher.update(&[(i + 1) as u8]);
            let block = self.key.finish(hasher);
            let bytes = block.as_ref();
            let n = usize::min(bytes.len(), len - filled);
            out[filled..filled + n].copy_from_slice(&bytes[..n]);
            filled += n;
        }
    }

    /// HKDF-Expand-Label (RFC 8446 section 7.1): fills `out`, where no length is above its limit.
    // requires label { length label.now ≤ 249 }
    // requires context { length context.now ≤ 255 }
    // requires out { length out.old ≤ 255 * H.OUTPUT_LEN }
    // ensures { (secret : List ℕ) → IsExpander H.function H.holds secret self.now
    //     → out.new ≡ hkdf_expand_label H.function secret label.now context.now (length out.old) }
    // Not inlined, so that the C library contains one copy per hash function.
    #[inline(never)]
    pub(crate) fn fill_labeled(&self, label: &[u8], context: &[u8], out: &mut [u8]) {
        let mut info = [0u8; MAX_INFO_LEN];
        let len = write_hkdf_label(&mut info, label, context, out.len() as u16);
        self.fill_okm(&[&info[..len]], out);
    }

    /// Returns a key that is as long as the suite's keys: HKDF-Expand-Label with this label and an empty context.
    // requires { length label.now ≤ 249 }
    // ensures key { (secret : List ℕ) → IsExpander H.function H.holds secret self.now
    //     → result.items ≡ hkdf_expand_label H.function secret label.now [] (suite_key_len suite) }
    // ensures len { length result.items ≡ suite_key_len suite }
    pub(crate) fn suite_key(&self, label: &[u8], suite: Suite) -> SuiteKey {
        let mut key = SuiteKey::zeros(suite);
        self.fill_labeled(label, b"", &mut key);
        key
    }

    /// Returns an array: HKDF-Expand-Label with this label, an empty context and the length of the array.
    // requires label { length label.now ≤ 249 }
    // requires len { N ≤ 255 * H.OUTPUT_LEN }
    // ensures { (secret : List ℕ) → IsExpander H.function H.holds secret self.now
    //     → result ≡ hkdf_expand_label H.function secret label.now [] N }
    pub(crate) fn labeled<const N: usize>(&self, label: &[u8]) -> [u8; N] {
        let mut bytes = [0; N];
        self.fill_labeled(label, b"", &mut bytes);
        bytes
    }
}

/// Returns the hasher after it has absorbed the pieces, one after another.
// ensures { (m : List ℕ) → H.holds hasher m → H.holds result (m ++ joined_pieces pieces.now) }
fn update_all<H: Hash>(mut hasher: H, pieces: &[&[u8]]) -> H {
    for piece in pieces {
        hasher.update(piece);
    }
    hasher
}

/// HKDF-Expand-Label (RFC 8446 section 7.1): fills `out` from a secret. `label` is without its prefix `tls13 `.
///
/// # Errors
///
/// Fails with `LabelLength` if `label` is empty or has more than 249 bytes; with `ContextLength` if `context` has more than
/// 255; and with `TooLong` if `out` is longer than 255 digests. `out` is then unchanged.
///
/// <details><summary>Contract</summary>
///
/// ```text
/// ensures accepted { IsOk result ↔ (IsLabel label.now × (length context.now ≤ 255)
///     × (length out.old ≤ 255 * H.OUTPUT_LEN)) }
/// ensures label { IsErrOf result DerivationError.LabelLength ↔ ¬ IsLabel label.now }
/// ensures context { IsErrOf result DerivationError.ContextLength
///     ↔ (IsLabel label.now × (255 < length context.now)) }
/// ensures too_long { IsErrOf result DerivationError.TooLong ↔ (IsLabel label.now
///     × (length context.now ≤ 255) × (255 * H.OUTPUT_LEN < length out.old)) }
/// ensures expanded { OnOk result
///     (out.new ≡ hkdf_expand_label H.function secret.now label.now context.now (length out.old)) }
/// ensures kept { OnErr result (out.new ≡ out.old) }
/// ```
///
/// Definitions: [`IsLabel`](crate::specs::hkdf#IsLabel),
/// [`hkdf_expand_label`](crate::specs::hkdf#hkdf_expand_label).
///
/// </details>
pub fn expand_label<H: Hash>(
    secret: &[u8],
    label: &[u8],
    context: &[u8],
    out: &mut [u8],
) -> Result<(), DerivationError> {
    check_label(label)?;
    if context.len() > MAX_CONTEXT_LEN {
        return Err(DerivationError::ContextLength);
    }
    check_okm_len::<H>(out.len())?;
    Expander::<H>::new(secret).fill_labeled(label, context, out);
    Ok(())
}

/// Derive-Secret (RFC 8446 section 7.1): returns a secret as long as a digest. `label` is without its prefix `tls13 `.
///
/// `transcript_hash` is the Transcript-Hash of the messages (section 4.4.1), for no messages the digest of no bytes.
///
/// # Errors
///
/// Fails with `LabelLength` if `label` is empty or has more than 249 bytes, and with `TranscriptHashLength` if
/// `transcript_hash` is not as long as a digest.
///
/// <details><summary>Contract</summary>
///
/// ```text
/// ensures accepted { IsOk result
///     ↔ (IsLabel label.now × (length transcript_hash.now ≡ H.OUTPUT_LEN)) }
/// ensures label { IsErrOf result DerivationError.LabelLength ↔ ¬ IsLabel label.now }
/// ensures hash_length { IsErrOf result DerivationError.TranscriptHashLength
///     ↔ (IsLabel label.now × (length transcript_hash.now ≢ H.OUTPUT_LEN)) }
/// ensures derived { IfOk result (λ derived. H.Output.items derived
///     ≡ derive_secret H.function secret.now label.now transcript_hash.now) }
/// ```
///
/// Definitions: [`IsLabel`](crate::specs::hkdf#IsLabel), [`derive_secret`](crate::specs::hkdf#derive_secret).
///
/// </details>
pub fn derive_secret<H: Hash>(
    secret: &[u8],
    label: &[u8],
    transcript_hash: &[u8],
) -> Result<H::Output, DerivationError> {
    check_label(label)?;
    if transcript_hash.len() != H::OUTPUT_LEN {
        return Err(DerivationError::TranscriptHashLength);
    }
    let mut info = [0u8; MAX_INFO_LEN];
    let len = write_hkdf_label(&mut info, label, transcript_hash, H::OUTPUT_LEN as u16);
    Ok(Expander::<H>::new(secret).expand_block(&[&info[..len]]))
}

/// Checks that a label has 1 to 249 bytes.
// ensures accepted { IsOk result ↔ IsLabel label.now }
// ensures refused { IsOkUnless result DerivationError.LabelLength }
fn check_label(label: &[u8]) -> Result<(), DerivationError> {
    if label.is_empty() || label.len() > MAX_LABEL_LEN {
        return Err(DerivationError::LabelLength);
    }
    Ok(())
}

/// Checks that output keying material of `len` bytes is not longer than 255 digests (RFC 5869 section 2.3).
// ensures accepted { IsOk result ↔ (len ≤ 255 * H.OUTPUT_LEN) }
// ensures refused { IsOkUnless result DerivationError.TooLong }
fn check_okm_len<H: Hash>(len: usize) -> Result<(), DerivationError> {
    if len > 255 * H::OUTPUT_LEN {
        return Err(DerivationError::TooLong);
    }
    Ok(())
}

/// Writes the HkdfLabel of an output of `len` bytes (RFC 8446 section 7.1) at the start of `info`, and returns its length.
// requires label { length label.now ≤ 249 }
// requires context { length context.now ≤ 255 }
// ensures len { result ≤ 514 }
// ensures written { take result info.new ≡ hkdf_label label.now context.now len }
#[inline(never)]
fn write_hkdf_label(
    info: &mut [u8; MAX_INFO_LEN],
    label: &[u8],
    context: &[u8],
    len: u16,
) -> usize {
    let at = write_at(info, 0, &len.to_be_bytes());
    let at = write_at(info, at, &[(6 + label.len()) as u8]);
    let at = write_at(info, at, b"tls13 ");
    let at = write_at(info, at, label);
    let at = write_at(info, at, &[context.len() as u8]);
    write_at(info, at, context)
}

/// Writes `bytes` into `info` from the index `at` on, and returns the index after them.
// requires { at + length bytes.now ≤ 514 }
// ensures end { result ≡ at + length bytes.now }
// ensures written { take result info.new ≡ take at info.old ++ bytes.now }
fn write_at(info: &mut [u8; MAX_INFO_LEN], at: usize, bytes: &[u8]) -> usize {
    let end = at + bytes.len();
    info[at..end].copy_from_slice(bytes);
    end
}
