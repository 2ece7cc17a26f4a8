// Written by tools/rust from crates/aead_ciphers_wide/src/aes_gcm.rt. Don't edit.
//! An expanded AES-GCM key as plain data, for memory that the library does not own: a C struct, or a table of keys.

mod pieces;

use crate::aes::Width;
use crate::{aes, gcm};
use aead_ciphers::aes_gcm::{GcmKey, open_fitting_with, open_to_with, open_with, seal_with};
use aead_ciphers::gcm::fits;
use aead_ciphers_base::aes::{EncryptBlock, KeyBytes, Work, ZERO_BLOCK};
use aead_ciphers_base::bb;
use aead_ciphers_base::error::Unspecified;
use aead_ciphers_base::values::{Aad, MAX_TAG_LEN, Nonce, Sample, Tag};
use core::ops::RangeFrom;
pub use pieces::SealState;

/// An expanded AES-GCM key as plain data.
///
/// Sealing and opening require the fields to be as `expand` left them. In Rust nothing checks this, and a call with other fields
/// may panic or return wrong results. The fields are only read, so many threads may use a key at once.
///
/// Calls that take a `work` add their cipher blocks and field products to it. A caller that doesn't need the numbers passes
/// `&mut Work::new()`.
///
/// # Examples
///
/// ```
/// use deerlapse::aead::{Aad, Nonce, Unspecified};
/// use deerlapse::aes_gcm::{ExpandedKey, GcmKey, KeyBytes, Work};
///
/// let bytes = [7; 16]; // not a real key
/// let mut key = ExpandedKey::zeros();
/// key.expand(KeyBytes::AES_128(&bytes), &mut Work::new());
/// assert!(key.is_of(&bytes));
///
/// let nonce = || Nonce::assume_unique_for_key([1; 12]); // another for each message
/// let mut message = *b"hello";
/// let tag = key.seal(nonce(), Aad::empty(), &mut message, &mut Work::new())?;
/// let len = key.open(nonce(), Aad::empty(), tag, &mut message, 0.., &mut Work::new())?;
/// assert_eq!(&message[..len], b"hello");
/// # Ok::<(), Unspecified>(())
/// ```
#[repr(C)]
#[derive(Clone)]
pub struct ExpandedKey {
    /// The round keys, as eight planes of 128 bits each.
    pub planes: [[u64; 16]; 15],
    // Between the arrays, as in `aes::Key`.
    /// The number of rounds: 10 for AES-128, 14 for AES-256.
    pub rounds: u32,
    /// The width of the planes on which batches are encrypted, in bits: 256, or 128 for any other number. It changes no result.
    pub width: u32,
    /// The round keys (FIPS 197 section 5.2).
    pub round_keys: [[u8; 16]; 15],
    /// The products of the hash subkey (SP 800-38D section 6.3).
    pub products: [u8; 512],
    /// The products of the square of the hash subkey.
    pub squares: [u8; 512],
}

/// Overwrites the secret fields with zeros.
impl Drop for ExpandedKey {
    fn drop(&mut self) {
        simd::wipe(&mut self.planes);
        simd::wipe(&mut self.round_keys);
        simd::wipe(&mut self.products);
        simd::wipe(&mut self.squares);
    }
}

impl ExpandedKey {
    /// Does the same as [`expand`](GcmKey::expand), for batches on planes of this width. Overwrites the whole of an earlier key.
    ///
    /// <details><summary>Contract</summary>
    ///
    /// ```text
    /// requires { CanAdd work.old 1 0 }
    /// ensures expanded { IsExpanded self.new }
    /// ensures bytes { bytes_of self.new ≡ key_bytes bytes.entry }
    /// ensures width { self.new.width ≡ width_bits width }
    /// ensures unused { HasZerosAfter self.new }
    /// ensures worked { Adds work.old work.new 1 0 }
    /// ```
    ///
    /// Definitions: [`CanAdd`](aead_ciphers_base::specs::work#CanAdd),
    /// [`IsExpanded`](crate::specs::expanded_key#IsExpanded), [`bytes_of`](crate::specs::expanded_key#bytes_of),
    /// [`key_bytes`](aead_ciphers_base::specs::key_bytes#key_bytes), [`width_bits`](crate::specs::width#width_bits),
    /// [`HasZerosAfter`](crate::specs::expanded_key#HasZerosAfter), [`Adds`](aead_ciphers_base::specs::work#Adds).
    ///
    /// </details>
    pub fn expand_with_width(&mut self, bytes: KeyBytes<'_>, width: Width, work: &mut Work) {
        simd::run(ExpandedKeyExpandWithWidth {
            key: self,
            bytes,
            width,
            work,
        })
    }

    #[inline(always)]
    fn expand_with_width_at<V: simd::Level>(
        &mut self,
        bytes: KeyBytes<'_>,
        width: Width,
        work: &mut Work,
    ) {
        let rounds = aes::expand::<V>(&mut self.round_keys, bytes);
        aes::write_planes::<V>(&mut self.planes, &self.round_keys, rounds);
        self.rounds = rounds as u32;
        self.width = width.bits();
        let aes = aes::BlockKeyRef::<V>::new(&self.round_keys, rounds);
        let subkey = aes.encrypt_block(ZERO_BLOCK, work);
        gcm::expand::<V>(&mut self.products, &mut self.squares, subkey);
    }

    /// Returns whether this is a key of these bytes.
    ///
    /// <details><summary>Contract</summary>
    ///
    /// ```text
    /// requires { IsExpanded self.now }
    /// ensures { IsTrue result ↔ (bytes_of self.now ≡ bytes.now) }
    /// ```
    ///
    /// Definitions: [`IsExpanded`](crate::specs::expanded_key#IsExpanded),
    /// [`bytes_of`](crate::specs::expanded_key#bytes_of).
    ///
    /// </details>
    #[inline(always)]
    pub fn is_of(&self, bytes: &[u8]) -> bool {
        let len = 4 * (self.rounds as usize - 6);
        let front = aes::joined(self.round_keys[0], self.round_keys[1]);
        bb::verify_slices_are_equal(&front[..len], bytes).is_ok()
    }

    /// Borrows the AES key.
    // requires { IsExpanded self.now }
    // ensures { result ≡ bytes_of self.now }
    #[inline(always)]
    fn aes<V: simd::Level>(&self) -> aes::KeyRef<'_, V> {
        aes::KeyRef::<V>::new(
            &self.planes,
            &self.round_keys,
            self.rounds as usize,
            self.width,
        )
    }

    /// Borrows the key of GHASH, whose hash subkey is the encrypted zero block.
    // requires { IsExpanded self.now }
    // ensures { result ≡ aes_cipher (bytes_of self.now) zero_block }
    #[inline(always)]
    fn gcm<V: simd::Level>(&self) -> gcm::KeyRef<'_, V> {
        gcm::KeyRef::<V>::new(&self.products, &self.squares)
    }

    /// Opens as [`open`](GcmKey::open) does, but the tag is the last 16 bytes of `in_out`, which are unchanged. Also fails if
    /// `in_out` is shorter than 16 bytes.
    ///
    /// <details><summary>Contract</summary>
    ///
    /// ```text
    /// requires { IsExpanded self.now }
    /// ensures opened { OpenedAttached (aes_cipher (bytes_of self.now)) nonce (aad_bytes aad.entry)
    ///     ciphertext_and_tag.start in_out.old (is_ok result) in_out.new }
    /// ensures count { IfOk result (λ n. n ≡ length in_out.old - 16 - ciphertext_and_tag.start) }
    /// ensures refused { OnErr result (in_out.new ≡ in_out.old) }
    /// ```
    ///
    /// Definitions: [`IsExpanded`](crate::specs::expanded_key#IsExpanded),
    /// [`OpenedAttached`](aead_ciphers::specs::gcm#OpenedAttached),
    /// [`aes_cipher` (`aes`)](aead_ciphers_base::specs::aes#aes), [`bytes_of`](crate::specs::expanded_key#bytes_of),
    /// [`aad_bytes`](aead_ciphers_base::specs::values#aad_bytes).
    ///
    /// </details>
    pub fn open_within_to_front(
        &self,
        nonce: Nonce,
        aad: Aad<'_>,
        in_out: &mut [u8],
        ciphertext_and_tag: RangeFrom<usize>,
    ) -> Result<usize, Unspecified> {
        simd::run(ExpandedKeyOpenWithinToFront {
            key: self,
            nonce,
            aad,
            in_out,
            ciphertext_and_tag,
        })
    }

    #[inline(always)]
    fn open_within_to_front_at<V: simd::Level>(
        &self,
        nonce: Nonce,
        aad: Aad<'_>,
        in_out: &mut [u8],
        ciphertext_and_tag: RangeFrom<usize>,
    ) -> Result<usize, Unspecified> {
        let (before_tag, tag) = in_out
            .split_last_chunk_mut::<MAX_TAG_LEN>()
            .ok_or(Unspecified)?;
        match before_tag.len().checked_sub(ciphertext_and_tag.start) {
            Some(len) if fits(aad.as_ref().len(), len) => {
                // Read after the lengths are checked, since a caller in C may pass a false length.
                let tag = Tag::from(*tag);
                let aes = self.aes::<V>();
                let gcm = self.gcm::<V>();
                let start = ciphertext_and_tag.start;
                let mut work = Work::new();
                open_fitting_with(&aes, &gcm, nonce, aad, tag, before_tag, start, &mut work)
            }
            _ => Err(Unspecified),
        }
    }

    /// Begins a message that is sealed in pieces, of which none is sealed yet.
    ///
    /// # Errors
    ///
    /// Fails with `Unspecified` if `aad` is 2^61 bytes or longer (SP 800-38D section 5.2.1.1).
    ///
    /// <details><summary>Contract</summary>
    ///
    /// ```text
    /// requires { IsExpanded self.now }
    /// ensures accepted { IsOk result ↔ Fits (length (aad_bytes aad.entry)) 0 }
    /// ensures begun { IfOk result (λ state. HasSealed (aes_cipher (bytes_of self.now)) nonce
    ///     (aad_bytes aad.entry) [] [] state) }
    /// ensures cleared { IfOk result (λ state. state.batch ≡ replicate 128 0) }
    /// ```
    ///
    /// Definitions: [`IsExpanded`](crate::specs::expanded_key#IsExpanded), [`Fits`](aead_ciphers::specs::gcm#Fits),
    /// [`aad_bytes`](aead_ciphers_base::specs::values#aad_bytes), [`HasSealed`](crate::specs::pieces#HasSealed),
    /// [`aes_cipher` (`aes`)](aead_ciphers_base::specs::aes#aes), [`bytes_of`](crate::specs::expanded_key#bytes_of).
    ///
    /// </details>
    pub fn begin(&self, nonce: Nonce, aad: Aad<'_>) -> Result<SealState, Unspecified> {
        simd::run(ExpandedKeyBegin {
            key: self,
            nonce,
            aad,
        })
    }

    #[inline(always)]
    fn begin_at<V: simd::Level>(
        &self,
        nonce: Nonce,
        aad: Aad<'_>,
    ) -> Result<SealState, Unspecified> {
        let gcm = self.gcm::<V>();
        SealState::begin_with(&gcm, nonce, aad)
    }

    /// Begins a message as `begin` does, with AAD that is given in parts, one after another.
    ///
    /// # Errors
    ///
    /// Fails with `Unspecified` if the parts together have 2^61 bytes or more (SP 800-38D section 5.2.1.1).
    ///
    /// <details><summary>Contract</summary>
    ///
    /// ```text
    /// requires { IsExpanded self.now }
    /// ensures accepted { IsOk result ↔ Fits (length (joined aad.now)) 0 }
    /// ensures begun { IfOk result (λ state. HasSealed (aes_cipher (bytes_of self.now)) nonce
    ///     (joined aad.now) [] [] state) }
    /// ensures cleared { IfOk result (λ state. state.batch ≡ replicate 128 0) }
    /// ```
    ///
    /// Definitions: [`IsExpanded`](crate::specs::expanded_key#IsExpanded), [`Fits`](aead_ciphers::specs::gcm#Fits),
    /// [`joined`](crate::specs::pieces#joined), [`HasSealed`](crate::specs::pieces#HasSealed),
    /// [`aes_cipher` (`aes`)](aead_ciphers_base::specs::aes#aes), [`bytes_of`](crate::specs::expanded_key#bytes_of).
    ///
    /// </details>
    pub fn begin_with_parts(&self, nonce: Nonce, aad: &[&[u8]]) -> Result<SealState, Unspecified> {
        simd::run(ExpandedKeyBeginWithParts {
            key: self,
            nonce,
            aad,
        })
    }

    #[inline(always)]
    fn begin_with_parts_at<V: simd::Level>(
        &self,
        nonce: Nonce,
        aad: &[&[u8]],
    ) -> Result<SealState, Unspecified> {
        let gcm = self.gcm::<V>();
        SealState::begin_with_parts(&gcm, nonce, aad)
    }

    /// Encrypts the next piece of a message in place, under the key that the message began with.
    ///
    /// # Errors
    ///
    /// Fails with `Unspecified`, and changes nothing, if the message would be longer than 2^36 - 32 bytes.
    ///
    /// <details><summary>Contract</summary>
    ///
    /// ```text
    /// requires key { IsExpanded self.now }
    /// requires fits { Fits state.old.aad_len state.old.len }
    /// ensures accepted { IsOk result ↔ Fits state.old.aad_len (state.old.len + length in_out.old) }
    /// ensures sealed { OnOk result (SealsPiece (aes_cipher (bytes_of self.now)) state.old
    ///     in_out.old in_out.new state.new) }
    /// ensures refused { OnErr result ((state.new ≡ state.old) × (in_out.new ≡ in_out.old)) }
    /// ```
    ///
    /// Definitions: [`IsExpanded`](crate::specs::expanded_key#IsExpanded), [`Fits`](aead_ciphers::specs::gcm#Fits),
    /// [`SealsPiece`](crate::specs::pieces#SealsPiece), [`aes_cipher` (`aes`)](aead_ciphers_base::specs::aes#aes),
    /// [`bytes_of`](crate::specs::expanded_key#bytes_of).
    ///
    /// </details>
    pub fn update(&self, state: &mut SealState, in_out: &mut [u8]) -> Result<(), Unspecified> {
        simd::run(ExpandedKeyUpdate {
            key: self,
            state,
            in_out,
        })
    }

    #[inline(always)]
    fn update_at<V: simd::Level>(
        &self,
        state: &mut SealState,
        in_out: &mut [u8],
    ) -> Result<(), Unspecified> {
        let aes = self.aes::<V>();
        let gcm = self.gcm::<V>();
        state.update_with(&aes, &gcm, in_out)
    }

    /// Ends a message, and returns the tag of its AAD and of the ciphertexts of all its pieces in a row, under the key that
    /// the message began with.
    ///
    /// <details><summary>Contract</summary>
    ///
    /// ```text
    /// requires key { IsExpanded self.now }
    /// requires fits { Fits state.aad_len state.len }
    /// ensures { (nonce aad message ciphertext : List ℕ)
    ///     → HasSealed (aes_cipher (bytes_of self.now)) nonce aad message ciphertext state
    ///     → result ≡ gcm_tag (aes_cipher (bytes_of self.now)) nonce aad ciphertext }
    /// ```
    ///
    /// Definitions: [`IsExpanded`](crate::specs::expanded_key#IsExpanded), [`Fits`](aead_ciphers::specs::gcm#Fits),
    /// [`HasSealed`](crate::specs::pieces#HasSealed), [`aes_cipher` (`aes`)](aead_ciphers_base::specs::aes#aes),
    /// [`bytes_of`](crate::specs::expanded_key#bytes_of), [`gcm_tag`](aead_ciphers::specs::gcm#gcm_tag).
    ///
    /// </details>
    pub fn finish(&self, state: SealState) -> Tag {
        simd::run(ExpandedKeyFinish { key: self, state })
    }

    #[inline(always)]
    fn finish_at<V: simd::Level>(&self, state: SealState) -> Tag {
        let aes = self.aes::<V>();
        let gcm = self.gcm::<V>();
        state.finish_with(&aes, &gcm)
    }

    /// Computes the header protection mask of a sample (RFC 9001 section 5.4.3) with the AES key alone: 16 bytes in, 5
    /// bytes out.
    ///
    /// <details><summary>Contract</summary>
    ///
    /// ```text
    /// requires { IsExpanded self.now }
    /// ensures { result ≡ aes_mask (bytes_of self.now) sample }
    /// ```
    ///
    /// Definitions: [`IsExpanded`](crate::specs::expanded_key#IsExpanded),
    /// [`aes_mask`](aead_ciphers_base::specs::mask#aes_mask), [`bytes_of`](crate::specs::expanded_key#bytes_of).
    ///
    /// </details>
    pub fn new_mask(&self, sample: Sample) -> [u8; 5] {
        simd::run(ExpandedKeyNewMask { key: self, sample })
    }

    #[inline(always)]
    fn new_mask_at<V: simd::Level>(&self, sample: Sample) -> [u8; 5] {
        aes::BlockKeyRef::<V>::new(&self.round_keys, self.rounds as usize).new_mask(sample)
    }
}

/// `ExpandedKey::expand_with_width` as a job.
struct ExpandedKeyExpandWithWidth<'a> {
    key: &'a mut ExpandedKey,
    bytes: KeyBytes<'a>,
    width: Width,
    work: &'a mut Work,
}

impl simd::Job for ExpandedKeyExpandWithWidth<'_> {
    type Output = ();

    #[inline(always)]
    fn run<V: simd::Level>(self) {
        self.key
            .expand_with_width_at::<V>(self.bytes, self.width, self.work);
    }
}

/// `ExpandedKey::open_within_to_front` as a job.
struct ExpandedKeyOpenWithinToFront<'a> {
    key: &'a ExpandedKey,
    nonce: Nonce,
    aad: Aad<'a>,
    in_out: &'a mut [u8],
    ciphertext_and_tag: RangeFrom<usize>,
}

impl simd::Job for ExpandedKeyOpenWithinToFront<'_> {
    type Output = Result<usize, Unspecified>;

    #[inline(always)]
    fn run<V: simd::Level>(self) -> Result<usize, Unspecified> {
        self.key.open_within_to_front_at::<V>(
            self.nonce,
            self.aad,
            self.in_out,
            self.ciphertext_and_tag,
        )
    }
}

/// `ExpandedKey::begin` as a job.
struct ExpandedKeyBegin<'a> {
    key: &'a ExpandedKey,
    nonce: Nonce,
    aad: Aad<'a>,
}

impl simd::Job for ExpandedKeyBegin<'_> {
    type Output = Result<SealState, Unspecified>;

    #[inline(always)]
    fn run<V: simd::Level>(self) -> Result<SealState, Unspecified> {
        self.key.begin_at::<V>(self.nonce, self.aad)
    }
}

/// `ExpandedKey::begin_with_parts` as a job.
struct ExpandedKeyBeginWithParts<'a> {
    key: &'a ExpandedKey,
    nonce: Nonce,
    aad: &'a [&'a [u8]],
}

impl simd::Job for ExpandedKeyBeginWithParts<'_> {
    type Output = Result<SealState, Unspecified>;

    #[inline(always)]
    fn run<V: simd::Level>(self) -> Result<SealState, Unspecified> {
        self.key.begin_with_parts_at::<V>(self.nonce, self.aad)
    }
}

/// `ExpandedKey::update` as a job.
struct ExpandedKeyUpdate<'a> {
    key: &'a ExpandedKey,
    state: &'a mut SealState,
    in_out: &'a mut [u8],
}

impl simd::Job for ExpandedKeyUpdate<'_> {
    type Output = Result<(), Unspecified>;

    #[inline(always)]
    fn run<V: simd::Level>(self) -> Result<(), Unspecified> {
        self.key.update_at::<V>(self.state, self.in_out)
    }
}

/// `ExpandedKey::finish` as a job.
struct ExpandedKeyFinish<'a> {
    key: &'a ExpandedKey,
    state: SealState,
}

impl simd::Job for ExpandedKeyFinish<'_> {
    type Output = Tag;

    #[inline(always)]
    fn run<V: simd::Level>(self) -> Tag {
        self.key.finish_at::<V>(self.state)
    }
}

/// `ExpandedKey::new_mask` as a job.
struct ExpandedKeyNewMask<'a> {
    key: &'a ExpandedKey,
    sample: Sample,
}

impl simd::Job for ExpandedKeyNewMask<'_> {
    type Output = [u8; 5];

    #[inline(always)]
    fn run<V: simd::Level>(self) -> [u8; 5] {
        self.key.new_mask_at::<V>(self.sample)
    }
}

/// <details><summary>Ghost items</summary>
///
/// ```text
/// ghost bytes_of = { specs.bytes_of };
/// ghost is_expanded = { specs.IsExpanded };
/// ghost zero_key = { specs.zero_key };
/// ```
///
/// Definitions: [`bytes_of`](crate::specs::expanded_key#bytes_of),
/// [`IsExpanded`](crate::specs::expanded_key#IsExpanded), [`zero_key`](crate::specs::expanded_key#zero_key).
///
/// </details>
impl GcmKey for ExpandedKey {
    #[inline(always)]
    fn zeros() -> Self {
        ExpandedKey {
            planes: [[0; 16]; 15],
            rounds: 0,
            width: 0,
            round_keys: [[0; 16]; 15],
            products: [0; 512],
            squares: [0; 512],
        }
    }

    // The width isn't a part of the trait's contract.
    #[inline(always)]
    fn expand(&mut self, bytes: KeyBytes<'_>, work: &mut Work) {
        self.expand_with_width(bytes, Width::of_processor(), work);
    }

    fn seal(
        &self,
        nonce: Nonce,
        aad: Aad<'_>,
        in_out: &mut [u8],
        work: &mut Work,
    ) -> Result<Tag, Unspecified> {
        simd::run(ExpandedKeySeal {
            key: self,
            nonce,
            aad,
            in_out,
            work,
        })
    }

    fn open(
        &self,
        nonce: Nonce,
        aad: Aad<'_>,
        received_tag: Tag,
        in_out: &mut [u8],
        src: RangeFrom<usize>,
        work: &mut Work,
    ) -> Result<usize, Unspecified> {
        simd::run(ExpandedKeyOpen {
            key: self,
            nonce,
            aad,
            received_tag,
            in_out,
            src,
            work,
        })
    }

    fn open_to(
        &self,
        nonce: Nonce,
        aad: Aad<'_>,
        received_tag: Tag,
        ciphertext: &[u8],
        out: &mut [u8],
        work: &mut Work,
    ) -> Result<(), Unspecified> {
        simd::run(ExpandedKeyOpenTo {
            key: self,
            nonce,
            aad,
            received_tag,
            ciphertext,
            out,
            work,
        })
    }
}

impl ExpandedKey {
    #[inline(always)]
    fn seal_at<V: simd::Level>(
        &self,
        nonce: Nonce,
        aad: Aad<'_>,
        in_out: &mut [u8],
        work: &mut Work,
    ) -> Result<Tag, Unspecified> {
        let aes = self.aes::<V>();
        let gcm = self.gcm::<V>();
        seal_with(&aes, &gcm, nonce, aad, in_out, work)
    }

    #[inline(always)]
    fn open_at<V: simd::Level>(
        &self,
        nonce: Nonce,
        aad: Aad<'_>,
        received_tag: Tag,
        in_out: &mut [u8],
        src: RangeFrom<usize>,
        work: &mut Work,
    ) -> Result<usize, Unspecified> {
        let aes = self.aes::<V>();
        let gcm = self.gcm::<V>();
        open_with(&aes, &gcm, nonce, aad, received_tag, in_out, src, work)
    }

    #[inline(always)]
    fn open_to_at<V: simd::Level>(
        &self,
        nonce: Nonce,
        aad: Aad<'_>,
        received_tag: Tag,
        ciphertext: &[u8],
        out: &mut [u8],
        work: &mut Work,
    ) -> Result<(), Unspecified> {
        let aes = self.aes::<V>();
        let gcm = self.gcm::<V>();
        open_to_with(&aes, &gcm, nonce, aad, received_tag, ciphertext, out, work)
    }
}

/// `ExpandedKey::seal` as a job.
struct ExpandedKeySeal<'a> {
    key: &'a ExpandedKey,
    nonce: Nonce,
    aad: Aad<'a>,
    in_out: &'a mut [u8],
    work: &'a mut Work,
}

impl simd::Job for ExpandedKeySeal<'_> {
    type Output = Result<Tag, Unspecified>;

    #[inline(always)]
    fn run<V: simd::Level>(self) -> Result<Tag, Unspecified> {
        self.key
            .seal_at::<V>(self.nonce, self.aad, self.in_out, self.work)
    }
}

/// `ExpandedKey::open` as a job.
struct ExpandedKeyOpen<'a> {
    key: &'a ExpandedKey,
    nonce: Nonce,
    aad: Aad<'a>,
    received_tag: Tag,
    in_out: &'a mut [u8],
    src: RangeFrom<usize>,
    work: &'a mut Work,
}

impl simd::Job for ExpandedKeyOpen<'_> {
    type Output = Result<usize, Unspecified>;

    #[inline(always)]
    fn run<V: simd::Level>(self) -> Result<usize, Unspecified> {
        self.key.open_at::<V>(
            self.nonce,
            self.aad,
            self.received_tag,
            self.in_out,
            self.src,
            self.work,
        )
    }
}

/// `ExpandedKey::open_to` as a job.
struct ExpandedKeyOpenTo<'a> {
    key: &'a ExpandedKey,
    nonce: Nonce,
    aad: Aad<'a>,
    received_tag: Tag,
    ciphertext: &'a [u8],
    out: &'a mut [u8],
    work: &'a mut Work,
}

impl simd::Job for ExpandedKeyOpenTo<'_> {
    type Output = Result<(), Unspecified>;

    #[inline(always)]
    fn run<V: simd::Level>(self) -> Result<(), Unspecified> {
        self.key.open_to_at::<V>(
            self.nonce,
            self.aad,
            self.received_tag,
            self.ciphertext,
            self.out,
            self.work,
        )
    }
}
