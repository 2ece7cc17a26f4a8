// Written by tools/rust from crates/aead_ciphers/src/aead/bound_key.rt. Don't edit.
//! The trait of keys that are bound to a nonce sequence: `SealingKey` and `OpeningKey`.

use crate::aead::{Algorithm, NonceSequence, UnboundKey};
use core::fmt;

/// An AEAD key that is bound to a nonce sequence, which supplies the nonce of each call.
///
/// # Examples
///
/// The keys of both directions of a connection:
///
/// ```
/// use deerlapse::aead::{
///     AES_128_GCM, BoundKey, CounterSequence, OpeningKey, SealingKey, UnboundKey, Unspecified,
/// };
///
/// fn bound<K: BoundKey<CounterSequence>>(bytes: &[u8; 16]) -> Result<K, Unspecified> {
///     let sequence = CounterSequence::new([1, 2, 3, 4], 0, 1 << 32)?;
///     Ok(K::new(UnboundKey::new(&AES_128_GCM, bytes)?, sequence))
/// }
///
/// // Not real keys. In a connection each direction has one of its own.
/// let sealing: SealingKey<_> = bound(&[7; 16])?;
/// let opening: OpeningKey<_> = bound(&[8; 16])?;
/// assert_eq!(sealing.algorithm(), &AES_128_GCM);
/// assert_eq!(format!("{opening:?}"), "OpeningKey { algorithm: AES_128_GCM }");
/// # Ok::<(), Unspecified>(())
/// ```
///
/// <details><summary>Ghost items</summary>
///
/// ```text
/// // The algorithm and the bytes of the key.
/// ghost key: { Self → AeadKey };
/// // The sequence that supplies the nonces.
/// ghost sequence: { Self → N };
/// ```
///
/// Definitions: [`AeadKey`](crate::specs::aead_key#AeadKey).
///
/// </details>
pub trait BoundKey<N: NonceSequence>: fmt::Debug {
    /// Binds `unbound_key` to `nonce_sequence`. No nonce is consumed.
    ///
    /// <details><summary>Contract</summary>
    ///
    /// ```text
    /// ensures key_kept { key result ≡ unbound_key }
    /// ensures sequence_kept { sequence result ≡ nonce_sequence }
    /// ```
    ///
    /// </details>
    fn new(unbound_key: UnboundKey, nonce_sequence: N) -> Self
    where
        Self: Sized;

    /// Returns the algorithm of the key.
    ///
    /// <details><summary>Contract</summary>
    ///
    /// ```text
    /// ensures { result.now ≡ (key self.now).algorithm }
    /// ```
    ///
    /// </details>
    fn algorithm(&self) -> &'static Algorithm;
}
