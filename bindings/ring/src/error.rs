//! The error of every call (`ring::error`).

use core::array::TryFromSliceError;
use core::error::Error;
use core::fmt;

/// An error that doesn't say why a call failed, as FAIL does not in SP 800-38D section 7.2. The documentation of each
/// call lists the reasons.
///
/// ```no_run
/// use deerlapse_ring::aead::Nonce;
/// use deerlapse_ring::error::Unspecified;
///
/// fn nonce_of(packet: &[u8]) -> Result<Nonce, Unspecified> {
///     let bytes: [u8; 12] = packet.get(..12).ok_or(Unspecified)?.try_into()?;
///     Ok(Nonce::assume_unique_for_key(bytes))
/// }
/// assert!(nonce_of(b"short").is_err());
/// ```
#[derive(Clone, Copy, Debug, PartialEq, Eq)]
pub struct Unspecified;

impl fmt::Display for Unspecified {
    fn fmt(&self, f: &mut fmt::Formatter<'_>) -> fmt::Result {
        f.write_str("deerlapse_ring::error::Unspecified")
    }
}

impl Error for Unspecified {}

impl From<TryFromSliceError> for Unspecified {
    fn from(_: TryFromSliceError) -> Self {
        Unspecified
    }
}
