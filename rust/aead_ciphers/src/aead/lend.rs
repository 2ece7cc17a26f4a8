// Written by tools/rust from crates/aead_ciphers/src/aead/lend.rt. Don't edit.
//! Mutable slices of a buffer that was opened: the plaintext, and the bytes after it.

use aead_ciphers_base::error::Unspecified;

/// Returns the plaintext, which is at the front of the buffer, as a mutable slice, or the error of `opened`. `loan` is
/// what the buffer held before the call that opened it, and the length of the plaintext.
// ghost loan: { List ℕ × ℕ }
// requires { Stands loan.1 loan.0 in_out.old opened }
// ensures accepted { is_ok opened ≡ is_ok result }
// ensures buffer { in_out.old ≡ lent_buffer result loan.0 }
// ensures length { IfOk result (λ part. length part.now ≡ loan.1) }
// ensures* writes_back { sem 𝓛 (LendsIfOk (Array byte 0) (Array byte 0) in_out.entry result
//     (λ w. w ++ drop loan.1 loan.0) loan.0) }
pub(crate) fn lend_plaintext(
    in_out: &mut [u8],
    opened: Result<usize, Unspecified>,
) -> Result<&mut [u8], Unspecified> {
    match opened {
        Ok(count) => Ok(&mut in_out[..count]),
        Err(error) => Err(error),
    }
}

/// Splits a buffer that was opened into two mutable slices, the plaintext at its front and the bytes after it. Returns
/// `None` if `opened` is an error.
///
/// `opened` is the result of a call that returns the length of the plaintext, such as `open_within_to_front`. This
/// function is for callers whose own contract says what the buffer holds when the loans end.
///
/// <details><summary>Contract</summary>
///
/// ```text
/// requires { IfOk opened (λ n. n ≤ length in_out.old) }
/// ensures accepted { IsSome result ↔ IsOk opened }
/// ensures value { IfSome result (λ parts. (parts.0.now ≡ take (count_of opened) in_out.old)
///     × (parts.1.now ≡ drop (count_of opened) in_out.old)) }
/// ensures* writes_back { sem 𝓛 (LendsBothIf (Array byte 0) (Array byte 0) (Array byte 0) in_out.entry result ◌++◌ in_out.old) }
/// ```
///
/// Definitions: [`count_of`](crate::specs::lending#count_of).
///
/// </details>
pub fn lend_plaintext_and_rest(
    in_out: &mut [u8],
    opened: Result<usize, Unspecified>,
) -> Option<(&mut [u8], &mut [u8])> {
    match opened {
        Ok(count) => Some(in_out.split_at_mut(count)),
        Err(_) => None,
    }
}
