// Written by tools/rust from crates/key_derivation/src/pbkdf2.rt. Don't edit.
//! PBKDF2 with HMAC: a key from a password (RFC 8018 section 5.2).

use crate::error::DerivationError;
use crate::hash::{Hash, MAX_OUTPUT_LEN};
use crate::hmac::HmacKey;

/// The largest number of blocks of a derived key (RFC 8018 section 5.2, step 1).
const MAX_BLOCKS: usize = u32::MAX as usize;

/// PBKDF2 with HMAC (RFC 8018 section 5.2): fills `out` with the derived key of a password, after `count` iterations.
///
/// An iteration takes two compressions of the hash function. SHA instructions of a processor, which this crate doesn't use, make
/// them three to five times as fast for an attacker, so `count` alone doesn't say what a guess costs.
///
/// # Errors
///
/// Fails with `NoIterations` if `count` is 0, and otherwise with `TooLong` if `out` is longer than 2^32 - 1 digests. `out` is
/// then unchanged.
///
/// <details><summary>Contract</summary>
///
/// ```text
/// ensures accepted { IsOk result
///     ↔ ((0 < count) × (length out.old ≤ (2 ^ 32 - 1) * H.OUTPUT_LEN)) }
/// ensures no_iterations { IsErrOf result DerivationError.NoIterations ↔ (count ≡ 0) }
/// ensures too_long { IsErrOf result DerivationError.TooLong
///     ↔ ((0 < count) × ((2 ^ 32 - 1) * H.OUTPUT_LEN < length out.old)) }
/// ensures derived { OnOk result
///     (out.new ≡ pbkdf2 H.function password.now salt.now count (length out.old)) }
/// ensures kept { OnErr result (out.new ≡ out.old) }
/// ```
///
/// Definitions: [`pbkdf2`](crate::specs::pbkdf2#pbkdf2).
///
/// </details>
pub fn pbkdf2<H: Hash>(
    password: &[u8],
    salt: &[u8],
    count: u32,
    out: &mut [u8],
) -> Result<(), DerivationError> {
    let Some(further) = count.checked_sub(1) else {
        return Err(DerivationError::NoIterations);
    };
    if out.len() > MAX_BLOCKS * H::OUTPUT_LEN {
        return Err(DerivationError::TooLong);
    }
    fill_derived_key::<H>(password, salt, further, out);
    Ok(())
}

/// Fills `out`, which is not too long, with the derived key after `further + 1` iterations.
// requires { length out.old ≤ (2 ^ 32 - 1) * H.OUTPUT_LEN }
// ensures { out.new ≡ pbkdf2 H.function password.now salt.now (further + 1) (length out.old) }
fn fill_derived_key<H: Hash>(password: &[u8], salt: &[u8], further: u32, out: &mut [u8]) {
    let key = HmacKey::<H>::new(password);
    let len = out.len();
    let blocks = (len + H::OUTPUT_LEN - 1) / H::OUTPUT_LEN;
    let mut filled = 0;
    for i in 0..blocks {
        let mut block = [0u8; MAX_OUTPUT_LEN];
        let block_len = H::OUTPUT_LEN;
        xor_codes(&key, salt, further, (i + 1) as u32, &mut block[..block_len]);
        let n = usize::min(block_len, len - filled);
        out[filled..filled + n].copy_from_slice(&block[..n]);
        filled += n;
    }
}

/// Writes the block T_`index` of the derived key into `sum`: the XOR of `further + 1` codes U_1, U_2, .. (RFC 8018 section 5.2,
/// step 3).
// requires { length sum.old ≡ H.OUTPUT_LEN }
// ensures { (password : List ℕ) → IsKey H.function H.holds password key.now
//     → sum.new ≡ pbkdf2_sum H.function password salt.now index (further + 1) }
fn xor_codes<H: Hash>(key: &HmacKey<H>, salt: &[u8], further: u32, index: u32, sum: &mut [u8]) {
    sum.fill(0);
    let mut hasher = key.start();
    hasher.update(salt);
    hasher.update(&index.to_be_bytes());
    let mut code = key.finish(hasher);
    xor_into(sum, code.as_ref());
    for _ in 0..further {
        let mut hasher = key.start();
        hasher.update(code);
        code = key.finish(hasher);
        xor_into(sum, code.as_ref());
    }
}

/// XORs `code` into `sum`, which is as long, byte by byte.
// ensures { length sum.old ≡ length code.now → sum.new ≡ sum.old ⊕ code.now }
fn xor_into(sum: &mut [u8], code: &[u8]) {
    for i in 0..usize::min(sum.len(), code.len()) {
        sum[i] ^= code[i];
    }
}
