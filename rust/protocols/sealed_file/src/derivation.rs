// Written by tools/rust from crates/sealed_file/src/derivation.rt. Don't edit.
//! The commitment to a key, by further iterations of the derivation of XAES-256-GCM.

use crate::header::Context;
use aead_ciphers_base::aes::AES_256_KEY_LEN;
use xaes::Xaes256Gcm;

/// Returns the commitment in the headers of the files with this context, by iterations 3 and 4 of the derivation.
// ensures { result ≡ commitment key.now context.now }
pub(crate) fn commitment(key: &Xaes256Gcm, context: &Context) -> [u8; AES_256_KEY_LEN] {
    key.derived_blocks(context, 3, 4)
}
