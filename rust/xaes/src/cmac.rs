// Written by tools/rust from crates/xaes/src/cmac.rt. Don't edit.
//! The derivation of keys by CMAC (SP 800-38B) over AES-256 in counter mode (SP 800-108r1).

use aead_ciphers_base::aes::{AES_256_KEY_LEN, BLOCK_LEN, Block, EncryptBlock, Work, ZERO_BLOCK};
use aead_ciphers_base::bb;
use aead_ciphers_wide::aes::BlockKeyRef;

/// The length in bytes of the context that a key is derived for.
pub const CONTEXT_LEN: usize = 12;

/// The context that a key is derived for: the first 12 bytes of a nonce.
pub type Context = [u8; CONTEXT_LEN];

/// The label of the derivation.
const LABEL: u8 = b'X';

/// R of SP 800-38B section 5.3, as a number: 10000111.
const R: u128 = 0x87;

/// Returns the first subkey K1 of CMAC, given the encrypted zero block (SP 800-38B section 6.1).
// ensures { result ≡ first_subkey cipher_of_zero }
#[inline(always)]
fn subkey_of(cipher_of_zero: Block) -> Block {
    let number = u128::from_be_bytes(cipher_of_zero);
    let fell_out = number >> 127;
    ((number << 1) ^ (fell_out * R)).to_be_bytes()
}

/// Returns the first subkey K1 of CMAC under the key of this cipher.
// ensures { result ≡ first_subkey (aes cipher.now zero_block) }
#[inline(always)]
pub(crate) fn first_subkey<V: simd::Level>(cipher: &BlockKeyRef<'_, V>) -> Block {
    subkey_of(cipher.encrypt_block(ZERO_BLOCK, &mut Work::new()))
}

/// CMAC under an AES-256 key that is borrowed: the key's cipher, and the first subkey.
// Model:
// ghost Value = { List ℕ };
// ghost view = { λ cmac. cmac.cipher };
// ghost invariant = { λ cmac. cmac.subkey ≡ first_subkey (aes cmac.cipher zero_block) };
pub(crate) struct Cmac<'k, V: simd::Level> {
    level: core::marker::PhantomData<V>,

    cipher: BlockKeyRef<'k, V>,
    subkey: Block,
}

impl<'k, V: simd::Level> Cmac<'k, V> {
    /// Creates CMAC under the key of `cipher`, whose first subkey is `subkey`.
    // requires { subkey ≡ first_subkey (aes cipher zero_block) }
    // ensures { result ≡ cipher.entry }
    #[inline(always)]
    pub(crate) fn new(cipher: BlockKeyRef<'k, V>, subkey: Block) -> Self {
        Cmac {
            cipher,
            subkey,
            level: core::marker::PhantomData::<V>,
        }
    }

    /// Computes CMAC of a message of one block (SP 800-38B section 6.2).
    // ensures { result ≡ cmac_of_block self.now block }
    #[inline(always)]
    fn mac_of_block(&self, block: Block) -> Block {
        self.cipher
            .encrypt_block(bb::xor_16(self.subkey, block), &mut Work::new())
    }

    /// Returns one iteration of the derivation (SP 800-108r1 section 4.1), 16 bytes.
    // ensures { result ≡ derived_block self.now context.now iteration }
    #[inline(always)]
    fn derived_block(&self, context: &Context, iteration: u16) -> Block {
        let [i0, i1] = iteration.to_be_bytes();
        let [c0, c1, c2, c3, c4, c5, c6, c7, c8, c9, c10, c11] = *context;
        self.mac_of_block([
            i0, i1, LABEL, 0, c0, c1, c2, c3, c4, c5, c6, c7, c8, c9, c10, c11,
        ])
    }

    /// Returns two iterations of the derivation, 16 bytes each, concatenated.
    // ensures { result ≡ derived_block self.now context.now first ++ derived_block self.now context.now second }
    #[inline(always)]
    pub(crate) fn derived_blocks(
        &self,
        context: &Context,
        first: u16,
        second: u16,
    ) -> [u8; AES_256_KEY_LEN] {
        let mut bytes = [0; AES_256_KEY_LEN];
        let (front, back) = bytes.split_at_mut(BLOCK_LEN);
        front.copy_from_slice(&self.derived_block(context, first));
        back.copy_from_slice(&self.derived_block(context, second));
        bytes
    }

    /// Returns the key that XAES-256-GCM derives for this context, by iterations 1 and 2.
    // ensures { result ≡ derived_key self.now context.now }
    #[inline(always)]
    pub(crate) fn derived_key(&self, context: &Context) -> [u8; AES_256_KEY_LEN] {
        self.derived_blocks(context, 1, 2)
    }
}
