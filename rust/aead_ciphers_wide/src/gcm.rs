// Written by tools/rust from crates/aead_ciphers_wide/src/gcm.rt. Don't edit.
//! GHASH (SP 800-38D section 6.4) by byte permutes, over tables of 512 bytes. Many blocks are hashed two at a time:
//! (X + A) H + B, times H, is the sum of X + A times H^2 and of B times H.

mod product;

use aead_ciphers::gcm::{UpdateBlock, UpdateBlocks, Xi};
use aead_ciphers_base::aes::{BLOCK_LEN, Block, Work};
use aead_ciphers_base::polyfill::slice::AsChunks;
use simd::u8x16;

/// The length of two blocks.
const PAIR_LEN: usize = 2 * BLOCK_LEN;

/// Writes the products of the hash subkey `block` to `products`, and those of its square to `squares`.
///
/// <details><summary>Contract</summary>
///
/// ```text
/// ensures products { ArePowers products.new squares.new }
/// ensures subkey { subkey products.new ≡ block }
/// ```
///
/// Definitions: [`ArePowers`](crate::specs::products#ArePowers), [`subkey`](crate::specs::products#subkey).
///
/// </details>
#[inline(always)]
pub fn expand<V: simd::Level>(products: &mut [u8; 512], squares: &mut [u8; 512], block: Block) {
    product::write_products::<V>(products, number_of_block(block));
    let square = product::product(products, u8x16::<V>::from_array(block));
    product::write_products::<V>(squares, number_of_block(square.to_array()));
}

/// Returns the number whose big-endian bytes are `block`.
// ensures { to_be_bytes w128 result ≡ block }
#[inline(always)]
fn number_of_block(block: Block) -> u128 {
    u128::from_be_bytes(block)
}

/// A key for GHASH that borrows the products of its hash subkey and of the square of it.
///
/// <details><summary>Model</summary>
///
/// ```text
/// ghost Value = { List ℕ };
/// ghost view = { λ key. subkey key.products.now };
/// ghost invariant = { λ key.
///     ArePowers key.products.now key.squares.now };
/// ```
///
/// Definitions: [`subkey`](crate::specs::products#subkey), [`ArePowers`](crate::specs::products#ArePowers).
///
/// </details>
pub struct KeyRef<'k, V: simd::Level> {
    level: core::marker::PhantomData<V>,

    products: &'k [u8; 512],
    squares: &'k [u8; 512],
}

impl<'k, V: simd::Level> KeyRef<'k, V> {
    /// Creates a key from the products of its hash subkey and of the square of it.
    ///
    /// <details><summary>Contract</summary>
    ///
    /// ```text
    /// requires { ArePowers products.now squares.now }
    /// ensures { result ≡ subkey products.now }
    /// ```
    ///
    /// Definitions: [`ArePowers`](crate::specs::products#ArePowers), [`subkey`](crate::specs::products#subkey).
    ///
    /// </details>
    #[inline(always)]
    pub fn new(products: &'k [u8; 512], squares: &'k [u8; 512]) -> Self {
        KeyRef {
            products,
            squares,
            level: core::marker::PhantomData::<V>,
        }
    }
}

/// <details><summary>Ghost items</summary>
///
/// ```text
/// ghost hash_subkey = { λ key. key };
/// ```
///
/// </details>
impl<'k, V: simd::Level> UpdateBlock for KeyRef<'k, V> {
    #[inline(always)]
    fn update_block(&self, xi: &mut Xi, block: Block, work: &mut Work) {
        let sum = product::add(
            u8x16::<V>::from_array(*xi.as_ref()),
            u8x16::<V>::from_array(block),
        );
        xi.set(product::product(self.products, sum).to_array());
        work.add_product();
    }
}

impl<'k, V: simd::Level> UpdateBlocks for KeyRef<'k, V> {
    #[inline(always)]
    fn update_blocks(&self, xi: &mut Xi, input: AsChunks<'_, u8, BLOCK_LEN>, work: &mut Work) {
        let (products, squares) = (self.products, self.squares);
        let mut sum = u8x16::<V>::from_array(*xi.as_ref());
        let mut rest = input.as_flattened();
        while let Some((pair, after)) = rest.split_first_chunk::<PAIR_LEN>() {
            let first = product::add(sum, u8x16::<V>::from_slice(&pair[..BLOCK_LEN]));
            let second = u8x16::<V>::from_slice(&pair[BLOCK_LEN..]);
            sum = product::ghash_pair(products, squares, first, second);
            work.add_product();
            work.add_product();
            rest = after;
        }
        if let Some(last) = rest.first_chunk::<BLOCK_LEN>() {
            let last = product::add(sum, u8x16::<V>::from_array(*last));
            sum = product::product(self.products, last);
            work.add_product();
        }
        xi.set(sum.to_array());
    }
}
