//! A library for a program without a memory allocator. The compiler rejects it if a package that it names has the crate `alloc`.

#![no_std]

pub use aes_gcm::{Aes128Gcm, Aes256Gcm};
pub use deerlapse_ring::aead::LessSafeKey;

use core::panic::PanicInfo;

#[panic_handler]
fn panic(_: &PanicInfo<'_>) -> ! {
    loop {}
}
