//! Makes the calls of a row of `bench/plain-rust` by the Rust of `rust/` or by the assembly of `dist/`:
//! plain-rust -c SIDE CALLS ROW
//!
//! SIDE is `assembly`, or the name of a level of `simd`, by which the Rust then computes. ROW is a row of the table. What the calls
//! made is printed, so that the sides can be compared. With a row that isn't known, the status is 3.

#![deny(unsafe_code)]

#[allow(unsafe_code)]
mod assembly;
mod plain;

use std::hint::black_box;
use std::process::ExitCode;

const TAG_LEN: usize = 16;

/// The cipher of a row, by the last part of its name.
#[derive(Clone, Copy)]
enum Cipher {
    Aes128,
    Aes256,
    Xaes,
    ChaCha20,
}

/// The calls of a side. What is never refused here returns no `Result`.
trait Side {
    type Key;
    type Xaes;
    type HeaderKey;

    /// Expands a key where it is.
    fn expand(key: &mut Self::Key, bytes: &[u8]);
    fn zeros() -> Self::Key;
    fn seal(key: &Self::Key, nonce: [u8; 12], buffer: &mut [u8]) -> [u8; TAG_LEN];
    /// Opens what was sealed with no AAD, and returns whether the tag was right.
    fn open(key: &Self::Key, nonce: [u8; 12], tag: [u8; TAG_LEN], buffer: &mut [u8]) -> bool;
    fn xaes(bytes: &[u8; 32]) -> Self::Xaes;
    fn seal_by_xaes(key: &Self::Xaes, nonce: [u8; 24], buffer: &mut [u8]) -> [u8; TAG_LEN];
    fn header_key(bytes: &[u8], is_chacha20: bool) -> Self::HeaderKey;
    fn mask(key: &Self::HeaderKey, sample: &[u8; 16]) -> [u8; 5];
}

/// Makes a call `calls` times, each with the number of those before, and returns what the last one returned.
fn repeat<R>(calls: u64, mut call: impl FnMut(u64) -> R) -> Option<R> {
    (0..calls).map(|i| black_box(call(black_box(i)))).last()
}

fn nonce<const N: usize>(number: u64) -> [u8; N] {
    let mut nonce = [0; N];
    nonce[..8].copy_from_slice(&number.to_le_bytes());
    nonce
}

/// The bytes of a key, which aren't secret.
fn key_bytes(cipher: Cipher) -> &'static [u8] {
    match cipher {
        Cipher::Aes128 => &[7; 16],
        _ => &[7; 32],
    }
}

fn seal<S: Side>(calls: u64, cipher: Cipher, len: usize) -> Vec<u8> {
    let mut buffer = vec![1; len];
    let tag = if let Cipher::Xaes = cipher {
        let key = S::xaes(&[7; 32]);
        repeat(calls, |i| S::seal_by_xaes(&key, nonce(i), &mut buffer))
    } else {
        let mut key = S::zeros();
        S::expand(&mut key, key_bytes(cipher));
        repeat(calls, |i| S::seal(&key, nonce(i), &mut buffer))
    };
    buffer.extend(tag.into_iter().flatten());
    buffer
}

/// Opens one message again and again. It is decrypted into the same buffer, into which the ciphertext is copied before each call.
fn open<S: Side>(calls: u64, cipher: Cipher, len: usize) -> Vec<u8> {
    let mut key = S::zeros();
    S::expand(&mut key, key_bytes(cipher));
    let mut ciphertext = vec![1; len];
    let tag = S::seal(&key, nonce(0), &mut ciphertext);
    let mut buffer = ciphertext.clone();
    let are_opened = repeat(calls, |_| {
        buffer.copy_from_slice(&ciphertext);
        S::open(&key, nonce(0), tag, &mut buffer)
    });
    assert_eq!(are_opened, Some(true));
    buffer
}

/// Makes a key again and again, and seals with the last one.
fn make<S: Side>(calls: u64, cipher: Cipher) -> Vec<u8> {
    let mut buffer = vec![1; 16];
    let tag = if let Cipher::Xaes = cipher {
        repeat(calls, |_| S::xaes(black_box(&[7; 32])))
            .map(|key| S::seal_by_xaes(&key, nonce(0), &mut buffer))
    } else {
        let mut key = S::zeros();
        repeat(calls, |_| S::expand(&mut key, black_box(key_bytes(cipher))));
        Some(S::seal(&key, nonce(0), &mut buffer))
    };
    buffer.extend(tag.into_iter().flatten());
    buffer
}

fn mask<S: Side>(calls: u64, cipher: Cipher) -> Vec<u8> {
    let key = S::header_key(key_bytes(cipher), matches!(cipher, Cipher::ChaCha20));
    let made = repeat(calls, |i| S::mask(&key, &nonce(i)));
    made.into_iter().flatten().collect()
}

/// Makes the calls of a row, and returns what they made, if there is such a row.
fn run<S: Side>(calls: u64, row: &str) -> Option<Vec<u8>> {
    let (what, cipher) = row.rsplit_once(", ")?;
    let cipher = match cipher {
        "AES-128" => Cipher::Aes128,
        "AES-256" => Cipher::Aes256,
        "XAES-256-GCM" => Cipher::Xaes,
        "ChaCha20" => Cipher::ChaCha20,
        _ => return None,
    };
    let len = |what: &str| what.strip_suffix(" bytes")?.parse().ok();
    match what.split_once(", ") {
        Some(("sealing", it)) => Some(seal::<S>(calls, cipher, len(it)?)),
        Some(("opening", it)) => Some(open::<S>(calls, cipher, len(it)?)),
        None if what == "making a key" => Some(make::<S>(calls, cipher)),
        None if what == "a mask" => Some(mask::<S>(calls, cipher)),
        _ => None,
    }
}

fn main() -> ExitCode {
    let words: Vec<String> = std::env::args().collect();
    let [_, _, side, calls, row] = &words[..] else {
        return ExitCode::from(2);
    };
    let calls = calls.parse().expect("a number of calls");
    let made = if side == "assembly" {
        run::<assembly::Assembly>(calls, row)
    } else {
        let at = simd::levels().iter().position(|it| it == side);
        simd::at_most(1 + at.expect("a level that the processor has"));
        run::<plain::Plain>(calls, row)
    };
    let Some(made) = made else {
        return ExitCode::from(3);
    };
    println!("{made:02x?}");
    ExitCode::SUCCESS
}
