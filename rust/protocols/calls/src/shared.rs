//! What the lists of both kinds share.

use key_derivation::{Secret, Suite};
use std::error::Error;
use std::fmt::{Debug, Display, Write};

pub type Result<T> = std::result::Result<T, Box<dyn Error>>;

/// The lines of a list.
pub trait Calls {
    /// Makes the call of a line, and appends what it did to `answer`.
    fn answer(&mut self, words: &mut Words<'_>, answer: &mut String) -> Result<()>;
}

/// The words of a line.
pub struct Words<'a> {
    rest: &'a str,
}

impl<'a> Words<'a> {
    pub fn new(line: &'a str) -> Self {
        Words { rest: line }
    }

    /// The next word, or an empty one at the end.
    pub fn next(&mut self) -> &'a str {
        let (word, rest) = self.rest.split_once(' ').unwrap_or((self.rest, ""));
        self.rest = rest;
        word
    }

    pub fn number(&mut self) -> Result<u64> {
        Ok(self.next().parse()?)
    }

    pub fn len(&mut self) -> Result<usize> {
        Ok(self.next().parse()?)
    }

    /// Bytes in hexadecimal, or none for a dash.
    pub fn bytes(&mut self) -> Result<Vec<u8>> {
        let word = match self.next() {
            "-" => "",
            word => word,
        };
        (0..word.len())
            .step_by(2)
            .map(|at| Ok(u8::from_str_radix(&word[at..at + 2], 16)?))
            .collect()
    }

    /// Bytes that are given by their number and a seed.
    pub fn drawn(&mut self) -> Result<Vec<u8>> {
        let len = self.len()?;
        Ok(draw(len, self.number()?))
    }

    pub fn is_next(&mut self, word: &str) -> bool {
        self.next() == word
    }
}

/// The secret of a suite that is given by a seed.
pub fn secret_of(suite: &str, seed: u64) -> Result<Secret> {
    let (suite, len) = match suite {
        "aes-128" => (Suite::Aes128Gcm, 32),
        "aes-256" => (Suite::Aes256Gcm, 48),
        _ => return Err("aes-128 or aes-256".into()),
    };
    Ok(Secret::new(suite, &draw(len, seed))?)
}

/// Bytes of a linear congruential generator.
pub fn draw(len: usize, seed: u64) -> Vec<u8> {
    let mut state = seed;
    let next = |_| {
        state = state
            .wrapping_mul(6_364_136_223_846_793_005)
            .wrapping_add(1_442_695_040_888_963_407);
        (state >> 56) as u8
    };
    (0..len).map(next).collect()
}

/// The 64-bit FNV-1a hash of these bytes.
fn hash(bytes: &[u8]) -> u64 {
    bytes.iter().fold(0xcbf2_9ce4_8422_2325, |hash, byte| {
        (hash ^ u64::from(*byte)).wrapping_mul(0x100_0000_01b3)
    })
}

/// Appends the length and the hash of bytes.
pub fn say_bytes(answer: &mut String, bytes: &[u8]) -> Result<()> {
    write!(answer, " {}:{:016x}", bytes.len(), hash(bytes))?;
    Ok(())
}

/// Appends `ok`, or an error with the name of its type.
pub fn say_outcome<T, E: Debug + Display>(
    answer: &mut String,
    name: &str,
    outcome: &std::result::Result<T, E>,
) -> Result<()> {
    match outcome {
        Ok(_) => answer.push_str("ok"),
        Err(error) => write!(answer, "{name}::{error:?}: {error}")?,
    }
    Ok(())
}

/// Changes bytes: flips bits of one, cuts them off, appends others, or puts others in front.
pub fn change_bytes(bytes: &mut Vec<u8>, change: &str, words: &mut Words<'_>) -> Result<()> {
    match change {
        "none" => {}
        "flip" => {
            let (at, mask) = (words.len()?, words.len()? as u8);
            if !bytes.is_empty() {
                let at = at % bytes.len();
                bytes[at] ^= mask;
            }
        }
        "cut" => bytes.truncate(words.len()?),
        "append" => bytes.extend(words.drawn()?),
        "front" => {
            bytes.splice(..0, words.bytes()?);
        }
        _ => return Err("an unknown change".into()),
    }
    Ok(())
}
