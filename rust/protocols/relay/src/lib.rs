//! What the relays of both protocols share: the lines by which `interop/relay` speaks with them.
//!
//! A program of `src/bin` is called with the names of the files that it reads and writes. A line with the name of its protocol
//! begins a connection. Each line is answered by lines, and by one with a dot at the end. Bytes are in hexadecimal.
//!
//! - `secret LABEL BYTES`: a secret that a peer has logged under this label
//! - `client BYTES`, `server BYTES`: what came from this peer, a part of its stream or a datagram
//! - `update client`, `update server`: initiates a key update towards this peer; with TLS, `ask` in place of `update` also asks
//!   it for one
//! - `forget client`, `forget server`: with QUIC, drops the key before the last update of this peer
//! - `end`: ends the connection, without an answer
//!
//! In an answer, `client BYTES` and `server BYTES` are to be sent to this peer. Each other line says what happened, and with
//! which peer.

#![forbid(unsafe_code)]

use std::error::Error;
use std::fs::File;
use std::io::{BufRead, BufReader, Write};

use key_derivation::{Secret, Suite};
use vectors::hex;

pub type Result<T = ()> = std::result::Result<T, Box<dyn Error>>;

/// The peer that something comes from or goes to.
#[derive(Clone, Copy, Debug, PartialEq, Eq)]
pub enum Peer {
    Client,
    Server,
}

impl Peer {
    fn of_name(name: &str) -> Result<Self> {
        match name {
            "client" => Ok(Peer::Client),
            "server" => Ok(Peer::Server),
            _ => Err("no peer has this name".into()),
        }
    }

    pub fn name(self) -> &'static str {
        match self {
            Peer::Client => "client",
            Peer::Server => "server",
        }
    }

    pub fn other(self) -> Self {
        match self {
            Peer::Client => Peer::Server,
            Peer::Server => Peer::Client,
        }
    }
}

/// The relay of a connection.
pub trait Relay {
    /// Takes a secret with the label of its line in the key log.
    fn secret(&mut self, label: &str, bytes: &[u8], answer: &mut Answer) -> Result;

    /// Relays what came from a peer.
    fn relay(&mut self, from: Peer, bytes: Vec<u8>, answer: &mut Answer) -> Result;

    /// Initiates a key update towards a peer, and asks it for one if `asks`.
    fn update(&mut self, towards: Peer, asks: bool, answer: &mut Answer) -> Result;

    /// Drops the key before the last update of a peer.
    fn forget(&mut self, towards: Peer, answer: &mut Answer) -> Result;
}

/// The lines of an answer.
#[derive(Default)]
pub struct Answer(String);

impl Answer {
    /// Says that bytes are to be sent to a peer.
    pub fn send(&mut self, to: Peer, bytes: &[u8]) {
        self.say(to.name(), &hex::text(bytes));
    }

    /// Says what happened.
    pub fn say(&mut self, what: &str, word: &str) {
        self.0 += &format!("{what} {word}\n");
    }
}

/// The files of a program: lines are read from one, and answers are written to the other.
pub struct Lines {
    input: BufReader<File>,
    output: File,
}

impl Lines {
    /// Opens the files that the arguments of the program name.
    pub fn of_arguments() -> Result<Self> {
        let [_, input, output] = &std::env::args().collect::<Vec<_>>()[..] else {
            return Err("IN OUT".into());
        };
        Ok(Lines {
            input: BufReader::new(File::open(input)?),
            output: File::create(output)?,
        })
    }

    /// Reads the line that begins a connection of this protocol. Returns whether there is one.
    pub fn begin(&mut self, protocol: &str) -> Result<bool> {
        match self.read()? {
            None => Ok(false),
            Some(line) if line == protocol => {
                self.output.write_all(b".\n")?;
                Ok(true)
            }
            Some(line) => Err(format!("{line} in place of {protocol}").into()),
        }
    }

    /// Relays one connection, to its end.
    pub fn relay(&mut self, mut relay: impl Relay) -> Result {
        while let Some(line) = self.read()?.filter(|line| line != "end") {
            let mut answer = Answer::default();
            relay_line(&mut relay, &line, &mut answer)?;
            answer.0 += ".\n";
            self.output.write_all(answer.0.as_bytes())?;
        }
        Ok(())
    }

    fn read(&mut self) -> Result<Option<String>> {
        let mut line = String::new();
        let len = self.input.read_line(&mut line)?;
        Ok((len > 0).then(|| line.trim_end().to_owned()))
    }
}

fn relay_line(relay: &mut impl Relay, line: &str, answer: &mut Answer) -> Result {
    let words: Vec<_> = line.split(' ').collect();
    match words[..] {
        ["secret", label, secret] => relay.secret(label, &hex::bytes(secret), answer),
        ["update", peer] => relay.update(Peer::of_name(peer)?, false, answer),
        ["ask", peer] => relay.update(Peer::of_name(peer)?, true, answer),
        ["forget", peer] => relay.forget(Peer::of_name(peer)?, answer),
        [peer, bytes] => relay.relay(Peer::of_name(peer)?, hex::bytes(bytes), answer),
        _ => Err(format!("an unknown line: {line}").into()),
    }
}

/// Returns the secret of these bytes: 32 for AES-128-GCM, 48 for AES-256-GCM.
pub fn secret_of(bytes: &[u8]) -> Result<Secret> {
    let suite = if bytes.len() == 32 {
        Suite::Aes128Gcm
    } else {
        Suite::Aes256Gcm
    };
    Ok(Secret::new(suite, bytes)?)
}
