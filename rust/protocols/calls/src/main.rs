//! Makes lists of calls on connections: `deerlapse-protocols-calls IN OUT` reads the lists from the file IN, and writes a line for
//! each call to the file OUT.
//!
//! `interop/against-rattle` draws the lists. The program in Rattle in `interop/against-rattle.d` makes the same calls.
//!
//! The first line of a list names its kind, and its last line is `end`. Each line between is a call of END, which is `client` or
//! `server`. `LEN SEED` stands for drawn bytes, and HEX for bytes in hexadecimal, or `-` for none.
//!
//! Lists of QUIC begin with `quic` or `quic-wide`, whose windows have 128 and 1,024 numbers, and for each end `LIMIT FAILURES
//! FIXED-BIT`. TYPE is a type of packets, SECRET is `SUITE SEED` or, for Initial packets, `client SEED` or `server SEED`, and
//! NUMBER is `above N` or `below N`, counted from the next number, or `end N`, which is 2^62 - N:
//!
//! - `install-sender END TYPE VERSION SECRET`, `install-receiver END TYPE VERSION SECRET`
//! - `discard END TYPE`, `discard-zero-rtt END`, `confirm END`, `forget END`, `update END`, `set-peer-fixed-bit END FIXED-BIT`
//! - `skip END TYPE NUMBER`, `acknowledge END TYPE NUMBER PHASE`, where PHASE is `own` or `other`
//! - `send END TYPE VERSION NUMBER-LEN BIT LEN SEED` and, by `send_close`, `close ..`: 0 for NUMBER-LEN is the least that fits, and
//!   0 for BIT clears the fixed bit
//! - `raw END TYPE START STOP HEX LEN SEED`: sends bytes that begin with HEX, with the place of the number
//! - `forge END TYPE VERSION SECRET UPDATES MASK NUMBER NUMBER-LEN LEN SEED`: has a packet of END sealed by `PacketKey` after key
//!   updates, with MASK on its first byte
//! - `receive END COUNT BACK.. ID-LEN CHANGE`: a datagram of COUNT packets of the other end, of which 0 is the last one
//!
//! Lists of TLS begin with `tls SUITE SEED SEED`, and for each end `STAGE BUFFER LIMIT SIZE LIMIT SIZE`, with the limits of the
//! reader and of the writer:
//!
//! - `send END LEN SEED`, `send-padded END PADDING LEN SEED`, `send-handshake END HEX`, `update END REQUEST`, `close END`,
//!   `abort END ALERT`
//! - `receive END LEN`: so many of the bytes that came, or all for 0
//! - `change END CHANGE`: changes the bytes that came
//! - `forge END UPDATES NUMBER HEX`: puts a record with this inner plaintext after them
//! - `set-update-bound END N`
//! - `take-apart END`: goes on with a new connection of the same parts, the first time
//!
//! CHANGE is `none`, `flip AT MASK`, `cut LEN`, `append LEN SEED` or `front HEX` and, for records, `double` or `swap`.

#![forbid(unsafe_code)]

mod quic;
mod shared;
mod tls;

use quic::QuicList;
use shared::{Calls, Result, Words};
use std::env;
use std::fs::File;
use std::io::{BufRead, BufReader, BufWriter, Write};
use tls::{Buffers, TlsList};

fn main() -> Result<()> {
    let mut words = env::args().skip(1);
    let (Some(input), Some(output)) = (words.next(), words.next()) else {
        return Err("deerlapse-protocols-calls IN OUT".into());
    };
    let mut input = BufReader::new(File::open(input)?);
    let mut output = BufWriter::new(File::create(output)?);
    let mut line = String::new();
    while input.read_line(&mut line)? > 0 {
        let mut words = Words::new(line.trim_end());
        match words.next() {
            "quic" => answer_lines(QuicList::<2>::new(&mut words)?, &mut input, &mut output)?,
            "quic-wide" => answer_lines(QuicList::<16>::new(&mut words)?, &mut input, &mut output)?,
            "tls" => {
                let mut buffers = Buffers::new();
                let list = TlsList::new(&mut words, &mut buffers)?;
                answer_lines(list, &mut input, &mut output)?;
            }
            _ => return Err("quic, quic-wide or tls".into()),
        }
        line.clear();
    }
    output.flush()?;
    Ok(())
}

/// Answers the lines of a list up to `end`.
fn answer_lines(
    mut list: impl Calls,
    input: &mut impl BufRead,
    output: &mut impl Write,
) -> Result<()> {
    let (mut line, mut answer) = (String::new(), String::new());
    while input.read_line(&mut line)? > 0 && line != "end\n" {
        list.answer(&mut Words::new(line.trim_end()), &mut answer)?;
        writeln!(output, "{answer}")?;
        line.clear();
        answer.clear();
    }
    Ok(())
}
