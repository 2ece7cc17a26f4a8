//! Seals a file under a key or a passphrase, or opens it again, as the program `seal_file` of the repository does.

use std::ffi::{OsStr, OsString};
use std::fmt::Display;
use std::fs::{self, File};
use std::io::{self, BufRead};
use std::path::Path;
use std::process::ExitCode;

use deerlapse_file::{FileError, FileKey, FileRandom, ITERATIONS};
use deerlapse_file::{open, open_with_passphrase, seal, seal_with_passphrase};

const USAGE: &str = "usage: seal|open KEYFILE|--passphrase IN OUT
KEYFILE has 32 random bytes. The passphrase is the first line of standard input. OUT must not exist.";

enum Secret {
    Key(FileKey),
    Passphrase(Vec<u8>),
}

fn read_secret(name: &OsStr) -> Result<Secret, FileError> {
    if name != "--passphrase" {
        return Ok(Secret::Key(FileKey::new(&fs::read(name)?)?));
    }
    let mut line = Vec::new();
    io::stdin().lock().read_until(b'\n', &mut line)?;
    let passphrase = line.strip_suffix(b"\n").unwrap_or(&line);
    Ok(Secret::Passphrase(passphrase.to_vec()))
}

/// Draws the random bytes of a file. Only Unix has this source: elsewhere, a crate such as `getrandom` has one.
fn random() -> io::Result<FileRandom> {
    #[cfg(not(unix))]
    return Err(io::ErrorKind::Unsupported.into());
    #[cfg(unix)]
    FileRandom::draw(&mut File::open("/dev/urandom")?)
}

fn call(command: &str, secret: &Secret, from: &mut File, to: &mut File) -> Result<(), FileError> {
    match (command, secret) {
        ("seal", Secret::Key(key)) => seal(key, random()?, from, to),
        ("seal", Secret::Passphrase(it)) => {
            seal_with_passphrase(it, ITERATIONS, random()?, &[], from, to)
        }
        (_, Secret::Key(key)) => open(key, from, to),
        (_, Secret::Passphrase(it)) => open_with_passphrase(it, &[], from, to),
    }
}

/// Puts the name of a file before its error.
fn named<T>(name: &OsStr, result: Result<T, impl Display>) -> Result<T, String> {
    result.map_err(|error| format!("{}: {error}", Path::new(name).display()))
}

fn run(args: &[OsString]) -> Result<(), String> {
    let [command, secret, input, output] = args else {
        return Err(USAGE.into());
    };
    let Some(command @ ("seal" | "open")) = command.to_str() else {
        return Err(USAGE.into());
    };
    let secret = named(secret, read_secret(secret))?;
    let mut from = named(input, File::open(input))?;
    let mut to = named(output, File::create_new(output))?;
    let result = call(command, &secret, &mut from, &mut to).and_then(|()| Ok(to.sync_all()?));
    if result.is_err() {
        // What was written is only the beginning of a file.
        named(output, fs::remove_file(output))?;
    }
    result.map_err(|error| error.to_string())
}

fn main() -> ExitCode {
    let args: Vec<_> = std::env::args_os().skip(1).collect();
    if let Err(error) = run(&args) {
        eprintln!("{error}");
        return ExitCode::FAILURE;
    }
    ExitCode::SUCCESS
}
