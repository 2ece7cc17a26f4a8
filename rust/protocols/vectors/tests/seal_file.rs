//! The example `seal` of the package `deerlapse-file` and the program `seal_file` of this repository open each other's files.
//!
//! `SEAL_FILE` names the program, which `make seal_file` builds in the folder `dist`. Without it the tests do nothing:
//!
//! ```text
//! cargo build -p deerlapse-file --example seal
//! SEAL_FILE=/PATH/OF/seal_file cargo test -p deerlapse-protocols-vectors --test seal_file
//! ```

use std::env::{self, consts::EXE_SUFFIX};
use std::ffi::{OsStr, OsString};
use std::fs::{self, File};
use std::path::{Path, PathBuf};
use std::process::{Command, Output};

use deerlapse_protocols_vectors::files::{PASSPHRASE, file_of};

/// Both programs, and the folder in which they run.
struct Programs {
    seal_file: OsString,
    example: PathBuf,
    folder: PathBuf,
}

/// Returns the example, which cargo puts into a folder beside that of the tests.
fn example() -> PathBuf {
    let test = env::current_exe().expect("the path of the test");
    let profile = test.ancestors().nth(2).expect("the folder of the profile");
    let example = profile.join(format!("examples/seal{EXE_SUFFIX}"));
    assert!(example.exists(), "{} isn't built", example.display());
    example
}

impl Programs {
    /// Returns the programs if `SEAL_FILE` is set, with a new folder that has a key and a passphrase.
    fn in_folder(name: &str) -> Option<Self> {
        let seal_file = env::var_os("SEAL_FILE")?;
        let folder = Path::new(env!("CARGO_TARGET_TMPDIR")).join(name);
        if folder.exists() {
            fs::remove_dir_all(&folder).expect("a folder of an earlier run");
        }
        fs::create_dir(&folder).expect("a new folder");
        fs::write(folder.join("key"), file_of(32)).expect("a key");
        fs::write(folder.join("pass"), [PASSPHRASE, b"\n"].concat()).expect("a passphrase");
        Some(Programs {
            seal_file,
            example: example(),
            folder,
        })
    }

    /// Runs a program in the folder. Its standard input is the passphrase.
    fn run(&self, program: impl AsRef<OsStr>, args: &[&str]) -> Output {
        Command::new(program)
            .args(args)
            .current_dir(&self.folder)
            .stdin(File::open(self.folder.join("pass")).expect("the passphrase"))
            .output()
            .expect("a program that runs")
    }

    /// Runs `seal_file`, which must succeed.
    #[track_caller]
    fn run_seal_file(&self, args: &[&str]) {
        let ran = self.run(&self.seal_file, args);
        assert!(ran.status.success(), "{args:?}: {ran:?}");
    }

    /// Runs the example, which must succeed.
    #[track_caller]
    fn run_example(&self, args: &[&str]) {
        let ran = self.run(&self.example, args);
        assert!(ran.status.success(), "{args:?}: {ran:?}");
        assert!(ran.stdout.is_empty() && ran.stderr.is_empty());
    }

    /// Runs the example, which must end with this message, and leave no `out`.
    #[track_caller]
    fn assert_refuses(&self, args: &[&str], message: &str) {
        let ran = self.run(&self.example, args);
        assert_eq!(ran.status.code(), Some(1), "{args:?}: {ran:?}");
        assert!(String::from_utf8_lossy(&ran.stderr).starts_with(message));
        assert!(ran.stdout.is_empty());
        assert!(!self.folder.join("out").exists());
    }

    fn write(&self, name: &str, bytes: &[u8]) {
        fs::write(self.folder.join(name), bytes).expect("room for a file");
    }

    /// Returns the bytes of a file, and removes it.
    fn take(&self, name: &str) -> Vec<u8> {
        let path = self.folder.join(name);
        let bytes = fs::read(&path).expect("a file");
        fs::remove_file(path).expect("a file that can be removed");
        bytes
    }
}

#[test]
fn each_opens_the_files_of_the_other() {
    let Some(programs) = Programs::in_folder("each_opens") else {
        return;
    };
    for len in [0, 1, 65536, 200_000] {
        let file = file_of(len);
        programs.write("file", &file);
        for (options, secret, added) in [
            (["-k", "key"], "key", 60),
            (["--passphrase-file", "pass"], "--passphrase", 64),
        ] {
            let [option, value] = options;
            let sealed_len = len + added + 16 * len.div_ceil(65536).max(1);

            programs.run_seal_file(&["seal", option, value, "-o", "sealed", "file"]);
            programs.run_example(&["open", secret, "sealed", "opened"]);
            assert_eq!(programs.take("sealed").len(), sealed_len);
            assert!(programs.take("opened") == file, "{len} bytes, {secret}");

            programs.run_example(&["seal", secret, "file", "sealed"]);
            programs.run_seal_file(&["open", option, value, "-o", "opened", "sealed"]);
            assert_eq!(programs.take("sealed").len(), sealed_len);
            assert!(programs.take("opened") == file, "{len} bytes, {secret}");
        }
    }
}

#[test]
fn the_example_leaves_no_part_of_a_file() {
    let Some(programs) = Programs::in_folder("leaves_no_part") else {
        return;
    };
    programs.write("file", &file_of(200_000));
    programs.run_seal_file(&["seal", "-k", "key", "-o", "sealed", "file"]);
    let sealed = fs::read(programs.folder.join("sealed")).expect("the sealed file");
    programs.write("cut", &sealed[..sealed.len() - 1]);
    programs.write("short", &[1; 31]);
    programs.write("other", &[1; 32]);
    for (args, message) in [
        (
            &["open", "key", "cut", "out"][..],
            "chunk 3 was changed or cut",
        ),
        (
            &["open", "other", "sealed", "out"],
            "the key or passphrase is wrong",
        ),
        (
            &["open", "--passphrase", "sealed", "out"],
            "a sealed file of version 2",
        ),
        (&["open", "key", "file", "out"], "not a sealed file"),
        (&["open", "key", "none", "out"], "none: "),
        (
            &["seal", "short", "file", "out"],
            "short: the key is not 32 bytes long",
        ),
        (&["seal", "key", ".", "out"], "Is a directory"),
        (&["steal", "key", "file", "out"], "usage: "),
        (&["seal", "key", "file"], "usage: "),
    ] {
        programs.assert_refuses(args, message);
    }
    // A file that exists stays as it is.
    programs.write("kept", b"kept");
    programs.assert_refuses(&["open", "key", "sealed", "kept"], "kept: ");
    assert_eq!(programs.take("kept"), b"kept");
}
