"""The checksum of all that `tools/dist --check` reads, which it keeps outside the repository once it has passed."""

import hashlib
import os
import pathlib
import shutil
import subprocess
import tempfile

# What it reads beside the sources of the crates: the files that it compares, the tools that make them, and what these take the
# manual and the vectors from.
READ = (
    *("dist", "bindings/rust/asm", "tools/dist", "tools/dist.d", "crates.txt"),
    *("crates/deerlapse/include", "crates/deerlapse/examples", "crates/test_vectors"),
)
# What a build or Python writes there.
NOT_READ = ("out", "__pycache__")

# What stands in for the toolchain in the test: it has a name, and can do nothing else.
TOOLCHAIN = """#!/bin/sh
[ "$1" = version ] && echo 'a toolchain' && exit
echo 'nothing can be made again'
exit 1
"""
# What the test changes: a file, a text in it and another.
CHANGED = {
    "a text": ("dist/deerlapse-aarch64.s", "\tret\n", "\tnop\n"),
    "a text of the Rust package": ("bindings/rust/asm/aarch64.s", "\tret\n", "\tnop\n"),
    "the tool": ("tools/dist", "def main", "def  main"),
    "a part of the tool": ("tools/dist.d/manual", "def fail", "def  fail"),
    "a source": ("crates/aead_ciphers_base/src/aes.rt", "pub fn", "fn"),
    "a proof": ("crates/aead_ciphers/proofs/Lib.antt", "mod", "pub mod"),
    "the header": ("crates/deerlapse/include/deerlapse.h", "1", "2"),
    "the name of the toolchain": ("bin/rt", "a toolchain", "another toolchain"),
    "no checksum": ("passed/dist", "", None),
}


def paths(top, crates):
    """The files of a repository that count, of READ and of the sources of these crates."""
    folders = [*READ, *(f"crates/{crate}/{part}" for crate in crates for part in ("src", "specs", "proofs"))]
    files = (file for it in folders for file in ([top / it] if (top / it).is_file() else (top / it).rglob("*")))
    found = {it.relative_to(top) for it in files if it.is_file()}
    return sorted(it for it in found if not set(it.parts) & set(NOT_READ))


def checksum(top, toolchain, crates):
    """The checksum of a repository's files that count, and of the toolchain's name."""
    lines = (f"{hashlib.sha256((top / it).read_bytes()).hexdigest()}  {it}\n" for it in paths(top, crates))
    return hashlib.sha256("".join([f"{toolchain}\n", *lines]).encode()).hexdigest()


def is_kept(folder, found):
    """Whether this checksum is the one that was kept in a folder."""
    kept = pathlib.Path(folder) / "dist"
    return kept.is_file() and kept.read_text(encoding="ascii").strip() == found


def keep(folder, found):
    """Keeps a checksum in a folder."""
    pathlib.Path(folder).mkdir(parents=True, exist_ok=True)
    (pathlib.Path(folder) / "dist").write_text(f"{found}\n", encoding="ascii")


# The test.


def fault(top, crates):
    """Tries --check in a copy of what it reads, in which it has passed and where nothing can be made again. Returns what is wrong
    with it, or `None`."""
    with tempfile.TemporaryDirectory() as folder:
        copy = pathlib.Path(folder)
        for it in paths(top, crates):
            (copy / it).parent.mkdir(parents=True, exist_ok=True)
            shutil.copy(top / it, copy / it)
        (copy / "bin").mkdir()
        (copy / "bin/rt").write_text(TOOLCHAIN, encoding="ascii")
        (copy / "bin/rt").chmod(0o755)
        keep(copy / "passed", checksum(copy, "a toolchain", crates))
        if makes_again(copy):
            return "makes the files again though nothing has changed"
        for name, change in CHANGED.items():
            if not is_seen(copy, *change):
                return f"doesn't make the files again after a change: {name}"
        return "makes the files again though the changes are gone" if makes_again(copy) else None


def is_seen(copy, path, old, new):
    """Whether --check makes the files again after a change, which is then taken back, of a file or, if there is no new text, after
    its removal."""
    file = copy / path
    text, mode = file.read_text(encoding="utf-8"), file.stat().st_mode
    file.unlink()
    if new is not None:
        file.write_text(text.replace(old, new, 1), encoding="utf-8")
        file.chmod(mode)
    is_other = not file.exists() or file.read_text(encoding="utf-8") != text
    found = is_other and makes_again(copy)
    file.write_text(text, encoding="utf-8")
    file.chmod(mode)
    return found


def makes_again(copy):
    """Whether --check asks the toolchain of the copy to make the files again, which fails."""
    environment = {**os.environ, "PATH": f"{copy / 'bin'}:{os.environ['PATH']}", "DIST_PASSED": str(copy / "passed")}
    pipes = {"stdin": subprocess.DEVNULL, "stdout": subprocess.PIPE, "stderr": subprocess.STDOUT}
    done = subprocess.run([copy / "tools/dist", "--check"], env=environment, text=True, **pipes)
    return done.returncode != 0 and "nothing can be made again" in done.stdout
