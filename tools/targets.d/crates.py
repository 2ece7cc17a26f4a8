"""The crates of a crates.txt, and the words by which the toolchain's `rattle` reads one, for the tools that call it."""

import pathlib
import shutil
import subprocess


def kit():
    """The folder of the toolchain, or `None` if there is no `rt` in the PATH."""
    if not shutil.which("rt"):
        return None
    found = subprocess.run(["rt", "doc"], stdin=subprocess.DEVNULL, stdout=subprocess.PIPE, text=True, check=True)
    return pathlib.Path(found.stdout.strip()).parent


class Crates:
    """The crates that the crates.txt of a folder lists, in its order."""

    def __init__(self, top):
        self.top, self.uses, self.static = top, {}, set()
        for line in (top / "crates.txt").read_text().splitlines():
            crate, _, names = line.partition("#")[0].partition(":")
            if words := crate.split():
                self.uses[words[0]] = names.split()
                self.static |= {words[0]} if "staticlib" in words else set()

    def folder(self, name):
        return self.top / "crates" / name

    def library(self, name):
        """The proved library of a crate, as `rt ci` and `rt lib` leave it."""
        return self.folder(name) / f"out/rlib/{name}.rlib"

    def below(self, name):
        """The crates of the repository that a crate is made of, and first itself."""
        found = [name]
        for crate in found:
            found += [it for it in self.uses[crate] if it in self.uses and it not in found]
        return found

    def words(self, name, home):
        """What `rattle` is told of a crate, in its folder or in that of a copy: its root, its libraries and the logic."""
        root = "main" if (self.folder(name) / "src/main.rt").is_file() else "lib"
        words = ["--crate-name", name, f"src/{root}.rt", "-L", f"dependency={home}/rlibs"]
        for it in ["std", *self.uses[name]]:
            words += ["--extern", f"{it}={self.library(it) if it in self.uses else f'{home}/rlibs/{it}.rlib'}"]
        for it in self.below(name)[1:]:
            words += ["-L", f"dependency={self.library(it).parent}"]
        words += ["--antt-project", f"{home}/rattle/logic/antt-project.json", "--logic-built", f"{home}/logic_built"]
        return [*words, "--links", f"{name}=", *(["--crate-type", "staticlib"] if name in self.static else [])]
