"""`Crates`: what each crate uses, by crates.txt, and the arguments that `rattle` is given for it."""

import subprocess
from os import PathLike
from pathlib import Path

TOP = Path(__file__).resolve().parent.parent


def said_by(*words: str | PathLike[str]) -> str:
    """What a command prints, or nothing if it isn't there."""
    try:
        return subprocess.run(words, capture_output=True, text=True, check=False).stdout.strip()
    except FileNotFoundError:
        return ""


def kit() -> Path:
    """The kit's folder."""
    return Path(said_by("rt", "doc")).parent


class Crates:
    """The crates that crates.txt names, what each uses, and which are static libraries."""

    def __init__(self, top: Path = TOP) -> None:
        self.top = Path(top)
        self.lines: dict[str, str] = {}
        self.below: dict[str, list[str]] = {}
        self.of_kit: dict[str, list[str]] = {}
        self.static: set[str] = set()
        uses: dict[str, list[str]] = {}
        for line in (self.top / "crates.txt").read_text().splitlines():
            head, colon, libraries = line.partition("#")[0].partition(":")
            if colon:
                name, *kind = head.split()
                self.lines[name], uses[name] = line, libraries.split()
                self.static |= {name} if "staticlib" in kind else set()
        for name, named in uses.items():
            self.below[name] = [it for it in named if it in uses]
            self.of_kit[name] = ["std", *(it for it in named if it not in uses)]

    def needed(self, *names: str) -> list[str]:
        """These crates and all that they use, each after what it uses."""
        found: list[str] = []
        for name in names:
            found += [it for it in [*self.needed(*self.below[name]), name] if it not in found]
        return found

    def folder(self, name: str) -> Path:
        return self.top / "crates" / name

    def is_program(self, name: str) -> bool:
        return (self.folder(name) / "src/main.rt").exists()

    def library(self, name: str) -> Path:
        """The path at which rt leaves a crate's library."""
        return self.folder(name) / "out/rlib" / f"{name}.rlib"

    def words(self, name: str) -> list[str]:
        """What rattle is given for a crate: its root, and the libraries that it uses."""
        at = kit()
        words = ["--crate-name", name, "src/main.rt" if self.is_program(name) else "src/lib.rt"]
        words += [it for lib in self.of_kit[name] for it in ("--extern", f"{lib}={at}/rlibs/{lib}.rlib")]
        words += ["-L", f"dependency={at}/rlibs"]
        words += [it for lib in self.below[name] for it in ("--extern", f"{lib}={self.library(lib)}")]
        below = self.needed(name)[:-1]
        words += [it for lib in below for it in ("-L", f"dependency={self.library(lib).parent}")]
        words += ["--antt-project", f"{at}/rattle/logic/antt-project.json", "--logic-built", f"{at}/logic_built"]
        words += ["--links", f"{name}="]
        return words + (["--crate-type", "staticlib"] if name in self.static else [])
