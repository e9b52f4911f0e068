"""Calls `cargo` without a network, and makes a `package` of a program in this folder, for the tests in tests/rust."""

import json
import os
import re
import shutil
from collections.abc import Sequence
from pathlib import Path
from typing import NamedTuple

from dependencies import TOP

from tests.checks import Done
from tests.checks import assert_well as assert_well
from tests.checks import run as run

HERE, OUT = TOP / "tests/rust", TOP / "out/rust"
# What is ours: the crates over the C API, and what is added to the Rust crate.
RUST = TOP / "bindings/rust"
CRATES, DROP_IN = ("amqp-values-sys", "amqp-values"), RUST / "drop_in"
TARGET, COPIES = OUT / "target", OUT / "crates"
NAME, VERSION = "amq-protocol-types", "10.6.3"
# The variable that names the folder of a library that is there.
NAMED_BY = "AMQP_VALUES_LIB_DIR"
TRIPLE = "x86_64-unknown-linux-gnu"
# What cargo calls the two ways to build, and the words that ask for them.
PROFILES: dict[str, list[str]] = {"debug": [], "release": ["--release"]}
# The packages that programs here use.
PACKAGES = ('cookie-factory = "0.3"', 'nom = "8"', 'serde_json = "1"')
# The oldest compiler that the crates over the C API are for, and where Debian has it.
OLDEST, OF_DEBIAN = "rustc 1.63", Path("/usr/bin")


def last_line(done: Done) -> str:
    return done.stdout.rstrip().rpartition("\n")[2]


def count_of_tests(done: Done) -> int:
    """How many tests passed, by what cargo prints."""
    return sum(int(it) for it in re.findall(r"(?m)^test result: ok\. (\d+) passed; 0 failed", done.stdout))


def copied(crate: Path, to: Path) -> Path:
    """A fresh copy of a crate's folder, without what was built there, since cargo writes next to what it builds."""
    shutil.rmtree(to, ignore_errors=True)
    shutil.copytree(crate, to, ignore=shutil.ignore_patterns("target", "Cargo.lock"))
    return to


def package(name: str, dependencies: Sequence[str], more: str = "", **programs: str) -> Path:
    """A folder with the manifest of a package: its dependencies, and its programs, each with the source that it has here."""
    folder = OUT / name
    folder.mkdir(parents=True, exist_ok=True)
    parts = [f'[package]\nname = "{name}"\nedition = "2024"\n[workspace]\n', more]
    parts += (f'[[bin]]\nname = "{it}"\npath = "{HERE}/{source}.rs"\n' for it, source in programs.items())
    (folder / "Cargo.toml").write_text("\n".join([*parts, "[dependencies]", *dependencies, ""]))
    return folder


def client(name: str, drop_in: Path | None = None, version: str = VERSION) -> Path:
    """A client that takes the Rust crate from the registry, and with what makes it take the drop-in."""
    patch = f'[patch.crates-io]\n{NAME} = {{ path = "{drop_in}" }}\n' if drop_in else ""
    return package(name, [f'{NAME} = "{version}"'], f"[features]\nchosen = []\n{patch}", **{name: "client"})


def cargo(folder: Path, *words: str, tools: Path | None = None, seconds: int = 600, **more: str) -> Done:
    """Calls cargo, with the tools of the path or of a folder."""
    of_folder = {"RUSTC": f"{tools}/rustc", "RUSTDOC": f"{tools}/rustdoc"} if tools else {}
    target = TARGET.with_name("target-oldest") if tools else TARGET
    outside = {name: value for name, value in os.environ.items() if name != NAMED_BY}
    environment = {**outside, "CARGO_TARGET_DIR": str(target), "RUST_BACKTRACE": "0", **of_folder, **more}
    program = f"{tools}/cargo" if tools else "cargo"
    return run([program, *words[:1], "--offline", *words[1:]], folder, environment, timeout=seconds)


class Given(NamedTuple):
    """The Rust crate, and the folder that cargo takes packages from."""

    crate: Path
    registry: Path

    @property
    def original(self) -> str:
        """The Rust crate as a dependency, by another name."""
        return f'original = {{ package = "{NAME}", path = "{self.crate}" }}'

    def cargo(self, folder: Path, *words: str, seconds: int = 600, **more: str) -> Done:
        """Calls cargo, with these packages."""
        source = ['source.crates-io.replace-with="given"', f'source.given.directory="{self.registry}"']
        config = [word for it in source for word in ("--config", it)]
        return cargo(folder, *words[:1], *config, *words[1:], tools=None, seconds=seconds, **more)

    def drop_in(self, to: Path, *words: str, crate: Path | None = None) -> Done:
        """Makes the drop-in of the Rust crate, or of another folder."""
        shutil.rmtree(to, ignore_errors=True)
        return run([RUST / "drop_in.py", crate or self.crate, to, *words])


def given(crate: Path, packages: Path, registry: Path) -> Given:
    """The crate, and the packages with it as one of them, in a folder outside the checkout: there `rt ci` refuses links."""
    for it in packages.resolve().iterdir():
        (registry / it.name).symlink_to(it)
    copy = copied(crate, registry / f"{NAME}-{VERSION}")
    (copy / ".cargo-checksum.json").write_text(json.dumps({"files": {}, "package": ""}))
    return Given(copied(crate, OUT / "crate"), registry)
