"""Builds driver.rs over the Rust crate by cargo, and asks it (`Driver`). tests/rust finds the crate by it too."""

import json
import os
import re
import subprocess
from pathlib import Path
from typing import NamedTuple

from dependencies import TOP

HERE, OUT = TOP / "tests/oracle", TOP / "out/oracle"
# Debian's Rust packages.
DEBIAN = Path("/usr/share/cargo/registry")
CARGO = """\
[package]
name = "{name}"
edition = "2024"
[[bin]]
name = "{name}"
path = {source}
[dependencies]
amq-protocol-types = {{ {place}version = "=10.6.3" }}
cookie-factory = "0.3"
nom = "{nom}"
serde_json = "1"
[workspace]
"""


class Driver(NamedTuple):
    """The program, and the version of nom that it is built over."""

    program: Path
    nom: str

    def rows(self, requests: bytes) -> bytes:
        """These requests, each with the answer that this library has to give by the crate's."""
        return self.said([], requests)

    def as_it_is(self, requests: bytes) -> bytes:
        """These requests, each with what the crate itself answers."""
        return self.said(["--as-it-is"], requests)

    def said(self, words: list[str], requests: bytes) -> bytes:
        return subprocess.run([self.program, *words], input=requests, stdout=subprocess.PIPE, check=True).stdout


def named() -> Path | None:
    """The folder of the Rust crate, as the environment names it."""
    folder = os.environ.get("AMQ_PROTOCOL_TYPES")
    return Path(folder) if folder else None


def quoted(path: Path) -> str:
    return json.dumps(str(path.resolve()))


def asked_nom(crate: Path | None) -> str:
    """The version of nom that the crate asks for."""
    found = re.search(r'(?m)^nom = .*?"[=^]?(\d+)', (crate / "Cargo.toml").read_text()) if crate else None
    return found[1] if found else "8"


def packages_for(crate: Path) -> Path | None:
    """Where cargo finds the packages that the crate asks for without a network: beside the crate, or Debian's."""
    has_nom = lambda it: any(it.glob(f"nom-{asked_nom(crate)}.*"))
    return next(filter(has_nom, (crate.resolve().parent / "packages", DEBIAN)), None)


def build(crate: Path | None, packages: Path | None, source: Path = HERE / "driver.rs", name: str = "driver") -> Driver:
    """Builds the driver over the Rust crate, or another program."""
    packages = packages or (packages_for(crate) if crate else None)
    folder = OUT / name
    folder.mkdir(parents=True, exist_ok=True)
    place = f"path = {quoted(crate)}, " if crate else ""
    text = CARGO.format(name=name, source=quoted(source), place=place, nom=asked_nom(crate))
    (folder / "Cargo.toml").write_text(text)
    words = ["cargo", "build", "--release", "--quiet"]
    if packages:
        words += ["--offline", "--config", 'source.crates-io.replace-with="given"']
        words += ["--config", f"source.given.directory={quoted(packages)}"]
    done = subprocess.run(words, cwd=folder, capture_output=True, text=True)
    assert done.returncode == 0, f"cargo can't build {source.name}: {done.stderr[-2000:]}"
    found = re.search(r'name = "nom"\nversion = "([^"]*)"', (folder / "Cargo.lock").read_text())
    return Driver(folder / "target/release" / name, found[1] if found else "?")
