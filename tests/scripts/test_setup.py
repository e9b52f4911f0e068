"""`make setup` says at once what it can't install, and by which WITHOUT its tests are left out. apt-get is a stand-in."""

from pathlib import Path

import pytest
from dependencies import TOP

from tests.checks import run


@pytest.mark.parametrize(
    ("version", "without", "is_enough"), (("1.84.1", "", False), ("1.85.0", "", True), ("1.9.0", "rust", True))
)
def test_rust(tmp_path: Path, version: str, without: str, is_enough: bool) -> None:
    for name, text in {
        "cargo": f"echo cargo {version}",
        "rustfmt": "exit 0",
        "apt-get": f"touch {tmp_path}/called",
    }.items():
        (tmp_path / name).write_text(f"#!/bin/sh\n{text}\n")
        (tmp_path / name).chmod(0o755)
    env = {"PATH": f"{tmp_path}:/usr/sbin:/usr/bin:/sbin:/bin", "WITHOUT": without}
    for words in (list[str](), ["--missing"]):
        done = run([TOP / ".ci/setup", *words], env=env)
        said = "Rust from 1.85, which Debian 12 lacks: install it by rustup, or leave its tests out by WITHOUT=rust"
        assert (said in done.stdout + done.stderr) == (not is_enough)
        assert (done.returncode == 0) == is_enough
        assert not (tmp_path / "called").exists()
