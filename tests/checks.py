"""Helpers of tests and scripts that need no pytest: `run` a command, a program that is `built`, a script's `Checks`."""

import resource
import subprocess
from collections.abc import Mapping, Sequence
from pathlib import Path
from typing import Any

from dependencies import Crates

Words = Sequence[str | Path]
Done = subprocess.CompletedProcess[str]


class Checks:
    """Prints a line for each check of a script, and counts them."""

    def __init__(self, name: str) -> None:
        self.name, self.passed, self.failed = name, 0, 0

    def tell(self, what: object, wrong: object = "") -> bool:
        """Takes what is wrong, if anything is, and returns whether nothing is."""
        print(f"{self.name} {what}: {f'FAILED: {wrong}' if wrong else 'passed'}", flush=True)
        self.passed, self.failed = self.passed + (not wrong), self.failed + bool(wrong)
        return not wrong

    def ended(self) -> int:
        """Prints the last line, and returns the exit status."""
        print(f"{self.passed} passed, {self.failed} failed")
        return 1 if self.failed or not self.passed else 0


def built(name: str) -> Path:
    """The program of a crate, as `rt ci` left it, which is no older than the sources of the crate and those below it."""
    crates = Crates()
    path = crates.folder(name) / "out" / name
    sources = [it for crate in crates.needed(name) for it in (crates.folder(crate) / "src").rglob("*") if it.is_file()]
    is_new = path.is_file() and all(it.stat().st_mtime <= path.stat().st_mtime for it in sources)
    assert is_new, f"{name} isn't there, or is older than its sources: run rt ci"
    return path


def content(path: Path) -> bytes:
    """What a file has, or nothing if there is none."""
    return path.read_bytes() if path.exists() else b""


def run(
    words: Words,
    cwd: Path | None = None,
    env: Mapping[str, str] | None = None,
    text: bool = True,
    timeout: int = 3600,
    **others: Any,
) -> Done:
    """Runs a command, and fails if it takes longer."""
    how: dict[str, Any] = {"text": True, "errors": "replace"} if text else {}
    typed = [str(it) for it in words]
    try:
        return subprocess.run(typed, cwd=cwd, env=env, capture_output=True, timeout=timeout, **how, **others)
    except FileNotFoundError:
        return Done(typed, 127, "", f"{typed[0]} is missing (make setup installs it)")


def assert_well(done: Done) -> str:
    """A command ended well; what it printed."""
    assert done.returncode == 0, (done.stdout + done.stderr)[-1500:]
    return done.stdout


def within(kind: int, most: int, words: Words, given: bytes) -> subprocess.CompletedProcess[bytes]:
    """Runs a program that may have at most n of a resource, such as resource.RLIMIT_STACK."""
    limit = lambda: resource.setrlimit(kind, (most, most))
    env: dict[str, str] = {}
    return subprocess.run(words, input=given, capture_output=True, env=env, preexec_fn=limit, timeout=60, check=False)
