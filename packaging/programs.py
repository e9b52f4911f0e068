"""`run` runs a program that packaging, tests or bench call, and `end_if_failed` ends with what it printed."""

import subprocess
import sys
from collections.abc import Mapping, Sequence
from pathlib import Path


def end_if_failed(who: str, what: str, done: subprocess.CompletedProcess[str]) -> None:
    """Ends the program, with the end of what a command printed, if that failed."""
    if done.returncode:
        sys.exit(f"{who}: {what} failed: {(done.stderr or done.stdout)[-2000:]}")


def run(who: str, words: Sequence[str | Path], cwd: Path | None = None, env: Mapping[str, str] | None = None) -> None:
    """Runs a command, which has to end well."""
    try:
        done = subprocess.run([str(it) for it in words], capture_output=True, text=True, cwd=cwd, env=env)
    except FileNotFoundError:
        sys.exit(f"{who}: {words[0]} is missing")
    end_if_failed(who, Path(words[0]).name, done)
