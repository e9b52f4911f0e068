"""`ending` runs amqp_show as a case has it: output may be a terminal, a full device, or a pipe that nobody reads."""

import os
import pty
import shutil
import subprocess
from contextlib import suppress
from dataclasses import replace
from pathlib import Path
from threading import Thread
from typing import Any

from dependencies import TOP

from tests.transcripts import Case, Ending, Output

CRATE = TOP / "crates/amqp_show"


def fill(folder: Path) -> None:
    """Has a folder be what the cases run in."""
    shutil.copytree(CRATE / "data", folder)
    (folder / "folder").mkdir()
    shutil.copy(folder / "queue_arguments.hex", folder / "name\x1b[31m.hex")


def opened(output: Output) -> int:
    """What standard output is, except to a terminal."""
    if output is Output.FULL:
        return os.open("/dev/full", os.O_WRONLY)
    if output is Output.CLOSED:
        reader, writer = os.pipe()
        os.close(reader)
        return writer
    return subprocess.PIPE


def run(words: list[str], data: bytes, to: int = subprocess.PIPE, **how: Any) -> Ending:
    """How a program ends."""
    try:
        done = subprocess.run(words, input=data, stdout=to, stderr=subprocess.PIPE, timeout=60, **how)
    finally:
        if to != subprocess.PIPE:
            os.close(to)
    return Ending(done.stdout or b"", done.stderr, done.returncode)


def reads(terminal: int, shown: list[bytes]) -> Thread:
    """A thread that reads what a program writes to a terminal, until that is closed."""

    def read() -> None:
        with suppress(OSError):  # the program has closed its end
            while block := os.read(terminal, 65536):
                shown.append(block)

    reader = Thread(target=read)
    reader.start()
    return reader


def run_on_terminal(words: list[str], data: bytes, **how: Any) -> Ending:
    """How a program ends whose standard output is a terminal, which is read while it runs."""
    ours, theirs = pty.openpty()
    shown: list[bytes] = []
    reader = reads(ours, shown)
    ended = run(words, data, theirs, **how)
    reader.join()
    os.close(ours)
    return replace(ended, out=b"".join(shown).replace(b"\r\n", b"\n"))


def ending(case: Case, program: Path, folder: Path) -> Ending:
    """How a case ends. NO_COLOR is never taken from outside."""
    words = [str(program), *case.words]
    outside = {name: value for name, value in os.environ.items() if name != "NO_COLOR"}
    how = {"cwd": folder, "env": {**outside, **case.variables}}
    if case.output is Output.TERMINAL:
        return run_on_terminal(words, case.given, **how)
    return run(words, case.given, opened(case.output), **how)
