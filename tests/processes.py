"""`end_on_signals` and `end_descendants`, by which a script that is interrupted ends the processes that it started."""

import ctypes
import os
import signal
import sys
import time
from collections.abc import Callable
from contextlib import suppress
from pathlib import Path
from types import FrameType


def descendants() -> set[int]:
    """The processes that this one started, and those that they did."""
    parents: dict[int, int] = {}
    for it in Path("/proc").glob("[0-9]*/stat"):
        with suppress(OSError):
            state, parent = it.read_text().rpartition(")")[2].split()[:2]
            parents |= {int(it.parent.name): int(parent)} if state != "Z" else {}
    found: set[int] = set()
    more = {os.getpid()}
    while more:
        more = {it for it, parent in parents.items() if parent in more} - found
        found |= more
    return found


def end_descendants() -> None:
    """Ends all that this process started, also what left its group."""
    while left := descendants():
        for it in left:
            with suppress(ProcessLookupError):
                os.kill(it, signal.SIGKILL)
        time.sleep(0.05)


def end_on_signals(first: Callable[[], None] = lambda: None) -> None:
    """Turns each signal that interrupts into this call and an exit, so that what was begun is ended and cleared away."""

    def end(number: int, _: FrameType | None) -> None:
        first()
        sys.exit(128 + number)

    # PR_SET_CHILD_SUBREAPER: what a child leaves when it ends becomes this process's own
    ctypes.CDLL(None).prctl(36, 1, 0, 0, 0)
    for number in (signal.SIGINT, signal.SIGTERM, signal.SIGHUP):
        signal.signal(number, end)
