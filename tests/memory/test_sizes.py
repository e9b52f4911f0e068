"""test_calls, amqp_wire, examples and amqp_show, as `rt ci` left them, on large input, and on small stacks.

No clause can state that memory sufficed, so a body that runs out of it above a size is proved. test_calls answers the rows of
large.calls, in which calls that may run out of memory have 256 MiB, a million values or 250,000 pairs. A line of 512 MiB and
a million lines go through amqp_wire, a stream through examples, and a string of 256 MiB and a million values through
amqp_show, as JSON, as a tree and from JSON. What they must print is made in large.py. A program may have 4 GiB of address
space.

Then the calls that recurse, through test_calls, on small stacks (those of stacks.py), and amqp_show as deep as --depth
may be, on the stack that docs/SHOW.md names, and on half of it.
"""

import re
import subprocess
from collections.abc import Callable
from contextlib import suppress
from functools import partial
from os.path import commonprefix
from pathlib import Path
from resource import RLIMIT_AS, RLIMIT_CPU, RLIMIT_STACK, setrlimit
from subprocess import PIPE
from threading import Thread
from typing import IO

import pytest
from dependencies import TOP

from tests.checks import built, within
from tests.memory import stacks
from tests.memory.large import RUNS, Pieces, Run

# The most seconds of a processor.
SECONDS = 300
CHECKS = [*stacks.checks(stacks.CALLS)]


# Large input


def feed(to: IO[bytes], given: Pieces) -> None:
    """Writes these pieces to the standard input of a process, and closes it."""
    with suppress(BrokenPipeError), to:
        for piece in given:
            to.write(piece)


def limit(space: int) -> None:
    setrlimit(RLIMIT_AS, (space, space))
    setrlimit(RLIMIT_CPU, (SECONDS, SECONDS))


def first_other(printed: IO[bytes], wants: Pieces) -> str:
    """What is printed otherwise than in these pieces, after which nothing may come."""
    at = 0
    for piece in [*wants, b""]:
        found = printed.read(len(piece) or 1)
        if found != piece:
            well = len(commonprefix([found, piece]))
            return f"from byte {at + well} on it printed {found[well:][:99]!r}, and not {piece[well:][:99]!r}"
        at += len(piece)
    return ""


@pytest.mark.parametrize("made", RUNS.values(), ids=RUNS)
def test_large(made: Callable[[], Run]) -> None:
    """The program prints what it should, and doesn't fail."""
    run = made()
    words: list[str | Path] = [built(run.program), *run.words]
    process = subprocess.Popen(words, stdin=PIPE, stdout=PIPE, stderr=PIPE, preexec_fn=partial(limit, run.space))
    assert process.stdin and process.stdout and process.stderr
    with process:
        feeder = Thread(target=feed, args=(process.stdin, run.given))
        feeder.start()
        other = first_other(process.stdout, run.wants)
        process.stdout.close()
        feeder.join()
        said = process.stderr.read()[-300:].decode(errors="replace")
        process.wait()
    assert (other, process.returncode) == ("", 0), said


# Deep input


@pytest.mark.parametrize("check", CHECKS, ids=[it.name for it in CHECKS])
def test_nested(check: stacks.Check) -> None:
    """A call on a small stack."""
    assert check.wrong(built("test_calls")) == ""


def stack_of_show() -> int:
    """The stack, in bytes, that docs/SHOW.md names for the deepest limit."""
    found = re.search(r"under ([\d.]+) MB in all", (TOP / "docs/SHOW.md").read_text())
    assert found, "the page names no stack"
    return int(float(found[1]) * 1e6)


def status_on(stack: int, words: str, given: bytes) -> int:
    """How amqp_show ends on this stack, with the deepest limit."""
    return within(RLIMIT_STACK, stack, [built("amqp_show"), "--depth", "1000", *words.split()], given).returncode


@pytest.mark.parametrize("form", stacks.FORMS.values(), ids=stacks.FORMS)
@pytest.mark.parametrize("words", ("", "--bytes", "--json"), ids=("tree", "bytes", "JSON"))
def test_shown_deep(form: str, words: str) -> None:
    given = stacks.encoding(form, 1000)
    assert status_on(stack_of_show(), words, given) == 0


def test_half_of_the_stack() -> None:
    assert status_on(stack_of_show() // 2, "--json", stacks.encoding("F", 1000)) < 0, "it is enough"
