"""`python -m amqp_values` on the cases of tests/show that its options cover, and what it does otherwise than amqp_show."""

import os
import re
import shlex
import subprocess
from collections.abc import Iterator
from dataclasses import replace
from pathlib import Path

import pytest
from dependencies import TOP
from wheels import PYTHON

from tests.package import BUILT
from tests.show.running import ending, fill
from tests.transcripts import Case, Ending, Output, cases

# The options that both programs have, and those of amqp_show without which this one works as with them.
OPTIONS = {"--hex", "--table", "--encode"}
IMPLIED = {"--json", "--tree", "--bytes"}
# What amqp_show alone says and reads: what other input is, and dates.
ALONE = re.compile(rb"read as a table|seems to |a capture of packets|a dump of|--lines reads|[$]Timestamp\":\"")
# The statuses that this command has in place of amqp_show's.
STATUSES = {3: 1}


def covered() -> Iterator[tuple[str, Case]]:
    """Yields the cases of tests/show that need no other option."""
    for name, case in cases(TOP / "tests/show").items():
        options = {it for it in case.words if it.startswith("-")}
        is_alone = ALONE.search(case.wants.error + case.given) or len(case.words) - len(options) > 1
        if options <= OPTIONS | IMPLIED and case.output is Output.PIPE and not case.wants.error.startswith(b"error:"):
            if not is_alone:
                yield name, case


CASES = dict(covered())


@pytest.fixture(scope="session")
def folder(tmp_path_factory: pytest.TempPathFactory) -> Path:
    """What the cases run in."""
    path = tmp_path_factory.mktemp("cases") / "data"
    fill(path)
    return path


@pytest.fixture(scope="session")
def command(folder: Path) -> Path:
    """A program that runs the package. Its memory is limited, since a case is endless."""
    path = folder.parent / "amqp_values"
    words = ["env", f"PYTHONPATH={os.environ[BUILT]}", PYTHON, "-B", "-m", "amqp_values"]
    path.write_text(f'#!/bin/sh\nulimit -v 500000\nexec {shlex.join(words)} "$@"\n')
    path.chmod(0o755)
    return path


def ended(case: Case, command: Path, folder: Path) -> Ending:
    """How the command ends on a case: on each of its files, one after another."""
    options = tuple(it for it in case.words if it in OPTIONS)
    files = [it for it in case.words if not it.startswith("-")] or ["-"]
    found = [ending(replace(case, words=(*options, it)), command, folder) for it in files]
    return Ending(b"".join(it.out for it in found), b"".join(it.error for it in found), max(it.status for it in found))


@pytest.mark.parametrize("case", CASES.values(), ids=CASES)
def test_case(case: Case, command: Path, folder: Path) -> None:
    """The status is that of amqp_show, or 1 for its 3, and so are JSON and encodings, and the place of what isn't hexadecimal."""
    found = ended(case, command, folder)
    assert found.status == STATUSES.get(case.wants.status, case.wants.status), found
    lines = found.error.decode().splitlines()
    assert all(it.startswith("amqp_values: ") for it in lines)
    assert lines if found.status else found.out, found
    if {"--json", "--encode"} & {*case.words}:
        assert found.out == case.wants.out
    if "--hex" in case.words:
        assert all(it in found.error for it in re.findall(rb"line \d+, column \d+", case.wants.error))


# What differs from amqp_show, by bytes (or text), options, output, message and status


def says(command: Path, words: str, data: bytes, output: Output = Output.PIPE) -> Ending:
    return ending(Case("", "", tuple(words.split()), {}, data, output, Ending(b"", b"", 0)), command, command.parent)


NEXT = "\0\0\0\4\1at\1 and more"
TAG = "expected one of the type tags tbBsUuIilLfdDSxAFTV, not byte"
LONG = "expected at most 1048576 bytes, the type tag counted, but the first four are the length"
REFUSED = [
    ("", "7401", f"unknown tag at 0: {TAG} 55: is this hexadecimal text? --hex reads it"),
    ("", "z", f"unknown tag at 0: {TAG} 122"),
    ("--hex", "7a", f"unknown tag at 0: {TAG} 122"),
    ("", NEXT[:8], f"unknown tag at 0: {TAG} 0: is this a table without its type tag? --table reads it"),
    ("", '{"a":1}', f"unknown tag at 0: {TAG} 123: is this JSON? --encode reads it"),
    ("--table", "F" + NEXT, f"too large at 0: {LONG} 1174405120: is this a table with its type tag? leave out --table"),
    ("--table", NEXT[:7], "cut at 0: expected 1 more byte"),
    ("", "A\0\0\0\2sz", "cut at 5: expected a whole value inside its container"),
    ("--encode", '{"a":', "not JSON at 5: unexpected end"),
    ("--encode --table", "[]", "not a table at 0: expected an object that is a table"),
]


@pytest.mark.parametrize(("words", "data", "why"), REFUSED, ids=[it[2] for it in REFUSED])
def test_refused(words: str, data: str, why: str, command: Path) -> None:
    """The kind of the problem and its offset, with the option that reads such data, on one line."""
    assert says(command, words, data.encode("latin-1")) == Ending(b"", f"amqp_values: {why}\n".encode(), 1)


def test_bytes_after_the_value(command: Path) -> None:
    follow = b"amqp_values: more bytes follow, from offset 8\n"
    assert says(command, "--table", NEXT.encode()) == Ending(b'{"a":true}\n', follow, 0)


DUMP = "this is a dump with offsets, and --hex reads the bytes of a value alone"
UNREADABLE = [
    ("--hex", "7401 0", "line 1, column 7: a byte of two hexadecimal digits is expected"),
    ("--hex --table", "00000000: 0000 0000", DUMP),
    ("--hex --table", "00000000  00 00 00 00", DUMP),
    ("--hex --table", "0000   00 00 00 00", DUMP),
    ("--hex --table", "12:00\n\t0x0000:  0000 0000", DUMP),
    ("missing.hex", "", "[Errno 2] No such file or directory: 'missing.hex'"),
    ("--encode .", "", "[Errno 21] Is a directory: '.'"),
]


@pytest.mark.parametrize(("words", "data", "why"), UNREADABLE)
def test_unreadable(words: str, data: str, why: str, command: Path) -> None:
    assert says(command, words, data.encode()) == Ending(b"", f"amqp_values: {why}\n".encode(), 2)


def test_unwritable(command: Path) -> None:
    """Nothing is said if nobody reads what is printed."""
    assert says(command, "", b"V", Output.CLOSED) == Ending(b"", b"", 2)
    full = b"amqp_values: [Errno 28] No space left on device\n"
    assert says(command, "", b"V", Output.FULL) == Ending(b"", full, 2)


def test_usage(command: Path) -> None:
    found = says(command, "--json", b"V")
    assert found.status == 2 and b"unrecognized arguments: --json" in found.error
    found = says(command, "--help", b"")
    assert found.status == 0 and OPTIONS <= {*re.findall(r"--\w+", found.out.decode())}


ENDLESS = [
    ("", "V", "more bytes follow, from offset 1"),
    ("", r"S\377\377\377\377", "too large at 0"),
    ("--encode", "[", "too large at 0"),
]


@pytest.mark.parametrize(("words", "start", "why"), ENDLESS)
def test_endless_input(words: str, start: str, why: str, command: Path) -> None:
    """Of bytes and JSON no more is read than the longest value may have."""
    script = f"{{ printf '{start}'; cat /dev/zero; }} | '{command}' {words}"
    done = subprocess.run(["bash", "-c", script], capture_output=True, text=True, timeout=60)
    assert why in done.stderr and done.stderr.count("\n") == 1
