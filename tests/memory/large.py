"""Each `Run` of test_sizes.py: a program, its large input, and what it has to print of it."""

import struct
from collections.abc import Callable, Iterable
from functools import cache, partial
from itertools import repeat
from typing import NamedTuple

from dependencies import TOP

LARGE, MANY = 256 << 20, 1_000_000
WIDE = ["--max-bytes", "4294967295"]
# A piece of a long string, and how many of them are that.
PIECE = (b"abcdefghijklmnopqrstuvwxyz" * (1 << 16))[: 1 << 20]
PIECES = LARGE // len(PIECE)
# The most address space of a program.
SPACE = 4 << 30

Pieces = Iterable[bytes]


class Run(NamedTuple):
    """A run of a program: its words, what comes in and what has to come out, both in pieces, and its address space."""

    program: str
    words: list[str]
    given: Pieces
    wants: Pieces
    space: int = SPACE


def letters() -> Pieces:
    """A string of 256 MiB, in pieces."""
    return repeat(PIECE, PIECES)


def head(tag: bytes, size: int) -> bytes:
    """The type tag and the length of a value."""
    return struct.pack(">cI", tag, size)


STRING = [head(b"S", LARGE), *letters()]


# The calls of the library


def calls() -> Run:
    """The rows of large.calls, with their answers."""
    rows = (TOP / "tests/memory/large.calls").read_bytes()
    count = sum(b" => " in it for it in rows.splitlines())
    return Run("test_calls", [], [rows], [f"{count} rows, 0 wrong\n".encode()])


# amqp_wire, examples and amqp_show


@cache
def numbers() -> list[bytes]:
    """A million values."""
    return [struct.pack(">cI", b"i", n) for n in range(MANY)]


@cache
def hexadecimal() -> list[bytes]:
    """The hexadecimal of the long string, in pieces."""
    return [STRING[0].hex().encode(), *repeat(PIECE.hex().encode(), PIECES)]


def line() -> Run:
    return Run("amqp_wire", [], [*hexadecimal(), b"\n"], [b"value ", *hexadecimal(), b" rest 0\n"])


def lines() -> Run:
    wants = "".join(f"value {it.hex()} rest 0\n" for it in numbers()).encode()
    return Run("amqp_wire", [], ["\n".join(it.hex() for it in numbers()).encode()], [wants])


SHOWN = [b'"', *letters(), b'"\n']
IN_STREAM = ["--stream", "--json"]


def tree() -> Run:
    ends = f"= a value of {LARGE + 5} bytes\n".encode()
    return Run("amqp_show", WIDE, STRING, [b"LongString ", *SHOWN, ends])


def texts() -> list[str]:
    """The JSON of a million values."""
    return [f'{{"$LongUInt":{n}}}' for n in range(MANY)]


def stream() -> Run:
    of_numbers = "".join(f"stream: {it}\n" for it in texts()).encode()
    wants = [b"stream: ", *SHOWN, of_numbers, b"stream: ended after a value\n"]
    return Run("examples", ["stream"], [*STRING, *numbers()], wants)


def values_in_stream() -> Run:
    return Run("amqp_show", IN_STREAM, numbers(), ["".join(f"{it}\n" for it in texts()).encode()])


def array_as_json() -> Run:
    given, wants = [head(b"A", 5 * MANY), *numbers()], [f"[{','.join(texts())}]\n".encode()]
    return Run("amqp_show", ["--json", *WIDE], given, wants)


# By name, what makes each run.
RUNS: dict[str, Callable[[], Run]] = {
    "the calls of the library": calls,
    "a line of 512 MiB": line,
    "a million lines": lines,
    "a stream": stream,
    "a string as JSON": partial(Run, "amqp_show", ["--json", *WIDE], STRING, SHOWN),
    "a string as a tree": tree,
    "a string in a stream": partial(Run, "amqp_show", [*IN_STREAM, *WIDE], [*STRING, b"V"], [*SHOWN, b"null\n"]),
    "a text to its encoding": partial(Run, "amqp_show", ["--encode", "--raw", *WIDE], [b'"', *letters(), b'"'], STRING),
    "a million values in a stream": values_in_stream,
    "an array of a million as JSON": array_as_json,
}
