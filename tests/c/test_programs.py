"""Compiles and runs habits.c, large.c, memory.c, nested.c, nulls.c and threads.c, whose heads say what each tries.

All except nested.c print how many calls they made.

nested.c makes the calls that recurse, on the stacks that docs/PROMISES.md names, and with the limits that the header recommends
on the stacks that it names (tests/memory/stacks.py), for aarch64 too.

C is compiled with the address and undefined behaviour sanitizers, threads.c with ThreadSanitizer, except nested.c.
They don't see into the libraries, so most programs have pages about their bytes that can't be accessed.
"""

import re
from collections.abc import Iterator
from pathlib import Path
from random import Random

import pytest
from building import AARCH64, COMPILERS
from dependencies import TOP

from tests.c.compiling import FLAGS, HERE, OF_AARCH64, SANITIZERS, WRAPPED, C, Words, compiled, printed
from tests.memory import stacks
from tests.model.json_format import json_of, text_for
from tests.model.encoding import field, json_of_encoding, read, write
from tests.model.inputs import nested as nested_encoding
from tests.model.inputs import value_of
from tests.model.tables import random_table, raw

# The results of what is wrong, as include/amqp_values.h has them.
UNKNOWN_TAG, CUT, KEY_CUT, KEY_NOT_UTF8, TOO_DEEP, NOT_UTF8, NOT_JSON, NOT_A_VALUE = -2, -3, -4, -5, -7, -9, -10, -11
# How many bytes a level of tables has at least: the table before has its empty key.
SMALLEST_LEVEL = 6
# Pairs that end a table, and what amqpv_read() finds in them.
WRONG_PAIRS = {b"\1az": UNKNOWN_TAG, b"\1a": CUT, b"\2a": KEY_CUT, b"\1\xffV": KEY_NOT_UTF8}
# The programs that have no input.
ALONE = ("habits.c", "large.c", "nulls.c", "threads.c")
CC_OF_AARCH64 = [COMPILERS[AARCH64][0], *FLAGS]
needs_aarch64 = pytest.mark.needs("aarch64")


@pytest.fixture(scope="session")
def for_aarch64(made_for_aarch64: Path) -> Words:
    """The library that programs for aarch64 are linked with."""
    return [made_for_aarch64 / "lib/libamqp_values.a"]


def calls_of(words: Words, given: str = "") -> int:
    """How many calls a program makes, as its last line has it: N calls."""
    said = printed(words, timeout=600, input=given)
    found = re.search(r"(?:^|\n)(\d+) calls\n\Z", said)
    assert found, said[-1000:]
    return int(found[1])


@pytest.mark.parametrize("name", ALONE)
def test_program(linked: Words, tmp_path: Path, name: str) -> None:
    how = ["-fsanitize=thread", "-pthread"] if name == "threads.c" else SANITIZERS
    assert calls_of([compiled(HERE / name, tmp_path / "program", linked, options=how)])


def of_memory(make: Random) -> Iterator[tuple[str, int, bytes, bytes]]:
    """What memory.c is given: a call, its flags, what it gets, and what it has to write by the model."""
    given = [value_of(make, 3) for _ in range(60)] + [raw(random_table(make, 2)) for _ in range(20)]
    keys = [b"\5%05d" % (6666 - it) for it in range(6667)]
    large = field(b"F", b"".join(key + b"l" + it.to_bytes(8, "big") for it, key in enumerate(keys)))
    strings = [field(b"S", b"a" * it) for it in (4093, 4094, 4095)]
    for data in [*given, *strings, large]:
        value = read(data)[0]
        encoding, text = write(value), json_of_encoding(data).encode()
        for left_out in (0, 1) if data[:1] == b"F" else (0,):
            yield "canonical", left_out, data[left_out:], encoding[left_out:]
            yield "canonical", left_out, encoding[left_out:], encoding[left_out:]
            yield "to_json", left_out, data[left_out:], text
            yield "warn", left_out, data[left_out:], b""
        yield "from_json", 0, text, encoding
        yield "from_json", 0, text_for(make, value).encode(), encoding


def wrong_for_memory(make: Random) -> Iterator[tuple[str, int, bytes, int]]:
    """What memory.c is given that is wrong, after or around a value: a call, its flags, what it gets, and its result."""
    for _ in range(10):
        table = raw(random_table(make, 2))
        text = json_of(read(table)[0]).encode()
        yield "from_json", 0, b'{"b":%b,"a":-0}' % text, NOT_A_VALUE
        yield "from_json", 0, b'{"b":%b,"a":{"$ByteArray":"0g"}}' % text, NOT_A_VALUE
        yield "from_json", 0, b"[%b,]" % text, NOT_JSON
        yield "from_json", 0, b'[%b,"\\x"]' % text, NOT_JSON
        yield "from_json", 0, b"[%b," % text + b"[" * 32, TOO_DEEP
        yield "from_json", 0, b'[%b,"\xff"]' % text, NOT_UTF8
        for pair, result in WRONG_PAIRS.items():
            tagged = field(b"F", b"\1b" + table + pair)
            for call in ("canonical", "to_json"):
                yield call, 0, tagged, result
                yield call, 1, tagged[1:], result


def test_memory(linked: Words, tmp_path: Path, seed: int) -> None:
    """Buffers of every size, and each allocation failing in turn."""
    make = Random(seed)
    lines = [f"{call} {flags} .{given.hex()} .{wanted.hex()}\n" for call, flags, given, wanted in of_memory(make)]
    lines += [f"{call} {flags} .{given.hex()} {result}\n" for call, flags, given, result in wrong_for_memory(make)]
    options = [*SANITIZERS, *WRAPPED]
    assert calls_of([compiled(HERE / "memory.c", tmp_path / "program", linked, options=options)], "".join(lines))


@needs_aarch64
def test_nulls_on_aarch64(for_aarch64: Words, tmp_path: Path) -> None:
    program = compiled(HERE / "nulls.c", tmp_path / "nulls", for_aarch64, CC_OF_AARCH64)
    assert calls_of([*OF_AARCH64, program])


# Nesting


def nested(folder: Path, name: str, libraries: Words, words: Words) -> Path:
    """nested.c, as it is compiled."""
    return compiled(HERE / "nested.c", folder / name, libraries, words, ["-pthread"])


@pytest.fixture(scope="module")
def on_x86_64(linked: Words, folder: Path) -> stacks.Program:
    return stacks.Threaded(nested(folder, "nested", linked, C))


@pytest.fixture(scope="module")
def on_aarch64(for_aarch64: Words, folder: Path) -> stacks.Program:
    return stacks.Threaded(nested(folder, "nested-aarch64", for_aarch64, CC_OF_AARCH64), (*map(str, OF_AARCH64),))


def checks(column: int) -> list[stacks.Check]:
    """The checks on the stacks of a column of the page's table and the header's."""
    return [*stacks.checks(stacks.FOR_C, column), *stacks.recommended(column)]


OF_X86_64, FOR_AARCH64 = checks(0), checks(1)


@pytest.mark.parametrize("check", OF_X86_64, ids=[it.name for it in OF_X86_64])
def test_nested(on_x86_64: stacks.Program, check: stacks.Check) -> None:
    assert check.wrong(on_x86_64) == ""


@pytest.mark.parametrize("page", ("README.md", "docs/LIMITS.md"))
def test_stack_of_pages(on_x86_64: stacks.Program, page: str) -> None:
    """Tables of the size that the page names overflow the stack that it names, in the call that takes most for a level, if its
    limit lets them through; nine tenths of them don't.
    """
    found = re.findall(r"(\d+) kB of nested tables can overflow a stack of (\d+) MiB", (TOP / page).read_text())
    ((kilobytes, mebibytes),) = found
    call, of_page = stacks.FOR_C["amqpv_canonical"], int(kilobytes) * 1000 // SMALLEST_LEVEL
    for levels, wants in ((of_page, "status -11"), (of_page * 9 // 10, "done")):
        given = b"0" + nested_encoding("F", levels, b"t\7", b"\0")
        assert stacks.answer(on_x86_64, call, levels, given, int(mebibytes) << 20) == wants


@needs_aarch64
@pytest.mark.parametrize("check", FOR_AARCH64, ids=[it.name for it in FOR_AARCH64])
def test_nested_on_aarch64(on_aarch64: stacks.Program, check: stacks.Check) -> None:
    assert check.wrong(on_aarch64) == ""
