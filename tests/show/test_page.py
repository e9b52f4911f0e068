"""What the page reads of inputs, by both modules, is what amqp_show prints of them, and so is what it draws."""

import struct
from collections.abc import Iterable, Iterator
from pathlib import Path
from random import Random

import pytest

from tests.model.encoding import field
from tests.model.inputs import captured, inputs, untagged
from tests.model.tables import odd_table, random_table, raw
from tests.web.browser import Browser
from tests.web.shown import wanted
from tests.web.test_seen import drawn, expect

COUNT = 2000
# How many inputs are given to the page at once.
BATCH = 200

pytestmark = pytest.mark.needs("web")


def judge(browser: Browser, program: Path, given: Iterable[bytes], is_table: bool = False) -> None:
    """Compares what the page reads of inputs, by both modules, with what amqp_show prints of nearly all of them."""
    all_given = [*given]
    wants = [*wanted(program, all_given, is_table)]
    assert len([it for it in wants if it]) > 0.9 * len(all_given)
    for at in range(0, len(all_given), BATCH):
        batch = all_given[at : at + BATCH]
        for bits in (64, 32):
            read = browser.read(batch, bits, isTable=is_table)
            for data, has, wants_of_it in zip(batch, read, wants[at : at + BATCH], strict=True):
                assert not wants_of_it or has == wants_of_it, data[:300].hex()


def short(given: Iterable[bytes]) -> Iterator[bytes]:
    """Those of less than 1 MiB."""
    return (it for it in given if len(it) < 2**20)


def test_inputs_of_every_kind(browser: Browser, program: Path) -> None:
    """Also tables without their type tag."""
    judge(browser, program, short(inputs()))
    judge(browser, program, short(untagged()), is_table=True)


def odd_inputs() -> Iterator[bytes]:
    """Lengths that no count has, strings with every character that is escaped and those next to them, and Floats."""
    for length in range(2**32 - 8, 2**32):
        for tag in b"SxAF":
            value = bytes([tag]) + length.to_bytes(4, "big")
            yield from (value, field(b"A", value), field(b"F", b"\1k" + value), field(b"F", b"\1k" + value)[:-1])
    first = (0, 0x700), (0x1150, 0x1170), (0x17B0, 0x1820), (0x1FF0, 0x2100), (0x3160, 0x3168)
    more = (0xFEFD, 0xFF02), (0xFF9D, 0xFFA3), (0xFFF8, 0xFFFE), (0x1F407, 0x1F408)
    characters = "".join(chr(it) for low, high in first + more for it in range(low, high)).encode()
    yield from (field(b"S", characters), field(b"S", characters + b"\xff"), field(b"x", bytes(range(256))))
    for at in range(0, len(characters), 250):
        key = characters[at : at + 250].decode(errors="ignore").encode()
        yield field(b"F", bytes([len(key)]) + key + b"V" + b"\1\xe4V")
    make = Random(7)
    floats = (struct.pack(">I", make.getrandbits(32)) for _ in range(5000))
    whole = (struct.pack(">f", float(make.randrange(2**28))) for _ in range(2000))
    yield field(b"A", b"".join(b"f" + it for it in [*floats, *whole]))


def test_odd_inputs(browser: Browser, program: Path) -> None:
    judge(browser, program, odd_inputs())


def test_random_tables(browser: Browser, program: Path, seed: int) -> None:
    make = Random(seed)
    judge(browser, program, [raw(random_table(make)) if at % 2 else odd_table(make) for at in range(COUNT)])


def test_prefixes(browser: Browser, program: Path) -> None:
    """Every prefix of three tables that were captured, with their type tag and without it."""
    names = captured()
    for name in ("x-death-after-2", "rabbitmq-server-properties", "rabbitmq-federation"):
        prefixes = [names[name][:size] for size in range(len(names[name]))]
        judge(browser, program, prefixes)
        judge(browser, program, [it[1:] for it in prefixes[1:]], is_table=True)


def test_inputs_are_drawn(browser: Browser, program: Path) -> None:
    """Of inputs of every kind the page draws the lines of amqp_show, and says what is wrong. (It says nothing of an empty field.)"""
    browser.load()
    browser.choose("form", "value")
    given = [it for it in inputs() if 0 < len(it) < 300][::25]
    for data, wants in zip(given, wanted(program, given), strict=True):
        if wants:
            browser.type(data.hex())
            expect(browser, drawn, wants["tree"])
            assert browser.text("failure") == wants["failure"].removeprefix("! "), data.hex()
