"""All functions of the C API, by tests/c/c_api.py, against the reference implementation (tests/model).

They are called on random bytes, structs, texts and orders of calls, and on what is at the limits.
"""

import re
from collections import Counter
from ctypes import c_size_t
from random import Random
from typing import Any

import pytest

from tests import large_texts
from tests.c import c_api
from tests.c.c_api import ANY_KEYS, FIRST_KEY, INVALID, NONE, NOWHERE, OK, RABBITMQ, STREAMS, UNTAGGED
from tests.model.json_format import LEVELS, Rejected, json_of, some_value, text_for, texts, value_of_json
from tests.model.encoding import COUNTED, SIGNED, TYPES, extent, field, is_utf8, json_of_encoding, lack, read, write
from tests.model.inputs import inputs, nested, untagged, value_of
from tests.memory.stacks import HEADER
from tests.model.rules import doubtful, exceeds, unfit_for_streams
from tests.model.tables import first_problem, odd_table, parts, random_table, raw
from tests.rows import bytes_of, stored

pytestmark = pytest.mark.usefixtures("library")
# The result of a problem, by its kind in the model; what is cut at the start is AMQPV_MORE.
RESULTS = {kind: result for result, kind in c_api.KINDS.items() if result != c_api.MORE}
Span = tuple[int, int]


def plain(entry: Any) -> Any:
    """An entry without the offset of what has no bytes, which says nothing."""
    return entry and tuple(it if not isinstance(it, tuple) or it[1] else (0, 0) for it in entry)


def entry_of(data: bytes, at: int, key: Span = (0, 0)) -> Any:
    """The entry of the value at an offset; its type tag may be left out, at -1."""
    head = data[max(at, 0) : at + 5] if at >= 0 else b"F" + data[:4]
    tag, end = chr(head[0]), at + extent(head)
    content = data[at + 1 : end]
    width = TYPES[tag][1] or 0
    number = int.from_bytes(content[tag == "D" : width], "big", signed=TYPES[tag][0] in SIGNED) if width else 0
    bits = int(number != 0) if tag == "t" else number % 2**64
    inside = (at + 5, end - at - 5) if tag in COUNTED else (0, 0)
    value = max(at, 0), end - max(at, 0)
    return plain((key, value, inside, bits, ord({"U": "s", "L": "l"}.get(tag, tag)), content[0] if tag == "D" else 0))


# Reading


def rules_of(flags: int) -> str:
    return "RabbitMQ" if flags & RABBITMQ else "any keys" if flags & ANY_KEYS else "read"


def wanted_problem(data: bytes, flags: int, max_bytes: int, max_depth: int) -> tuple[int, Any]:
    """The result of reading, and the problem, by the model."""
    left_out = flags & UNTAGGED
    whole = b"F" * left_out + data
    if chr(whole[0]) in TYPES if whole else False:
        if extent(whole) > max_bytes:
            return c_api.TOO_LARGE, (0, 0, 0, 0)
    problem = first_problem(whole, rules_of(flags), max_depth)
    if problem is None:
        return OK, None
    at, kind, tag = problem
    if at == 0 and kind == 3:
        return c_api.MORE, (0, lack(whole), 0, 0)
    return RESULTS[kind], (max(0, at - left_out), 0, tag, 0)


def sizes(data: bytes) -> tuple[int, int]:
    """How many values are written in a value, itself counted, and how deep containers nest."""
    if data[:1] not in (b"A", b"F"):
        return 1, 0
    inside = [sizes(it) for _, it in parts(data)]
    return 1 + sum(it for it, _ in inside), 1 + max((it for _, it in inside), default=0)


def assert_read(data: bytes, flags: int = 0, max_bytes: int = c_api.MAX_BYTES, max_depth: int = c_api.MAX_DEPTH) -> int:
    """A value is read, measured, and found canonical or not, as the model has it."""
    limits, left_out = (flags, max_bytes, max_depth), flags & UNTAGGED
    result, problem = wanted_problem(data, *limits)
    found, entry, why = c_api.read(data, *limits)
    wanted = entry_of(data, -left_out) if result == OK else None
    assert (found, plain(entry), why) == (result, wanted, problem), (data.hex(), limits)
    assert_peeked(data, flags)
    measured, is_canonical = c_api.measure(data, *limits), c_api.is_canonical(data, *limits)
    by_reading, where = wanted_problem(data, flags & ~(ANY_KEYS | RABBITMQ), max_bytes, max_depth)
    if by_reading != OK:
        assert (measured, is_canonical) == ((by_reading, None, where), by_reading)
    else:
        whole = b"F" * left_out + data
        size = extent(whole)
        assert measured == (OK, (size - left_out, *sizes(whole[:size])), None)
        assert is_canonical == (OK if write(read(whole[:size])[0]) == whole[:size] else NONE), data.hex()
    return result


def assert_peeked(data: bytes, flags: int) -> None:
    """What is at the start is as the model has it, whatever the limits are."""
    left_out = flags & UNTAGGED
    whole, wanted = b"F" * left_out + data, None
    if whole and chr(whole[0]) not in TYPES:
        result = c_api.UNKNOWN_TAG
    else:
        result, wanted = (c_api.MORE, None) if lack(whole) else (OK, entry_of(data, -left_out))
    found, entry = c_api.peek(data, flags, 0, 0)
    assert (found, plain(entry)) == (result, wanted), (data.hex(), flags)


def test_inputs_of_every_kind(seed: int) -> None:
    make, results = Random(seed), Counter[int]()
    given = [*((it, 0) for it in inputs()), *((it, UNTAGGED) for it in untagged())]
    given += [(raw(random_table(make)), 0) for _ in range(1500)] + [(value_of(make, 3), 0) for _ in range(1500)]
    for data, flags in given:
        others = make.choice([0, 0, ANY_KEYS, RABBITMQ, ANY_KEYS | RABBITMQ, FIRST_KEY, STREAMS])
        results[assert_read(data, flags | others)] += 1
        assert_written(data, flags, others=others)
    assert results[OK] > 3000 and results[c_api.MORE] and results[c_api.TOO_LARGE]


@pytest.mark.parametrize("flags", (0, ANY_KEYS, RABBITMQ, ANY_KEYS | RABBITMQ))
def test_problems(flags: int, seed: int) -> None:
    make, results = Random(seed), set()
    for _ in range(2000):
        data = odd_table(make)
        results.add(assert_read(data, flags, max_depth=2))
        assert_read(data[1:], flags | UNTAGGED, max_depth=2)
        cut = data[: make.randrange(len(data))]
        assert_read(cut, flags, max_depth=2)
        assert_read(cut[1:], flags | UNTAGGED, make.choice([5, 20, 2**32 - 1]), make.choice([0, 1, 2, 2**32 - 1]))
    only = {c_api.NOT_FINITE} if flags & RABBITMQ else set() if flags else {c_api.KEY_NOT_UTF8}
    assert results == {OK, c_api.UNKNOWN_TAG, c_api.CUT, c_api.KEY_CUT, c_api.TOO_DEEP} | only


@pytest.mark.parametrize(
    "data", (b"", b"I", b"I\0\0\0\7", b"z", b"F\0\0\0\3\1aV", b"F\0\0\0\3\1\xffV", b"S\0\0\0\2ab", b"U\0\1")
)
def test_limits(data: bytes) -> None:
    for flags in range(32):
        for max_bytes in (0, 1, 2, 4, 5, 6, 7, 8, 2**31, 2**32 - 1):
            for max_depth in (0, 1, 2, 2**32 - 1):
                assert_read(data, flags, max_bytes, max_depth)


NAN, DEEP = b"f\x7f\xc0\0\0", b"A\0\0\0\5A\0\0\0\0"
REJECTED = [
    (b"U\0\1", (RABBITMQ,), c_api.UNKNOWN_TAG),
    (b"U\0\1", (RABBITMQ, 2), c_api.TOO_LARGE),
    (b"z", (RABBITMQ, 0), c_api.UNKNOWN_TAG),
    (field(b"A", b"U\0\1"), (RABBITMQ,), c_api.UNKNOWN_TAG),
    (NAN, (RABBITMQ,), c_api.NOT_FINITE),
    (field(b"F", b"\1\xffV"), (0,), c_api.KEY_NOT_UTF8),
    (field(b"F", b"\1k"), (0,), c_api.CUT),
    (DEEP, (0, 10, 1), c_api.TOO_DEEP),
]


@pytest.mark.parametrize(("data", "limits", "result"), REJECTED)
def test_a_stream_goes_on_after_a_rejected_value(data: bytes, limits: tuple[int, ...], result: int) -> None:
    """Where the value ends that is rejected, unless its first byte is no type tag."""
    assert c_api.read(data + b"V", *limits)[0] == result
    found, entry = c_api.peek(data + b"V", *limits)
    wanted = (c_api.UNKNOWN_TAG, None) if data == b"z" else (OK, (0, len(data)))
    assert (found, entry and entry[1]) == wanted


# Every bit of the flags that has no meaning.
UNKNOWN = [1 << it for it in range(5, 32)]


@pytest.mark.parametrize("data", (b"", b"V", b"z", b"F\0\0\0\0"))
def test_flags(data: bytes) -> None:
    """A flag that isn't known comes before all else."""
    entry = c_api.Entry()
    for flags in [*UNKNOWN, *(it | 31 for it in UNKNOWN)]:
        assert c_api.read(data, flags) == (INVALID, None, None)
        assert c_api.peek(data, flags) == (INVALID, None)
        assert c_api.find(data, entry, [], flags) == (INVALID, None)
        into = c_api.Container()
        assert c_api.Buffer(0).put_value(into, b"x" * 300, data, flags) == INVALID
        assert c_api.measure(data, flags) == (INVALID, None, None)
        assert c_api.is_canonical(data, flags) == INVALID
        assert c_api.warn(data, flags, 9, 0, 9) == (INVALID, None)
        for call in (c_api.canonical, c_api.to_json):
            assert call(data, flags) == (INVALID, 0)
        cursor = c_api.Cursor((0, 0), ord("A"))
        assert c_api.step(data, cursor, flags)[0] == NONE


# Steps and look-ups


def is_inside(span: Span, length: int) -> bool:
    return span[0] <= length and span[1] <= length - span[0]


def stepped(data: bytes, left: Span, tag: int) -> tuple[int, Any, Any]:
    """What a step of a cursor returns: the result, the entry, and what is left."""
    at, end = left[0], left[0] + left[1]
    if not is_inside(left, len(data)) or tag not in b"AF":
        return INVALID, None, left
    if not left[1]:
        return NONE, None, left
    key = 0, 0
    if tag == ord("F"):
        key = at + 1, data[at]
        at += 1 + data[at]
    head = data[at:end][:5]
    if at >= end or chr(head[0]) not in TYPES or len(head) < 5 and head[0] in b"SxAF" or at + extent(head) > end:
        return c_api.CUT, None, left
    entry = entry_of(data, at, key)
    at += extent(head)
    return OK, entry, (at, end - at)


def looked_up(data: bytes, entry: Any, path: list[Any], first: bool) -> tuple[int, Any]:
    """What a look-up returns."""
    if "S" in path or not all(is_inside(it, len(data)) for it in entry[:3]):
        return INVALID, None
    for part in path:
        into = "F" if isinstance(part, bytes) else "A"
        if entry[4] != ord(into):
            return NONE, None
        left, found, count = entry[2], None, 0
        while True:
            result, it, left = stepped(data, left, entry[4])
            if result != OK:
                break
            is_it = count == part if into == "A" else data[it[0][0] : it[0][0] + it[0][1]] == part
            count, found = count + 1, it if is_it else found
            if is_it and (first or into == "A"):
                break
        if result not in (OK, NONE) or found is None:
            return (result, None) if result < 0 else (NONE, None)
        entry = found
    return OK, entry


def as_struct(entry: Any) -> Any:
    key, value, content, bits, tag, scale = entry
    return c_api.Entry(key, value, content, bits, tag, scale)


def some_span(make: Random, length: int) -> Span:
    """A span inside some bytes, or almost, or with numbers that overflow."""
    numbers = [make.randrange(length + 2) for _ in range(8)]
    numbers += [2**64 - 1, 2**63, 2**63 - 1, 2**32, 2**64 - length]
    return make.choice(numbers), make.choice(numbers)


def some_bytes(make: Random) -> bytes:
    kind = make.randrange(3)
    return odd_table(make) if kind == 0 else value_of(make, 3) if kind == 1 else make.randbytes(make.randrange(1, 12))


def assert_steps(data: bytes, left: Span, tag: int, flags: int) -> tuple[int, list[Any]]:
    """A cursor steps as the model does: the last result, and the entries before it."""
    found: list[Any] = []
    while True:
        cursor, wanted = c_api.Cursor(left, tag), stepped(data, left, tag)
        result, it, rest = c_api.step(data, cursor, flags)
        assert (result, plain(it), rest) == (*wanted[:2], (wanted[2], tag)), (data.hex(), left, tag)
        if result != OK:
            return result, found
        found.append(wanted[1])
        left = wanted[2]


def test_steps_and_look_ups(seed: int) -> None:
    """Of what is read and of what isn't, also from cursors and entries that were corrupted."""
    make, stepping, finding = Random(seed), set[int](), set[int]()
    for _ in range(30_000):
        data, entry = some_bytes(make), None
        if make.random() < 0.7:
            entry = c_api.peek(data)[1]
        if entry is None:
            entry = *(some_span(make, len(data)) for _ in range(3)), make.getrandbits(64), make.choice(b"AFFFSx\0"), 0
        corrupted = some_span(make, len(data)), make.choice(b"AAFFFS")
        left, tag = (entry[2], entry[4]) if make.random() < 0.7 else corrupted
        result, found = assert_steps(data, left, tag, make.getrandbits(32))
        stepping.add(result)
        keys = [b"", b"a", 0, 1, NOWHERE, "S", *(data[it[0][0] : sum(it[0])] for it in found), *range(len(found))]
        for _ in range(6):
            path, first = [make.choice(keys) for _ in range(make.randrange(4))], make.randrange(2)
            result, it = c_api.find(data, as_struct(entry), path, first * FIRST_KEY | make.choice([0, 2, 4]))
            wanted, to = looked_up(data, entry, path, first == 1)
            assert (result, plain(it)) == (wanted, plain(to)), (data.hex(), entry, path)
            finding.add(result)
    assert stepping == {NONE, c_api.CUT, INVALID} and finding == {OK, NONE, c_api.CUT, INVALID}


NUMBERS = [0, 1, 2, *(2**bits + it for bits in (7, 8, 15, 16, 31, 32, 63) for it in (-1, 0, 1)), 2**64 - 1]
NUMBERS += [2**64 - it for it in (1, 127, 128, 129, 2**15, 2**15 + 1, 2**31, 2**31 + 1, 2**63)]


def test_numbers() -> None:
    for tag in map(chr, range(256)):
        for bits in NUMBERS:
            signed, is_large = tag in "bsIl", bits >= 2**63
            no_number = c_api.OUT_OF_RANGE if tag in "bsIlBui" else c_api.BAD_TAG
            result = OK if tag in "bsIlBui" and (signed or not is_large) else no_number
            assert c_api.as_number("as_int", tag, bits) == (result, bits - 2**64 * is_large if result == OK else None)
            result = OK if tag in "bsIlBui" and not (signed and is_large) else no_number
            assert c_api.as_number("as_uint", tag, bits) == (result, bits if result == OK else None)


# Building


class Written:
    """A container as the model has it, next to the struct that the calls get."""

    def __init__(self, offset: int = 0, length: int = 0, tag: str = "A", any_keys: int = 0, inner: int = 0) -> None:
        self.offset, self.length, self.tag = offset, length, tag
        self.inner, self.any_keys, self.needed = inner, any_keys, 77
        self.struct: Any = c_api.Container((offset, length), ord(tag), inner, any_keys, 77)

    @property
    def end(self) -> int:
        return self.offset + self.length

    def assert_same(self) -> None:
        wanted = ((self.offset, self.length), ord(self.tag), self.inner, self.any_keys, self.needed)
        assert self.struct.found() == wanted


def encoding(tag: str, bits: int, scale: int) -> bytes | None:
    """A value of fixed width by its bits, or nothing if there is none."""
    name, width = TYPES[tag][0], (TYPES[tag][1] or 0) - (tag == "D")
    if scale and tag != "D":
        return None
    number = bits - 2**64 if name in SIGNED and bits >= 2**63 else bits
    try:
        content = number.to_bytes(width, "big", signed=name in SIGNED)
    except OverflowError:
        return None
    return None if tag == "t" and bits > 1 else tag.encode() + bytes([scale] * (tag == "D")) + content


class Builder:
    """A buffer that is written to by calls, and by the model."""

    def __init__(self, capacity: int) -> None:
        self.buffer, self.bytes, self.results = c_api.Buffer(capacity), bytearray(b"\x33" * capacity), Counter[int]()

    def append(self, into: Written, key: bytes, it: bytes, wrong: int) -> int:
        """What the model appends, and its result."""
        named = bytes([len(key)]) + key if into.tag == "F" and len(key) < 256 else b""
        if not is_inside((into.offset, into.length), len(self.bytes)) or into.tag not in "AF" or into.inner:
            return INVALID
        if key if into.tag == "A" else len(key) > 255 or not into.any_keys and not is_utf8(key):
            return c_api.BAD_KEY
        if wrong:
            return wrong
        if into.end + len(named + it) > len(self.bytes):
            into.needed = into.end + len(named + it)
            return c_api.NO_ROOM
        self.bytes[into.end : into.end + len(named + it)] = named + it
        into.length += len(named + it)
        return OK

    def check(self, found: int, wanted: int, *containers: Written) -> int:
        """After a call the result, the buffer and the containers are as the model has them."""
        assert found == wanted and self.buffer.content() == self.bytes
        for it in containers:
            it.assert_same()
        self.results[found] += 1
        return found

    def put(self, into: Written, key: bytes, tag: str, bits: int, scale: int = 0) -> int:
        is_fixed = tag in TYPES and tag not in COUNTED and tag not in "UL"
        it = encoding(tag, bits, scale) if is_fixed else None
        wanted = self.append(into, key, it or b"", 0 if it else c_api.OUT_OF_RANGE if is_fixed else c_api.BAD_TAG)
        return self.check(self.buffer.put(into.struct, key, tag, bits, scale), wanted, into)

    def put_bytes(self, into: Written, key: bytes, tag: str, data: bytes) -> int:
        wanted = self.append(into, key, field(tag.encode("latin-1"), data), 0 if tag in "Sx" else c_api.BAD_TAG)
        return self.check(self.buffer.put_bytes(into.struct, key, tag, data), wanted, into)

    def put_value(self, into: Written, key: bytes, data: bytes, flags: int, max_depth: int = 9) -> int:
        result, _ = wanted_problem(data, flags, 999, max_depth)
        whole = b"F" * (flags & UNTAGGED) + data
        wanted = self.append(into, key, whole[: extent(whole)], result)
        return self.check(self.buffer.put_value(into.struct, key, data, flags, 999, max_depth), wanted, into)

    def open(self, into: Written, key: bytes, tag: str) -> tuple[int, Written]:
        body, before = Written(7, 7, "x"), into.length
        wanted = self.append(into, key, tag.encode("latin-1") + b"\0" * 4, 0 if tag in "AF" else c_api.BAD_TAG)
        found = self.buffer.open(into.struct, key, tag, body.struct)
        if wanted == OK:
            body.offset, body.length, body.tag, body.any_keys, into.inner = into.end, 0, tag, into.any_keys, 1
            into.length = before
            body.needed = 0
        return self.check(found, wanted, into, body), body

    def close(self, into: Written, body: Written) -> int:
        at, size, wanted = into.end, len(self.bytes), INVALID
        if all(is_inside((it.offset, it.length), size) and it.tag in "AF" for it in (into, body)):
            key = bytes(self.bytes[at + 1 : at + 1 + self.bytes[at]]) if into.tag == "F" and at < size else b""
            at += (1 + self.bytes[at] if at < size else 1) * (into.tag == "F")
            is_key = into.any_keys or is_utf8(key)
            is_there = at + 5 == body.offset and is_key and at < size and self.bytes[at] == ord(body.tag)
            if (into.inner, body.inner) == (1, 0) and is_there:
                wanted = OK
                self.bytes[at + 1 : at + 5] = body.length.to_bytes(4, "big")
                into.length, into.inner = body.end - into.offset, 0
        return self.check(self.buffer.close(into.struct, body.struct), wanted, into, body)


KEYS = [b"", b"a", b"key", "é".encode(), b"\xff", b"\xed\xa0\x80", b"k" * 255, b"k" * 256, "é".encode() * 127 + b"k"]
KEYS += [b"a\0b"]
VALUES = [
    b"V", b"t\7", b"I\0", b"U\0\1", b"z", b"S\0\0\0\1ab", b"F\0\0\0\3\1\xffV", b"F\0\0\0\6\1aV\1aV", b"A\0\0\0\5A\0\0\0\0", b"",
    b"F\0\0\0\3\1az", b"f\x7f\x80\0\0", b"x\0\0\4\0", b"A\0\0\0\1I",
]  # fmt: skip


def test_building(seed: int) -> None:
    """Calls in any order, in buffers of any size, of containers that are open, were closed, or were corrupted."""
    make, results = Random(seed), Counter[int]()
    tags, numbers = "tbBsUuIilLfdDSxTVAFz\0\xff", NUMBERS
    for _ in range(20_000):
        builder = Builder(make.choice([0, 1, 4, 5, make.randrange(60), 200, 600]))
        open_ = [Written(any_keys=make.choice([0, 0, 1, 255]), tag=make.choice("AAF"))]
        for _ in range(make.randrange(1, 14)):
            into = open_[-1] if make.random() < 0.85 else make.choice(open_)
            key = b"" if into.tag == "A" and make.random() < 0.9 else make.choice(KEYS)
            kind = make.randrange(9)
            if kind < 3:
                builder.put(into, key, make.choice(tags), make.choice(numbers), make.choice([0, 0, 0, 3, 255]))
            elif kind < 4:
                builder.put_bytes(into, key, make.choice("SSxxAV"), make.randbytes(make.randrange(9)))
            elif kind < 6:
                flags, value = make.randrange(16), make.choice(VALUES)
                builder.put_value(into, key, value[value[:1] == b"F" and flags & 1 :], flags, make.choice([0, 1, 9]))
            elif kind < 7:
                result, body = builder.open(into, key, make.choice("AAFFSz"))
                open_ += [body] if result == OK else []
            elif kind < 8 and len(open_) > 1:
                if builder.close(*make.choice([open_[-2:], [make.choice(open_), make.choice(open_)]])) == OK:
                    del open_[-1]
            elif make.random() < 0.2:
                size = make.choice(
                    [0, len(builder.bytes), 2**64 - 1, 2**63, make.randrange(len(builder.bytes) + 1)]
                )
                other = Written(
                    make.choice([into.offset, size]), make.choice([into.length, size]), into.tag, into.any_keys
                )
                other.struct.inner = other.inner = make.choice([into.inner, 0, 1, 2, 255])
                open_[open_.index(into)] = other
        results += builder.results
    wanted = {OK, INVALID, c_api.BAD_KEY, c_api.BAD_TAG, c_api.OUT_OF_RANGE, c_api.NO_ROOM, c_api.MORE, c_api.CUT}
    wanted |= {c_api.UNKNOWN_TAG, c_api.TOO_DEEP, c_api.TOO_LARGE, c_api.KEY_NOT_UTF8, c_api.NOT_FINITE}
    assert {*results} == wanted


def test_every_type_and_number() -> None:
    builder = Builder(16)
    for tag in map(chr, range(256)):
        for bits in NUMBERS:
            for scale in (0, 1, 255):
                builder.put(Written(), b"", tag, bits, scale)


def test_larger_buffer(seed: int) -> None:
    """A call that has no room succeeds with the capacity that it needs, and not with less."""
    make = Random(seed)
    for _ in range(500):
        key, value = make.choice([it for it in KEYS[:4] if it]), value_of(make, 2)
        at = make.randrange(20)
        into = c_api.Container((0, at), ord("F"), 0, 0, 0)
        assert c_api.Buffer(at).put_value(into, key, value) == c_api.NO_ROOM
        assert into.needed == at + 1 + len(key) + len(value)
        for size, result in ((into.needed - 1, c_api.NO_ROOM), (into.needed, OK)):
            assert c_api.Buffer(size).put_value(c_api.Container((0, at), ord("F"), 0, 0, 0), key, value) == result


# The canonical encoding and JSON

# How many bytes of JSON the header states at most for a byte of the encoding, with the NUL.
(JSON_FOR_A_BYTE,) = map(int, re.findall(r"(\d+) times as many bytes as the encoding", HEADER.read_text()))


def test_longest_json() -> None:
    """It has as many bytes as the header says. (No other value has more, which assert_written looks at.)"""
    result, text = c_api.to_json(b"b\x80", 0, c_api.MAX_BYTES, c_api.MAX_DEPTH)
    assert (result, text) == (OK, b'{"$ShortShortInt":-128}')
    assert isinstance(text, bytes) and len(text) + 1 == JSON_FOR_A_BYTE * 2


def assert_written(data: bytes, left_out: int, others: int = 0) -> None:
    """The canonical encoding and the JSON of a value, which means it, whatever other flags there are."""
    flags, limits = left_out, (left_out | others, c_api.MAX_BYTES, c_api.MAX_DEPTH)
    result, _ = wanted_problem(data, left_out, *limits[1:])
    if result != OK:
        for call in (c_api.canonical, c_api.to_json):
            assert call(data, *limits) == (result, 0), data.hex()
        return
    value, text = read(b"F" * flags + data)[0], json_of_encoding(b"F" * flags + data).encode()
    wanted = write(value)
    assert c_api.canonical(data, *limits) == (OK, wanted[flags:]), data.hex()
    assert c_api.to_json(data, *limits) == (OK, text)
    assert len(text) + 1 <= JSON_FOR_A_BYTE * (extent(b"F" * flags + data) - flags)
    assert c_api.to_json(wanted[flags:], *limits) == (OK, json_of(value).encode())
    if text.count(b"[") + text.count(b"{") <= LEVELS:
        assert c_api.from_json(text) == (OK, wanted, None)


# How keys begin: also with four and with eight bytes that are the same, as which they are compared.
FRONTS = [b"", b"x-", b"x-fi", b"x-first-", b"x-first-death-"]


def test_tables_of_few_and_of_many_keys(seed: int) -> None:
    """Of equal keys the last counts, however many there are."""
    make = Random(seed)
    for count in [*range(2, 40)] * 50:
        keys = [make.choice(FRONTS) + bytes(make.choices(b"abc", k=make.randrange(4))) for _ in range(count)]
        data = field(b"F", b"".join(bytes([len(it)]) + it + b"b" + make.randbytes(1) for it in keys))
        left_out = make.randrange(2)
        assert_written(data[left_out:], left_out)


def meant(text: bytes, nesting: int) -> tuple[int, bytes | int, Any]:
    """What reading a text returns by the model: the canonical encoding, or what is wrong at which byte and why.

    (Why it isn't JSON, the model doesn't say.)
    """
    try:
        text.decode()
        return OK, write(value_of_json(text, min(nesting, LEVELS))), None
    except UnicodeDecodeError as why:
        return c_api.NOT_UTF8, 0, (why.start, 0, 0, 0)
    except Rejected as why:
        if not why.mismatch:
            return c_api.NOT_JSON, 0, (why.at, 0, 0)
        wrong = c_api.TOO_DEEP if why.mismatch == "TooDeep" else c_api.NOT_A_VALUE
        return wrong, 0, (why.at, 0, 0, c_api.MISMATCHES.get(why.mismatch, 0))


def assert_meant(text: bytes, nesting: int) -> int:
    """Reading a text returns what it means by the model."""
    result, made, problem = c_api.from_json(text, nesting)
    if result == c_api.NOT_JSON and problem:
        assert problem[3] in c_api.SYNTAX_ERRORS.values()
        problem = problem[:3]
    assert (result, made, problem) == meant(text, nesting), (text, nesting)
    return result


def test_texts_that_may_mean_none(seed: int) -> None:
    make, results = Random(seed), Counter[int]()
    for text in texts(make, (some_value(make, 3) for _ in range(10_000))):
        if make.random() < 0.05:
            at = make.randrange(len(text) + 1)
            text = text[:at] + make.choice([b"\x80", b"\xff", b"\xc3", b"\xed\xa0\x80"]) + text[at + 1 :]
        nesting = make.choice([*range(8), LEVELS, LEVELS + 1, 2**32 - 1])
        results[assert_meant(text, nesting)] += 1
    assert len(results) == 5 and min(results.values()) > 25, results


def test_large_texts_that_mean_none() -> None:
    results = {
        large_texts.NOT_JSON: c_api.NOT_JSON,
        large_texts.TOO_DEEP: c_api.TOO_DEEP,
        large_texts.NOT_A_VALUE: c_api.NOT_A_VALUE,
        large_texts.NOT_UTF8: c_api.NOT_UTF8,
    }
    numbers = c_api.SYNTAX_ERRORS | c_api.MISMATCHES | {"": 0}
    for text, wrong, at, reason in large_texts.wrong_texts():
        assert c_api.from_json(text, 1) == (results[wrong], 0, (at, 0, 0, numbers[reason])), (text[:9], len(text))


# The rows of the crate: a text, the byte where it is wrong, and why.
ROW = re.compile(r"(?:Syntax|NotAValue)\((\d+), (\w+)\)")
ROWS = [it for it in stored("json.calls") if it[0].startswith(("json ", "json_bytes ")) and ROW.fullmatch(it[1])]


def test_reasons() -> None:
    """A text is wrong for the reason that a row of the crate has for it."""
    numbers, seen = c_api.SYNTAX_ERRORS | c_api.MISMATCHES, set[str]()
    for request, answer in ROWS:
        call, _, word = request.partition(" ")
        at, reason = ROW.fullmatch(answer).groups()  # type: ignore[union-attr]
        text = word.encode() if call == "json" else bytes_of(word)
        result = c_api.NOT_JSON if reason in c_api.SYNTAX_ERRORS else c_api.NOT_A_VALUE
        assert c_api.from_json(text) == (result, 0, (int(at), 0, 0, numbers[reason])), request
        seen.add(reason)
    assert seen == numbers.keys()


@pytest.mark.parametrize("depth", (1, 2, LEVELS - 1, LEVELS, LEVELS + 1, LEVELS + 2))
@pytest.mark.parametrize("nesting", (0, 1, LEVELS - 1, LEVELS, LEVELS + 1, 2**32 - 1))
def test_deep_texts(depth: int, nesting: int) -> None:
    """Brackets nest at most LEVELS deep, whatever the limit is; values may be deeper."""
    for form in ("A", "F", "AF"):
        data = nested(form, depth, b"V")
        result, text = c_api.to_json(data, 0, c_api.MAX_BYTES, depth)
        assert result == OK and isinstance(text, bytes)
        assert_meant(text, nesting)
        assert_meant(text[:-1], nesting)


def test_texts_with_other_spellings(seed: int) -> None:
    make = Random(seed)
    for _ in range(5000):
        value = read(value_of(make, 4))[0]
        assert c_api.from_json(text_for(make, value).encode()) == (OK, write(value), None)


# Warnings


def warnings_of(data: bytes, levels: int, frame_max: int, flags: int) -> dict[str, Any]:
    """What is doubtful by the model, of a table without its type tag if one byte is left out."""
    of_streams = unfit_for_streams(data)
    places = doubtful(data, levels) | (of_streams if flags & STREAMS else {it: [] for it in of_streams})
    first = {name: max(0, it[0] - (flags & UNTAGGED)) if it else None for name, it in places.items()}
    found = first | {"exceeds_frame": exceeds(extent(data[:5]), frame_max)}
    return found | {"count": sum(it is not None and it is not False for it in found.values())}


def test_warnings(seed: int) -> None:
    """Of tables that RabbitMQ takes, with each number of levels."""
    make, seen = Random(seed), set[str]()
    for data in (odd_table(make) for _ in range(2000)):
        for levels in range(5) if not first_problem(data, "RabbitMQ", 4) else ():
            for left_out in (0, 1):
                flags = left_out | make.choice([0, FIRST_KEY, ANY_KEYS, RABBITMQ]) | make.choice([0, STREAMS])
                frame_max = make.choice([64, 64, 0])
                result, found = c_api.warn(data[left_out:], flags, 4, frame_max, levels)
                wanted = warnings_of(data, levels, frame_max, flags)
                assert (result, found) == (OK, wanted), data.hex()
                seen |= {name for name, it in wanted.items() if it is not None and it is not False}
                seen |= set() if wanted["count"] else {""}
    assert seen == {*c_api.OFFSETS, "exceeds_frame", "count", ""}


def test_much_memory() -> None:
    """A mebibyte, and pairs whose keys descend, so that each call allocates as much: none gives up."""
    keys = [f"{it:07}" for it in range(40_000, 0, -1)]
    data = field(b"F", b"".join(b"\7" + it.encode() + b"V" for it in keys) + b"\1s" + field(b"S", b"a" * 2**20))
    text = "{" + "".join(f'"{it}":null,' for it in keys) + '"s":"' + "a" * 2**20 + '"}'
    wanted = write(read(data)[0])
    limits = 0, 2**32 - 1, 1
    assert c_api.canonical(data, *limits) == (OK, wanted)
    assert c_api.to_json(data, *limits) == (OK, text.encode())
    assert c_api.from_json(text.encode()) == (OK, wanted, None)
    result, found = c_api.warn(data, 0, 1, 0, 1)
    assert result == OK and found and found["count"] == 0


def test_version() -> None:
    stated = re.search(r"(?m)^#define AMQPV_VERSION_NUMBER (\d+)", HEADER.read_text())
    assert stated and c_api.version() == int(stated[1])
    assert c_size_t(-1).value == NOWHERE
