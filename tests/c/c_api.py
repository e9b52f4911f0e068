"""Calls the functions of the C API by ctypes, for the tests in tests/c. `load`, which the fixture `library` calls, is first.

What a call reads, and the buffer that it writes to, end where a page begins that can't be accessed. A function returns
the call's result and what the call has set; a struct that is as it was before is None.
"""

import ctypes
import mmap
from ctypes import byref, c_char, c_size_t, c_uint8, c_uint32, c_uint64
from typing import Any

from tests.model.inputs import FRAME
from tests.model.json_format import LEVELS
from tests.model.rules import DEPTH

OK, NONE = 0, 1
(
    MORE, UNKNOWN_TAG, CUT, KEY_CUT, KEY_NOT_UTF8, NOT_FINITE, TOO_DEEP, TOO_LARGE, NOT_UTF8, NOT_JSON, NOT_A_VALUE,
    NO_ENCODING, INVALID, BAD_KEY, BAD_TAG, OUT_OF_RANGE, NO_ROOM, NO_MEMORY,
) = range(-1, -19, -1)  # fmt: skip
UNTAGGED, ANY_KEYS, RABBITMQ, FIRST_KEY, STREAMS = 1, 2, 4, 8, 16
MAX_BYTES, MAX_DEPTH, NESTING = FRAME, DEPTH, LEVELS
NOWHERE = 2**64 - 1
# The numbers of reasons, by the names that amqp_json has for them: why a text isn't JSON, and why it means no value.
SYNTAX_ERRORS = {
    "UnexpectedEnd": 1, "UnfinishedString": 2, "UnexpectedCharacter": 3, "ControlCharacter": 4, "UnknownEscape": 5,
    "LoneSurrogate": 6, "MissingComma": 7, "MissingColon": 8, "TrailingComma": 9, "AfterTheValue": 10, "ByteOrderMark": 11,
}  # fmt: skip
MISMATCHES = {
    "UnknownType": 101, "NotAlone": 102, "KeyTooLong": 103, "NotANumber": 104, "NotAString": 105, "OutOfRange": 106,
    "OddDigits": 107, "NotHexadecimal": 108, "DigitCount": 109, "NotADecimal": 110,
}  # fmt: skip
# The kind of a problem in tests/model/tables.py, by the result.
KINDS = {UNKNOWN_TAG: 1, NOT_FINITE: 2, CUT: 3, MORE: 3, KEY_CUT: 4, TOO_DEEP: 5, TOO_LARGE: 6, KEY_NOT_UTF8: 7}
Found = tuple[Any, ...] | None


class Struct(ctypes.Structure):
    """A struct whose bytes are 5a before a call."""

    @classmethod
    def fresh(cls) -> Any:
        return cls.from_buffer_copy(b"\x5a" * ctypes.sizeof(cls))

    def found(self) -> Found:
        """Its fields, or nothing if no call has written to it."""
        if bytes(self) == b"\x5a" * ctypes.sizeof(self):
            return None
        fields = [getattr(self, it[0]) for it in self._fields_]
        return tuple(it.found() or (0x5A5A5A5A5A5A5A5A,) * 2 if isinstance(it, Struct) else it for it in fields)


def _struct(name: str, *fields: tuple[str, Any]) -> type[Struct]:
    return type(name, (Struct,), {"_fields_": [*fields]})


def _sizes(*names: str) -> list[tuple[str, Any]]:
    return [(it, c_size_t) for it in names]


Span = _struct("Span", *_sizes("offset", "length"))
SPANS = [(it, Span) for it in ("key", "value", "content")]
Entry = _struct("Entry", *SPANS, ("bits", c_uint64), ("tag", c_uint8), ("scale", c_uint8))
Cursor = _struct("Cursor", ("left", Span), ("tag", c_uint8))
Problem = _struct("Problem", *_sizes("offset", "missing"), ("tag", c_uint8), ("reason", c_uint8))
Size = _struct("Size", *_sizes("bytes", "values", "levels"))
Step = _struct("Step", ("key", ctypes.c_void_p), *_sizes("key_length", "index"), ("into", c_uint8))
LIMITS = [("max_bytes", c_uint32), ("max_depth", c_uint32), ("flags", c_uint32)]
Input = _struct("Input", ("bytes", ctypes.c_void_p), ("length", c_size_t), *LIMITS)
FLAGS = [("tag", c_uint8), ("inner", c_uint8), ("any_keys", c_uint8)]
Container = _struct("Container", ("written", Span), *FLAGS, ("needed", c_size_t))
OFFSETS = ("repeated_key", "key_not_utf8", "empty_key", "too_deep", "decimal", "nested_header")
LATER = [("exceeds_frame", c_uint8), ("reserved_flags", c_uint8 * 7)]
Warnings = _struct("Warnings", *_sizes("count", *OFFSETS), ("reserved", c_size_t * 4), *LATER)


class Place:
    """Bytes that end where a page begins that can't be accessed."""

    def __init__(self, size: int) -> None:
        self.size = -(-size // mmap.PAGESIZE) * mmap.PAGESIZE
        self.map = mmap.mmap(-1, self.size + mmap.PAGESIZE)
        end = ctypes.addressof(c_char.from_buffer(self.map)) + self.size
        assert ctypes.CDLL(None).mprotect(ctypes.c_void_p(end), c_size_t(mmap.PAGESIZE), 0) == 0
        self.end = end

    def put(self, data: bytes) -> ctypes.c_void_p:
        """The address of these bytes."""
        assert len(data) <= self.size
        self.map[self.size - len(data) : self.size] = data
        return ctypes.c_void_p(self.end - len(data))

    def last(self, count: int) -> bytes:
        return self.map[self.size - count : self.size]


_library: ctypes.CDLL
_given, _keys, _buffer = Place(8 << 20), Place(1 << 16), Place(8 << 20)


def load(path: str) -> None:
    """Loads the library."""
    global _library
    _library = ctypes.CDLL(path)


def called(name: str, *arguments: Any) -> int:
    result: int = getattr(_library, f"amqpv_{name}")(*arguments)
    return result


def given(data: bytes, flags: int = 0, max_bytes: int = MAX_BYTES, max_depth: int = MAX_DEPTH) -> Any:
    """An input."""
    return Input(_given.put(data).value, len(data), max_bytes, max_depth, flags)


# Reading. `limits` are the flags, max_bytes and max_depth of the input.


def read(data: bytes, *limits: int, call: str = "read", of: type[Struct] = Entry) -> tuple[int, Found, Found]:
    """The result, the entry and the problem. Without a place for the problem the first two are the same."""
    entry, problem, alone = of.fresh(), Problem.fresh(), of.fresh()
    result = called(call, byref(given(data, *limits)), byref(entry), byref(problem))
    assert called(call, byref(given(data, *limits)), byref(alone), None) == result and alone.found() == entry.found()
    return result, entry.found(), problem.found()


def first_problem(data: bytes, table: bool = False, max_bytes: int = 2**32 - 1) -> tuple[int, int, int] | None:
    """The first thing that RabbitMQ doesn't accept, in the form of tests/model/tables.py, or nothing."""
    result, _, problem = read(data, RABBITMQ | UNTAGGED * table, max_bytes)
    return (problem[0], KINDS[result], problem[2]) if problem else None


def measure(data: bytes, *limits: int) -> tuple[int, Found, Found]:
    """The result, the size and the problem."""
    return read(data, *limits, call="measure", of=Size)


def peek(data: bytes, *limits: int) -> tuple[int, Found]:
    entry = Entry.fresh()
    return called("peek", byref(given(data, *limits)), byref(entry)), entry.found()


def is_canonical(data: bytes, *limits: int) -> int:
    return called("is_canonical", byref(given(data, *limits)))


def step(data: bytes, cursor: Any, flags: int = 0) -> tuple[int, Found, Found]:
    """The result, the entry, and the cursor after it."""
    entry = Entry.fresh()
    result = called("next", byref(given(data, flags)), byref(cursor), byref(entry))
    return result, entry.found(), cursor.found()


def find(data: bytes, start: Any, path: list[bytes | int | Any], flags: int = 0) -> tuple[int, Found]:
    """The result and the entry to which a path leads, of keys, of indexes, or of a step with another type tag."""
    entry, steps = Entry.fresh(), (Step * len(path))()
    _keys.put(b"".join(it for it in path if isinstance(it, bytes)))
    at = _keys.end - sum(len(it) for it in path if isinstance(it, bytes))
    for to, it in zip(steps, path):
        if isinstance(it, bytes):
            to.key, to.key_length, to.into = at, len(it), ord("F")
            at += len(it)
        elif isinstance(it, int):
            to.index, to.into = it, ord("A")
        else:
            to.into = ord(it)
    arguments = steps if path else None, c_size_t(len(path))
    result = called("find", byref(given(data, flags)), byref(start), *arguments, byref(entry))
    # (`entry` may be `from`)
    assert called("find", byref(given(data, flags)), byref(start), *arguments, byref(start)) == result
    found = entry.found()
    assert found is None or start.found() == found
    return result, found


def as_number(name: str, tag: str, bits: int) -> tuple[int, int | None]:
    """The result, and the number of an entry."""
    entry, number = Entry.fresh(), c_uint64(0x5A5A5A5A5A5A5A5A)
    entry.bits, entry.tag = bits, ord(tag)
    result = called(name, byref(entry), byref(number))
    if number.value == 0x5A5A5A5A5A5A5A5A:
        return result, None
    return result, number.value - 2**64 * (name == "as_int" and number.value >= 2**63)


def warn(data: bytes, flags: int, max_depth: int, frame_max: int, levels: int) -> tuple[int, dict[str, Any] | None]:
    """The result, and what is doubtful, by its name: an offset or None, of the frame a bool, and how much it is."""
    warnings: Any = Warnings.fresh()
    limits = byref(given(data, flags, MAX_BYTES, max_depth)), c_uint32(frame_max), c_uint32(levels)
    result = called("warn", *limits, byref(warnings))
    if warnings.found() is None:
        return result, None
    assert [*warnings.reserved] == [NOWHERE] * 4 and [*warnings.reserved_flags] == [0] * 7
    offsets = {it: getattr(warnings, it) for it in OFFSETS}
    exceeds = {"exceeds_frame": warnings.exceeds_frame == 1, "count": warnings.count}
    return result, {it: None if at == NOWHERE else at for it, at in offsets.items()} | exceeds


# Building, in a buffer of which all that isn't written is 33


class Buffer:
    """A buffer, and what is built in it."""

    def __init__(self, capacity: int) -> None:
        self.capacity = capacity
        _buffer.put(b"\x33" * capacity)

    def content(self) -> bytes:
        return _buffer.last(self.capacity)

    def call(self, name: str, into: Any, *arguments: Any) -> int:
        return called(
            name, ctypes.c_void_p(_buffer.end - self.capacity), c_size_t(self.capacity), byref(into), *arguments
        )

    def put(self, into: Any, key: bytes, tag: str, bits: int, scale: int = 0) -> int:
        return self.call("put", into, *_key(key), c_uint8(ord(tag)), c_uint64(bits), c_uint8(scale))

    def put_bytes(self, into: Any, key: bytes, tag: str, data: bytes) -> int:
        return self.call("put_bytes", into, *_key(key), c_uint8(ord(tag)), _given.put(data), c_size_t(len(data)))

    def put_value(self, into: Any, key: bytes, data: bytes, *limits: int) -> int:
        return self.call("put_value", into, *_key(key), byref(given(data, *limits)))

    def open(self, into: Any, key: bytes, tag: str, body: Any) -> int:
        return self.call("open", into, *_key(key), c_uint8(ord(tag)), byref(body))

    def close(self, into: Any, body: Any) -> int:
        return self.call("close", into, byref(body))


def _key(key: bytes) -> tuple[Any, Any]:
    return _keys.put(key), c_size_t(len(key))


# What is written to a buffer


def written(name: str, *arguments: Any, end: bytes = b"", most: int = 8 << 20) -> tuple[int, bytes | int]:
    """The result, and what a call writes before the bytes with which it ends, or the length that it sets."""
    buffer, length = Buffer(0), c_size_t(77)
    while True:
        at = ctypes.c_void_p(_buffer.end - buffer.capacity), c_size_t(buffer.capacity)
        result = called(name, *arguments[:3], *at, byref(length), *arguments[3:])
        if result != NO_ROOM or not buffer.capacity < length.value <= most:
            content = buffer.content()
            assert result != OK or content[length.value :].startswith(end)
            return result, content[: length.value] if result == OK else length.value
        buffer = Buffer(length.value)


def canonical(data: bytes, *limits: int) -> tuple[int, bytes | int]:
    return written("canonical", byref(given(data, *limits)))


def to_json(data: bytes, *limits: int) -> tuple[int, bytes | int]:
    """The result, and the text, after which there is a NUL, or the length that is set."""
    return written("to_json", byref(given(data, *limits)), end=b"\0")


def from_json(text: bytes, nesting: int = NESTING) -> tuple[int, bytes | int, Found]:
    """The result, the encoding or the length that is set, and the problem."""
    problem = Problem.fresh()
    arguments = "from_json", _given.put(text), c_size_t(len(text)), c_uint32(nesting)
    made = written(*arguments, byref(problem))
    assert written(*arguments, None) == made
    return *made, problem.found()


def version() -> int:
    return called("version")
