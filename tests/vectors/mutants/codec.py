"""A codec of field tables, which test_mutants.py edits: each edit that `readers` and `writers` have must fail a case.

It is an adapter of vectors/run.py, reads by the profile that PROFILE names, and imports nothing else of this repository.
"""

import struct
from decimal import Decimal
from typing import Any

PROFILE = "rabbitmq"
# The type tags of numbers, and how struct calls their payloads.
NUMBERS = {
    "b": ">b", "B": ">B", "s": ">h", "U": ">h", "u": ">H", "I": ">i", "i": ">I",
    "l": ">q", "L": ">q", "T": ">Q", "f": ">f", "d": ">d",
}  # fmt: skip
# The types that have a name in JSON.
NAMES = {
    "$ShortShortInt": "b", "$ShortShortUInt": "B", "$ShortInt": "s", "$ShortUInt": "u", "$LongInt": "I", "$LongUInt": "i",
    "$Timestamp": "T", "$Float": "f", "$Double": "d", "$LongString": "S", "$ByteArray": "x",
}  # fmt: skip


class Cut(Exception):
    """By how many bytes a field goes past the end."""


class Wrong(Exception):
    """What is wrong, and at which offset."""


class Reader:
    def __init__(self, data: bytes) -> None:
        self.data, self.at = data, 0

    def field(self, count: int, end: int) -> bytes:
        """The next bytes, which are before the end of what they are in."""
        if self.at + count > end:
            raise Cut(self.at + count - end)
        self.at += count
        return self.data[self.at - count : self.at]

    def stop(self, tag: str, end: int) -> int:
        """Where the bytes end that a length counts."""
        count = int.from_bytes(self.field(4, end), "big")
        if self.at + count > end:
            raise Cut(self.at + count - end)
        return self.at + count

    def value(self, end: int, level: int) -> Any:
        at, tag = self.at, self.field(1, end).decode("latin-1")
        if (tag, PROFILE) in (("x", "amqp"), ("U", "rabbitmq")):
            raise Wrong("unknown tag", at)
        if (tag, PROFILE) == ("s", "amqp"):
            return self.field(ord(self.field(1, end)), end)
        if tag in NUMBERS:
            form = ">Q" if (tag, PROFILE) == ("l", "amqp") else NUMBERS[tag]
            (number,) = struct.unpack(form, self.field(struct.calcsize(form), end))
            return number
        match tag:
            case "V":
                return None
            case "t":
                return self.field(1, end)[0] != 0
            case "D":
                scale, units = self.field(1, end)[0], int.from_bytes(self.field(4, end), "big")
                return Decimal((0, [*map(int, str(units))], -scale))
            case "S" | "x":
                stop = self.stop(tag, end)
                return self.field(stop - self.at, stop)
            case "A":
                return self.array(self.stop(tag, end), level)
            case "F":
                return self.table(self.stop(tag, end), level)
        raise Wrong("unknown tag", at)

    def array(self, end: int, level: int) -> list[Any]:
        found = []
        while self.at < end:
            found.append(self.member(end, level))
        return found

    def table(self, end: int, level: int) -> dict[bytes, Any]:
        found = {}
        while self.at < end:
            key = self.key(end)
            found[key] = self.member(end, level)
        return found

    def key(self, end: int) -> bytes:
        at = self.at
        try:
            return self.field(self.field(1, end)[0], end)
        except Cut:
            raise Wrong("key cut", at) from None

    def member(self, end: int, level: int) -> Any:
        at = self.at
        try:
            return self.value(end, level + 1)
        except Cut:
            raise Wrong("value cut", at) from None


def read(data: bytes, is_table: bool) -> dict[str, Any]:
    it = Reader(data)
    try:
        value = it.table(it.stop("", len(data)), 1) if is_table else it.value(len(data), 0)
        return {"value": value, "rest": len(data) - it.at}
    except Cut as why:
        return {"missing": why.args[0]}
    except Wrong as why:
        return dict(zip(("error", "offset"), why.args))


def decode(data: bytes) -> Any:
    found = read(data, True)
    if found.get("rest") != 0:
        raise ValueError(found)
    return found["value"]


def counted(tag: bytes, data: bytes) -> bytes:
    return tag + struct.pack(">I", len(data)) + data


def write(value: Any) -> bytes:
    """A table's bytes without its type tag; struct.error, OverflowError or ValueError if it can't be written."""
    pairs = sorted((key.removeprefix("$").encode(), written(it)) for key, it in value.items())
    return counted(b"", b"".join(bytes([len(key)]) + key + it for key, it in pairs))


def written(value: Any) -> bytes:
    match value:
        case None | bool():
            return b"V" if value is None else b"t" + bytes([value])
        case int():
            return b"l" + struct.pack(">q", value)
        case str():
            return counted(b"S", value.encode())
        case list():
            return counted(b"A", b"".join(map(written, value)))
        case {"$DecimalValue": str(text)}:
            return b"D" + struct.pack(">BI", *map(int, reversed(text.split("e-"))))
    name, content = next(iter(value.items()), ("", ""))
    tag = NAMES.get(name, "F")
    if tag == "F":
        return b"F" + write(value)
    if isinstance(content, int):
        return tag.encode() + struct.pack(NUMBERS[tag], content)
    return counted(tag.encode(), bytes.fromhex(content)) if tag in "Sx" else tag.encode() + bytes.fromhex(content)
