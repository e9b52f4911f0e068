"""What each profile makes of the bytes of a case, by readers of its own: `flags_of`, and `decision`.

The profiles are `amqp`, AMQP 0-9-1 as it is written, and `rabbitmq`, RabbitMQ's reading of it. It shares no code with tests/model,
and returns values as vectors/README.md has them in JSON.
"""

import json
import re
import struct
from typing import Any, NamedTuple

# What a profile decides about some bytes: "accept", "reject", "undecided", or a value that isn't the case's result.
Decision = str | dict[str, Any]


class Numbers(NamedTuple):
    """The integers of a type: their name in JSON, or none for a number without a name, their width, and their sign."""

    name: str
    width: int
    is_signed: bool


INTEGERS = {
    "b": Numbers("$ShortShortInt", 1, True), "B": Numbers("$ShortShortUInt", 1, False),
    "u": Numbers("$ShortUInt", 2, False), "I": Numbers("$LongInt", 4, True), "i": Numbers("$LongUInt", 4, False),
    "L": Numbers("", 8, True), "T": Numbers("$Timestamp", 8, False),
}  # fmt: skip
SHORT_INT, SIGNED_L, UNSIGNED_L = Numbers("$ShortInt", 2, True), Numbers("", 8, True), Numbers("", 8, False)
# The integers that the readings disagree on. Both is the reading of `result`, which takes every tag of either.
PROFILES = ("amqp", "rabbitmq")
BY_READING = {
    "amqp": INTEGERS | {"U": SHORT_INT, "l": UNSIGNED_L},
    "rabbitmq": INTEGERS | {"s": SHORT_INT, "l": SIGNED_L},
    "both": INTEGERS | {"U": SHORT_INT, "s": SHORT_INT, "l": SIGNED_L},
}
OTHERS = {"amqp": "tfdDsSAFV", "rabbitmq": "tfdDSxAFV", "both": "tfdDSxAFV"}
# The flag of a tag, and what leaves a profile undecided.
TAGS = {"s": "tag-s", "U": "tag-u-upper", "L": "tag-l-upper", "x": "tag-x"}
DOUBTS: dict[str, set[str]] = {
    "amqp": {
        "decimal-sign", "timestamp-sign", "key-name", "key-zero", "key-bytes", "repeated-key", "depth", "short-string",
    },
    "rabbitmq": {"nan", "infinity", "repeated-key", "depth"},
    "both": set(),
}  # fmt: skip
NAME = re.compile(rb"[A-Za-z$#][A-Za-z$#0-9_]{0,127}")
MOST_LEVELS, LAST_SECOND = 32, 253402300799
# The most bytes of a frame by RabbitMQ's default, which headers can't exceed.
FRAME = 131_072


class Rejected(Exception):
    """There is no value."""


class Reader:
    """Reads some bytes by one profile, and notes the flags of what it meets."""

    def __init__(self, data: bytes, reading: str) -> None:
        self.data, self.reading, self.at = data, reading, 0
        self.flags: set[str] = set()

    def take(self, count: int, end: int) -> bytes:
        if self.at + count > end:
            raise Rejected
        self.at += count
        return self.data[self.at - count : self.at]

    def length(self, end: int) -> int:
        """The end of what a length of four bytes counts, which is read."""
        count = int.from_bytes(self.take(4, end), "big")
        if self.at + count > end:
            raise Rejected
        return self.at + count

    def value(self, end: int, level: int) -> Any:
        tag = self.take(1, end).decode("latin-1")
        self.flags |= {TAGS[tag]} if tag in TAGS else set()
        if tag in BY_READING[self.reading]:
            return self.integer(tag, BY_READING[self.reading][tag], end)
        if tag not in OTHERS[self.reading]:
            raise Rejected
        if tag in "AF":
            return self.array(end, level + 1) if tag == "A" else self.table(end, level + 1)
        return self.scalar(tag, end)

    def scalar(self, tag: str, end: int) -> Any:
        if tag == "t":
            return self.take(1, end) != b"\0"
        if tag in "fd":
            return self.float(tag, self.take(4 if tag == "f" else 8, end))
        if tag == "D":
            scale, number = struct.unpack(">BI", self.take(5, end))
            self.flags |= {"decimal-sign"} if number >= 2**31 else set()
            return {"$DecimalValue": f"{number}e-{scale}"}
        if tag == "s":
            return self.short_string(end)
        if tag in "Sx":
            until = self.length(end)
            content = self.take(until - self.at, end)
            return {"$ByteArray": content.hex()} if tag == "x" else text(content)
        return None

    def short_string(self, end: int) -> Any:
        content = self.take(self.take(1, end)[0], end)
        self.flags |= {"short-string"} if b"\0" in content or not is_utf8(content) else set()
        return text(content)

    def integer(self, tag: str, kind: Numbers, end: int) -> Any:
        number = int.from_bytes(self.take(kind.width, end), "big", signed=kind.is_signed)
        if tag == "T":
            self.flags |= {"date-range"} if number > LAST_SECOND else set()
            self.flags |= {"timestamp-sign"} if number >= 2**63 else set()
        if tag == "l" and not 0 <= number < 2**63:
            self.flags.add("tag-l")
        return {kind.name: number} if kind.name else number

    def float(self, tag: str, bits: bytes) -> Any:
        (number,) = struct.unpack(f">{tag}", bits)
        if number != number or number in (float("inf"), float("-inf")):
            self.flags.add("nan" if number != number else "infinity")
        return {"$Float" if tag == "f" else "$Double": bits.hex()}

    def array(self, end: int, level: int) -> Any:
        self.flags |= {"depth"} if level > MOST_LEVELS else set()
        until, found = self.length(end), []
        while self.at < until:
            found.append(self.value(until, level))
        return found

    def table(self, end: int, level: int = 1) -> Any:
        self.flags |= {"depth"} if level > MOST_LEVELS else set()
        until, found = self.length(end), {}
        while self.at < until:
            key = self.take(self.take(1, until)[0], until)
            self.flags |= {"key-zero"} if b"\0" in key else set() if NAME.fullmatch(key) else {"key-name"}
            self.flags |= set() if is_utf8(key) else {"key-bytes"}
            self.flags |= {"repeated-key"} if key in found else set()
            found[key] = self.value(until, level)
        if all(is_utf8(it) for it in found):
            return {("$" if it[:1] == b"$" else "") + it.decode(): value for it, value in found.items()}
        return {"$FieldTable": {it.hex(): value for it, value in found.items()}}


def is_utf8(content: bytes) -> bool:
    try:
        return bool(content.decode()) or True
    except UnicodeDecodeError:
        return False


def text(content: bytes) -> Any:
    return content.decode() if is_utf8(content) else {"$LongString": content.hex()}


class Read(NamedTuple):
    """A value, if there is one, how many bytes it has, and the flags of what was met."""

    is_read: bool
    value: Any
    size: int
    flags: set[str]


def read(data: bytes, is_table: bool, reading: str) -> Read:
    reader = Reader(data, reading)
    try:
        value = reader.table(len(data)) if is_table else reader.value(len(data), 0)
    except Rejected:
        return Read(False, None, 0, reader.flags)
    return Read(True, value, reader.at, reader.flags)


def flags_of(data: bytes, is_table: bool, rest: int) -> list[str]:
    """The flags of a case: what its bytes have, up to the first problem, and whether bytes follow."""
    found = read(data, is_table, "both").flags
    return sorted(found | ({"trailing"} if rest else set()) | ({"large"} if len(data) > FRAME else set()))


def decision(data: bytes, is_table: bool, rest: int, profile: str, result: object) -> Decision:
    """What a profile decides about a case; `result` is the JSON of its value, if it has one.

    A value of another length than the result's is undecided: it depends on whether a codec reads values or tables.
    """
    size = len(data) - rest
    whole, alone = read(data, is_table, profile), read(data[:size], is_table, profile)
    if not whole.is_read and not alone.is_read:
        return "reject"
    if not alone.is_read or alone.size != size or alone.flags & DOUBTS[profile]:
        return "undecided"
    return "accept" if same(alone.value, result) else {"value": alone.value}


def same(one: object, other: object) -> bool:
    """Whether two values are the same in JSON."""
    return json.dumps(one, sort_keys=True) == json.dumps(other, sort_keys=True)
