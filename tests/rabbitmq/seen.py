"""Predicts what an application gets of a table by a Python client (`seen`), and what the client sends (`meant`).

It follows the model and each client's manual. With the adapters each version sees and means that; without them it does,
except for the rows of docs/PYTHON.md.
"""

import struct
from collections.abc import Iterator
from datetime import datetime, timedelta, timezone
from decimal import Decimal
from typing import Any, NamedTuple

from tests.model.encoding import SIGNED, TYPES, Value, is_utf8
from tests.model.rules import DEPTH as DEPTH
from tests.model.tables import decimal, float_of, number, text

EPOCH, LAST_SECOND = datetime(1970, 1, 1), 253402300799
UTC = timezone.utc
# A value by its type tag and content; of a table all its pairs.
Read = tuple[str, Any]


class Client(NamedTuple):
    """A version of a client, and what it does otherwise than the first."""

    name: str
    # whether datetimes that are read have a time zone, and whether times from 2^32 on are milliseconds
    is_aware: bool = False
    has_milliseconds: bool = False
    # the type tag of a number below -2^31
    negative: str = "l"
    # by itself: whether b and B are read with the right sign, and whether -128 to -1 are sent
    reads_signs: bool = False
    sends_small: bool = False


# By the distribution that has the codec, and its version.
VERSIONS = {
    "pika 1.2.0": Client("pika"),
    "pika 1.3.2": Client("pika", negative="L"),
    "pika 1.4.4": Client("pika", is_aware=True, reads_signs=True),
    "amqp 5.1.1": Client("pyamqp", negative="L"),
    "amqp 5.3.1": Client("pyamqp", negative="L"),
    "pamqp 3.2.1": Client("aiormq"),
    "pamqp 3.3.0": Client("aiormq", is_aware=True, has_milliseconds=True),
    "pamqp 4.0.0": Client("aiormq", is_aware=True, has_milliseconds=True, sends_small=True),
}


def meant(client: Client, value: Any) -> Value:
    """The value that a client means by one of Python."""
    if value is None or isinstance(value, bool):
        return ("V", b"") if value is None else number("t", value)
    if isinstance(value, int):
        return number(integer_tag(client, value), value)
    if isinstance(value, float):
        return float_of("d", value)
    if isinstance(value, Decimal):
        sign, digits, exponent = (value.normalize() if client.name == "pika" else value).as_tuple()
        scale, digit = max(-int(exponent), 0), int("".join(map(str, digits))) * 10 ** max(int(exponent), 0)
        return decimal(scale, (-digit if sign else digit) % 2**32)
    if isinstance(value, datetime):
        since = (value if value.tzinfo else value.replace(tzinfo=UTC)) - EPOCH.replace(tzinfo=UTC)
        return number("T", since // timedelta(seconds=1))
    if isinstance(value, str):
        return text(value)
    if isinstance(value, (bytes, bytearray)):
        # (by pika bytes are x, by the others a string)
        return "x" if client.name == "pika" or isinstance(value, bytearray) else "S", bytes(value)
    if isinstance(value, (list, tuple)):
        return "A", [meant(client, it) for it in value]
    # (pamqp sends keys ascending)
    entries = sorted(value.items()) if client.name == "aiormq" else value.items()
    return "F", {key.encode(): meant(client, it) for key, it in entries}


def integer_tag(client: Client, value: int) -> str:
    """The type of integer that a client sends for a number."""
    if client.name == "aiormq":
        ranges = {
            "b": (-(2**7), 2**7),
            "s": (-(2**15), 2**15),
            "u": (0, 2**16),
            "I": (-(2**31), 2**31),
            "i": (0, 2**32),
        }
        return next((tag for tag, (least, end) in ranges.items() if least <= value < end), "l")
    if client.name == "pika":
        return "I" if -(2**31) <= value < 2**31 else client.negative if value < 0 else "l"
    return "I" if -(2**31) < value < 2**31 else "L"


def sent_otherwise(client: Client, value: Any) -> str:
    """Why a client sends a value otherwise without the adapter, or not: a row of the page's table."""
    if isinstance(value, dict):
        long = [it for it in value if client.name == "aiormq" and len(it) > 128]
        return "long keys" if long else next(filter(None, (sent_otherwise(client, it) for it in value.values())), "")
    if isinstance(value, list):
        return next(filter(None, (sent_otherwise(client, it) for it in value)), "")
    kind = type(value)
    if client.name == "pika":
        return "floats" if kind is float else "types" if kind in (bytearray, tuple) else ""
    if client.name == "pyamqp":
        # (and decimals with an exponent above 0)
        return "types" if kind is bytearray else "decimals" if kind is Decimal and "E+" in str(value) else ""
    if kind is int:
        return "small negative" if -128 <= value < 0 and not client.sends_small else ""
    is_small = kind is Decimal and "E-" in str(value)
    return {float: "floats", bytes: "types", tuple: "types"}.get(kind, "decimals" if is_small else "")


def parsed(data: bytes, at: int = 0) -> tuple[Read, int]:
    """A value that is well-formed, with keys that are any bytes, and where it ends."""
    tag, width = chr(data[at]), TYPES[chr(data[at])][1]
    if width is not None:
        return (tag, data[at + 1 : at + 1 + width]), at + 1 + width
    at, end = at + 5, at + 5 + int.from_bytes(data[at + 1 : at + 5], "big")
    if tag in "Sx":
        return (tag, data[at:end]), end
    found: list[Any] = []
    while at < end:
        if tag == "F":
            key, at = data[at + 1 : at + 1 + data[at]], at + 1 + data[at]
        value, at = parsed(data, at)
        found.append((key, value) if tag == "F" else value)
    return (tag, found), end


class Shown(str):
    def __repr__(self) -> str:
        return str(self)


def integer(value: Read) -> int:
    return int.from_bytes(value[1], "big", signed=TYPES[value[0]][0] in SIGNED)


def seen(client: Client, value: Read) -> Any:
    """What an application gets for a value."""
    tag, content = value
    if tag == "A":
        return [seen(client, it) for it in content]
    if tag == "F":
        return {key_seen(client, key): seen(client, it) for key, it in content}
    if tag == "D":
        digits = int.from_bytes(content[1:], "big", signed=True)
        # (py-amqp drops zeros at the end)
        if client.name == "pyamqp":
            return Decimal(digits) / Decimal(10 ** content[0])
        return Decimal((int(digits < 0), tuple(map(int, str(abs(digits)))), -content[0]))
    if tag in "fd":
        return struct.unpack(f">{tag}", content)[0]
    if tag == "S":
        return content.decode() if is_utf8(content) else content
    if tag == "T":
        return time_seen(client, integer(value))
    if tag == "x":
        return bytearray(content) if client.name == "aiormq" else content
    return {"t": content != b"\0", "V": None}[tag] if tag in "tV" else integer(value)


def time_seen(client: Client, number: int) -> Any:
    """A datetime, or what comes of one after the year 9999."""
    if is_late(client, number):
        return Shown(f"Timestamp({number})")
    if client.has_milliseconds and number >= 2**32:
        # (of a float, as pamqp has it)
        return datetime.fromtimestamp(number / 1000.0, UTC)
    return (EPOCH.replace(tzinfo=UTC) if client.is_aware else EPOCH) + timedelta(seconds=number)


def is_late(client: Client, number: int) -> bool:
    """Whether a time is after the year 9999."""
    return (number // 1000 if client.has_milliseconds and number >= 2**32 else number) > LAST_SECOND


def key_seen(client: Client, key: bytes) -> str | bytes:
    return key if client.name == "pika" and not is_utf8(key) else key.decode(errors="surrogateescape")


def read_otherwise(client: Client, value: Read, levels: int = 0) -> Iterator[str]:
    """Why a client reads a value otherwise without the adapter, or not: rows of the page's table."""
    tag, content = value
    if tag in "AF":
        if levels == DEPTH:
            yield "depth"
        for it in content:
            if tag == "F" and client.name != "pika" and not is_utf8(it[0]):
                yield "keys"
            if levels < DEPTH:
                yield from read_otherwise(client, it[1] if tag == "F" else it, levels + 1)
    elif tag == "T" and is_late(client, integer(value)):
        yield "times"
    elif tag == "D" and client.name == "aiormq" and integer(("I", content[1:])) < 0:
        yield "decimals"
    elif tag == "S" and client.name == "pyamqp" and not is_utf8(content) and is_utf8_with_surrogates(content):
        yield "surrogates"
    elif tag in "bB" and client.name != "aiormq" and content[0] > 127 and not client.reads_signs:
        yield "b and B"
    elif tag == "s" and client.name == "pyamqp":
        yield "s"
    elif tag == "l" and (client.name == "pika" or client.name == "pyamqp" and integer(value) < 0):
        yield "l"
    elif client.name == "pika" and tag in "fdL":
        yield "l" if tag == "L" else "floats"


def is_utf8_with_surrogates(content: bytes) -> bool:
    try:
        content.decode(errors="surrogatepass")
    except UnicodeDecodeError:
        return False
    return True
