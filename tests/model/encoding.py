"""`read` and `write` of the model: the value that bytes encode, and its canonical encoding, by docs/GRAMMAR.md.

It shares nothing with the crates.
"""

import struct
from typing import Any

from tests.model import json_format

# Each type tag's type, and the width of its payload, or None if a length counts it.
TYPES: dict[str, tuple[str, int | None]] = {
    "t": ("Boolean", 1), "b": ("ShortShortInt", 1), "B": ("ShortShortUInt", 1), "s": ("ShortInt", 2),
    "U": ("ShortInt", 2), "u": ("ShortUInt", 2), "I": ("LongInt", 4), "i": ("LongUInt", 4), "l": ("LongLongInt", 8),
    "L": ("LongLongInt", 8), "f": ("Float", 4), "d": ("Double", 8), "D": ("DecimalValue", 5), "S": ("LongString", None),
    "x": ("ByteArray", None), "A": ("FieldArray", None), "F": ("FieldTable", None), "T": ("Timestamp", 8),
    "V": ("Void", 0),
}  # fmt: skip
# The tags that are written as another.
ALTERNATE = {"U": "s", "L": "l"}
SIGNED = ("ShortShortInt", "ShortInt", "LongInt", "LongLongInt")
# The types with a length before their content.
COUNTED = "SxAF"


def extent(data: bytes) -> int:
    """How many bytes the value at the start has at least."""
    if not data or chr(data[0]) not in TYPES:
        return 0
    width = TYPES[chr(data[0])][1]
    if width is not None:
        return 1 + width
    return 5 + int.from_bytes(data[1:5], "big") if len(data) >= 5 else 5


def lack(data: bytes) -> int:
    """How many more bytes the field needs that is being read: the type tag, or a field of the payload."""
    return 1 if data in (b"", b"D") else max(0, extent(data) - len(data))


# Values

Value = json_format.Value


class Unread(Exception):
    """Why there is no value, as amqp_wire prints it, or nothing."""


def read(data: bytes, table: type = dict) -> tuple[Value, bytes]:
    """Returns the value at the start of some bytes, and what is left after it. A table may be a list of its pairs instead."""
    if needs := lack(data):
        raise Unread(f"more {needs}")
    tag, end = chr(data[0]), extent(data)
    if tag not in TYPES:
        raise Unread("refused MapOpt")
    content: Any = data[5 if tag in COUNTED else 1 : end]
    if tag == "t":
        content = bytes([content != b"\0"])
    try:
        content = items(content, table) if tag == "A" else entries(content, table) if tag == "F" else content
    except (Unread, UnicodeDecodeError):
        raise Unread("refused Eof") from None
    return (ALTERNATE.get(tag, tag), content), data[end:]


def items(body: bytes, table: type) -> list[Value]:
    found = []
    while body:
        value, body = read(body, table)
        found.append(value)
    return found


def entries(body: bytes, table: type) -> Any:
    found = []
    while body:
        key, body = body[: 1 + body[0]], body[1 + body[0] :]
        if len(key) <= key[0]:
            raise Unread("cut")
        key[1:].decode("utf-8")
        value, body = read(body, table)
        found.append((key[1:], value))
    # (of equal keys a dict keeps the last value)
    return table(found)


def json_of_encoding(data: bytes) -> str:
    """The JSON text of the encoding at the start of some bytes."""
    return json_format.json_of(read(data, list)[0])


def write(value: Value) -> bytes:
    """The bytes of a value."""
    tag, content = value
    if tag == "A":
        content = b"".join(map(write, content))
    if tag == "F":
        content = b"".join(bytes([len(key)]) + key + write(it) for key, it in sorted(content.items()))
    return encoded(tag, content)


def encoded(tag: str, payload: bytes) -> bytes:
    """An encoding: the type tag, the length of what a length counts, and the payload."""
    return field(tag.encode(), payload) if tag in COUNTED else tag.encode() + payload


def field(tag: bytes, body: bytes) -> bytes:
    return tag + struct.pack(">I", len(body)) + body


def is_utf8(key: bytes) -> bool:
    try:
        key.decode("utf-8")
    except UnicodeDecodeError:
        return False
    return True
