"""`inputs`: encodings of every kind, captured and damaged ones too, for other suites; `value_of` makes a random one."""

import json
import random
import struct
from collections.abc import Iterator, Sequence

from dependencies import TOP

from tests.model.encoding import TYPES, field

# Tables as brokers and clients sent them.
CAPTURED = TOP / "vectors/cases/real-world.json"
# The default limit of bytes.
FRAME = 2**20
LAST_DATE = 253402207200


def value_of(make: random.Random, depth: int) -> bytes:
    """An encoding of a value, of any type."""
    tag = make.choice("tbBsUuIilLfdDSxTVAF" if depth else "tbBsUuIilLfdDSxTV")
    width = TYPES[tag][1]
    if width is not None:
        return tag.encode() + make.randbytes(width)
    if tag in "Sx":
        escaped_ones = 'gr\u00fc\u00df \u202e\u0085"\\\x1b[31m'.encode()
        return field(tag.encode(), make.choice([b"", escaped_ones, make.randbytes(17)]))
    entries = [value_of(make, depth - 1) for _ in range(make.randrange(5))]
    return table_of(make, entries) if tag == "F" else field(b"A", b"".join(entries))


def table_of(make: random.Random, values: Sequence[bytes]) -> bytes:
    """A table of some values, at few keys."""
    keys = [make.choice([b"", b"a", b"b", b"$", b"a\x7f", "\u00e9".encode()]) for _ in values]
    return field(b"F", b"".join(bytes([len(key)]) + key + it for key, it in zip(keys, values)))


def nested(form: str, depth: int, inside: bytes, key: bytes = b"\1k") -> bytes:
    """An encoding of n containers, each in the one before, with the type tags of the form again and again."""
    parts, length = [inside], len(inside)
    for tag in reversed((form * depth)[:depth]):
        named = key if tag == "F" else b""
        parts.append(tag.encode() + struct.pack(">I", len(named) + length) + named)
        length += len(parts[-1])
    return b"".join(reversed(parts))


def numbers(make: random.Random) -> Iterator[bytes]:
    """Floats, Doubles and Timestamps at every edge, in arrays."""
    most_of_32, most_of_64 = 0x7F7FFFFF, (0x7FF << 52) - 1
    floats = [*range(0, 1 << 31, 1 << 23), *range(1, 1 << 31, 1 << 23), most_of_32]
    floats += [make.getrandbits(32) for _ in range(1000)]
    floats += [int.from_bytes(struct.pack(">f", 10.0**it), "big") for it in range(-38, 39)]
    doubles = [*range(0, 1 << 63, 1 << 52), *range(1, 1 << 63, 1 << 52), most_of_64]
    doubles += [make.getrandbits(64) for _ in range(1000)]
    doubles += [int.from_bytes(struct.pack(">d", -(10.0**it)), "big") for it in range(-323, 309)]
    times = [0, 951782400, 1735689600, 2**63 - 1, 2**63, 2**64 - 1]
    times += [LAST_DATE + it for it in (-1, 0, 1, 10**5)] + [make.randrange(LAST_DATE) for _ in range(100)]
    yield field(b"A", b"".join(b"f" + struct.pack(">I", it) for it in floats))
    yield field(b"A", b"".join(b"d" + struct.pack(">Q", it) for it in doubles))
    yield field(b"A", b"".join(b"T" + struct.pack(">Q", it) for it in times))


def damaged(make: random.Random, data: bytes) -> bytes:
    """The bytes with one of them another, one more or one less."""
    at = make.randrange(len(data))
    return make.choice([data[:at], data[:at] + make.randbytes(1) + data[at + 1 :], data[:at] + data[at + 1 :],
                        data[:at] + b"\xff" + data[at:]])  # fmt: skip


def captured() -> dict[str, bytes]:
    """The tables that were captured, by their ids, with their type tag."""
    return {it["id"]: b"F" + bytes.fromhex(it["bytes"]) for it in json.loads(CAPTURED.read_text())["cases"]}


def inputs() -> Iterator[bytes]:
    """Inputs of every kind: types, keys, strings, nesting, what was really sent, and damage to all of it."""
    make, tables = random.Random(9), [*captured().values()]
    yield from [b"", b"_", b"\0"]
    yield from (tag.encode() + it * 16 for tag in TYPES for it in (b"\0", b"\xff", b"\x80", b"\1"))
    for size in (0, 1, 17, 256, 65536, 70000):
        yield from (field(tag, make.randbytes(size)) for tag in (b"S", b"x"))
        yield field(b"S", b"\xc3\xa9" * (size // 2))
    for size in (0, 1, 40, 255):
        yield from (field(b"F", bytes([size]) + b"k" * size + it) for it in (b"V", b"t\7", b"z", b""))
    for count in (1, 2, 31, 32, 33, 200):
        yield from (nested(tag, count, inside) for tag in "AF" for inside in (b"V", b"z", b"I\0", b"A\0\0\0\0"))
    yield field(b"S", b"\7" * (FRAME - 5))
    yield field(b"S", b"\7" * (FRAME - 4))
    yield from (b"t\1" + b"\7" * size for size in (FRAME - 2, FRAME - 1, 3 * FRAME))
    yield from tables
    for table in sorted(tables, key=len)[-3:]:
        yield from (table[:size] for size in range(len(table)))
    values = [value_of(make, 3) for _ in range(400)]
    yield from values
    yield from (value + make.randbytes(3) for value in values[:50])
    for value in [*values, *tables * 10]:
        yield damaged(make, value)
    yield from numbers(make)
    for count in range(100):
        table = table_of(make, [value_of(make, 1) for _ in range(count % 10)])
        yield from (table, damaged(make, table), table_of(make, [table, b"V", table, b"V"]))
    keys = (b"\4%04x" % (it % 10000) for it in range(20000))
    yield field(b"F", b"".join(it + b"V" for it in keys))


def untagged() -> list[bytes]:
    """The tables among them without their type tag: also cut and damaged ones, and some that bytes follow."""
    return [it[1:] for it in inputs() if it[:1] == b"F"]
