"""Tables to send to a broker (`random_table`, `odd_table`), and what each `Version` of RabbitMQ will make of them."""

import struct
from collections.abc import Callable, Iterable, Iterator
from fractions import Fraction
from random import Random
from typing import Any, NamedTuple

from tests.model.encoding import COUNTED, SIGNED, TYPES, Unread, Value, encoded, extent, field, is_utf8, read
from tests.model.rules import CUT, DEPTH, KEY_CUT, UNKNOWN_TAG, failure_of

PLAIN = "tbBsuIilfdDSxTV"
INTEGERS = "bBsuIil"
# How RabbitMQ calls each type in Erlang.
ERLANG = {
    "t": "bool", "b": "byte", "B": "unsignedbyte", "s": "short", "u": "unsignedshort", "I": "signedint",
    "i": "unsignedint", "l": "long", "f": "float", "d": "double", "D": "decimal", "S": "longstr", "x": "binary",
    "A": "array", "F": "table", "T": "timestamp", "V": "void",
}  # fmt: skip
# Of keys; with no capitals of ASCII none is CC or BCC, which the broker takes for names of queues.
LETTERS = "abcdefghijklmnopqrstuvwxyz0123456789-_. ÄÖäöüßéñλΩж漢字🐇"


# Values


def width_of(tag: str) -> int:
    """How many bytes a payload of a type has that no length counts."""
    width = TYPES[tag][1]
    assert width is not None, tag
    return width


def number(tag: str, value: int) -> Value:
    """A value of an integer type, a Boolean or a Timestamp."""
    return tag, value.to_bytes(width_of(tag), "big", signed=TYPES[tag][0] in SIGNED)


def float_of(tag: str, value: float) -> Value:
    return tag, struct.pack(f">{tag}", value)


def decimal(scale: int, value: int) -> Value:
    return "D", struct.pack(">BI", scale, value)


def text(value: str) -> Value:
    return "S", value.encode()


def table(**entries: Value) -> Value:
    """A table of these entries; `_` in a name is `-` in its key."""
    return "F", {key.replace("_", "-").encode(): value for key, value in entries.items()}


def integer_of(value: Value) -> int:
    """The number of an integer, or of a Timestamp."""
    return int.from_bytes(value[1], "big", signed=TYPES[value[0]][0] in SIGNED)


# A value of every type, and both kinds of container inside each other.
EVERY_TYPE = table(
    boolean=number("t", 1), byte=number("b", -2), unsigned_byte=number("B", 254), short=number("s", -300),
    unsigned_short=number("u", 65000), int=number("I", -70000), unsigned_int=number("i", 4 * 10**9),
    long=number("l", -(2**40)), float=float_of("f", 1.5), double=float_of("d", -0.25), decimal=decimal(2, 314),
    text=text("grüß 漢"), bytes=("x", b"\0\xff"), time=number("T", 1_800_000_000), nothing=("V", b""),
    list=("A", [number("I", 1), table(inner=("A", []))]), table=table(z=text(""), a=table()),
)  # fmt: skip


def random_value(make: Random, depth: int) -> Value:
    """A value of any type; numbers are finite."""
    tag = make.choice(PLAIN + "AF" * 2 if depth else PLAIN)
    if tag == "A":
        return tag, [random_value(make, depth - 1) for _ in range(make.randrange(5))]
    if tag == "F":
        return random_table(make, depth - 1)
    if tag in "Sx":
        return tag, make.choice([b"", random_key(make), make.randbytes(make.randrange(40))])
    if tag == "t":
        return tag, make.choice([b"\0", b"\1"])
    width = width_of(tag)
    edges = [b"\0" * width, b"\x80" + b"\0" * width, b"\x7f" + b"\xff" * width, b"\xff" * width]
    content = make.choice([*edges, make.randbytes(width)])[:width]
    return random_value(make, depth) if oddity_of(tag, content) else (tag, content)


def random_table(make: Random, depth: int = 3) -> Value:
    return "F", {random_key(make): random_value(make, depth) for _ in range(make.choice([0, 1, 2, 3, 5, 8]))}


def random_key(make: Random) -> bytes:
    """UTF-8 of at most 255 bytes."""
    if make.random() < 0.02:
        return make.choice([b"", b"k" * 255, "漢".encode() * 85])
    return "".join(make.choice(LETTERS) for _ in range(make.randrange(1, 12))).encode()


def types_in(value: Value) -> Iterator[str]:
    """The type tag of a value, and of each in it."""
    tag, content = value
    yield tag
    for it in content.values() if tag == "F" else content if tag == "A" else ():
        yield from types_in(it)


def oddity_of(tag: str, content: bytes) -> str:
    """Whether it is a NaN or an infinity, in which case RabbitMQ takes it for no number."""
    if tag not in "fd":
        return ""
    (found,) = struct.unpack(f">{tag}", content)
    return "NaN" if found != found else "infinity" if abs(found) == float("inf") else ""


# What RabbitMQ makes of them


# The offset, the kind, and the tag if that is unknown.
Problem = tuple[int, int, int]
ROWS = ["U", "unknown tag", "NaN f", "NaN d", "infinity f", "infinity d", "value cut", "key cut"]


def first_problem(data: bytes, rules: str = "RabbitMQ", depth: int = DEPTH) -> Problem | None:
    """The first thing in a value that the rules don't allow: offset, kind and unknown tag, or None."""
    if not (found := failure_of(data, rules, depth)):
        return None
    at, kind, _ = found
    return at, kind, data[at] if kind == UNKNOWN_TAG else 0


def row_of(data: bytes, problem: Problem) -> str:
    """The row of ROWS that a problem is of."""
    at, kind, tag = problem
    if kind == UNKNOWN_TAG:
        return "U" if tag == ord("U") else "unknown tag"
    if kind in (CUT, KEY_CUT):
        return "value cut" if kind == CUT else "key cut"
    type_tag = chr(data[at])
    return f"{oddity_of(type_tag, data[at + 1 : at + 1 + width_of(type_tag)])} {type_tag}"


def container_of(data: bytes) -> str:
    """The type tag of the container that the first problem is in."""
    _, _, inside = failure_of(data) or (0, 0, "")
    return inside


def is_read(data: bytes) -> bool:
    """Whether some bytes are one value here."""
    try:
        return not read(data)[1]
    except Unread:
        return False


class Version(NamedTuple):
    """What a version of RabbitMQ does with the tables that it accepts."""

    # whether it writes all headers anew, with their keys in order and each of them once
    rewrites: bool
    # of a repeated header, the index of the one by which a headers exchange routes
    routes_by: int
    # of a repeated argument of a binding, those that x-match: any compares
    compares: slice
    # whether a headers exchange compares all numbers by value; if not, no float is equal to an integer nor 0.0 to -0.0, and
    # a header that is a Timestamp to nothing
    compares_all_numbers: bool
    # the headers that dead-lettering adds, and whether it counts on from those that a client sent
    deaths: tuple[bytes, ...]
    counts_on: bool
    # what x-delivery-count is at the first delivery from a quorum queue
    first_delivery: Value | None
    # the arguments of a queue that names no type
    queue: dict[bytes, Value]
    # whether a stream keeps arrays and tables under CC and under keys that begin with x-, and what it drops in spite of that
    stream_keeps: bool
    stream_drops: tuple[bytes, ...]
    # the type tag of a Byte Array in a stream, and whether an x-stream-filter-value has to be text there
    stream_bytes: bytes
    stream_filters: bool
    # how often a queue of a type, and with a delivery limit, delivers a message that fails; None if for ever
    deliveries: dict[str, int | None]


FIRST_DEATHS = (b"x-death", b"x-first-death-exchange", b"x-first-death-queue", b"x-first-death-reason")
LAST_DEATHS = (b"x-last-death-exchange", b"x-last-death-queue", b"x-last-death-reason")
VERSIONS = {
    "3.10.8": Version(
        rewrites=False, routes_by=0, compares=slice(1), compares_all_numbers=True, deaths=FIRST_DEATHS, counts_on=True,
        first_delivery=number("l", 0), queue={},
        stream_keeps=False, stream_drops=(), stream_bytes=b"x", stream_filters=False,
        deliveries={"classic": None, "quorum": None, "quorum -1": 1, "quorum 2": 3},
    ),
    "4.0.5": Version(
        rewrites=True, routes_by=-1, compares=slice(None), compares_all_numbers=False,
        deaths=FIRST_DEATHS + LAST_DEATHS, counts_on=False, first_delivery=None,
        queue={b"x-queue-type": text("classic")},
        stream_keeps=True, stream_drops=(b"x-death",), stream_bytes=b"S", stream_filters=True,
        deliveries={"classic": None, "quorum": 21, "quorum -1": None, "quorum 2": 3},
    ),
}  # fmt: skip


def rewritten(data: bytes) -> bytes:
    """A value as RabbitMQ writes it: `L` as `l`, and every true as 1."""
    return changed(data, lambda it: b"l" + it[1:] if it[:1] == b"L" else b"t\1" if it[:1] == b"t" and it[1] else it)


def changed(data: bytes, of_other: Callable[[bytes], bytes]) -> bytes:
    """A value of which all that is no container is changed."""
    tag = data[:1]
    if tag in (b"A", b"F"):
        return field(tag, b"".join(key + changed(it, of_other) for key, it in parts(data)))
    return of_other(data)


def parts(data: bytes) -> Iterator[tuple[bytes, bytes]]:
    """What a container has: keys with their length, or in an array nothing, and encodings."""
    at = 5
    while at < len(data):
        begin = at + (1 + data[at] if data[:1] == b"F" else 0)
        end = begin + extent(data[begin : begin + 5])
        yield data[at:begin], data[begin:end]
        at = end


def in_order(version: str, pairs: Iterable[tuple[bytes, bytes]]) -> bytes:
    """A table of some pairs, with its keys in order, and in some versions each of them once."""
    found = sorted(pairs, key=lambda it: it[0][1:])
    if VERSIONS[version].rewrites:
        # (of a repeated key the first is the last to be put here)
        found = sorted({key: it for key, it in reversed(found)}.items(), key=lambda it: it[0][1:])
    return field(b"F", b"".join(key + it for key, it in found))


def sorted_by_key(version: str, data: bytes) -> bytes:
    """A table as it is dead-lettered, without what is added."""
    return in_order(version, parts(rewritten(data)))


def delivered(version: str, data: bytes) -> bytes:
    """The headers that a classic queue delivers, if the broker adds nothing to those that are published."""
    return sorted_by_key(version, data) if VERSIONS[version].rewrites else data


def streamed(version: str, data: bytes) -> bytes | None:
    """The headers that a stream delivers, or None if the broker closes the connection for those that are published."""
    rules, found = VERSIONS[version], [*parts(rewritten(data))]
    kept = [(key, it) for key, it in found if it[:1] not in (b"A", b"F") or rules.stream_keeps and is_kept(key[1:])]
    filters = [it for key, it in found if key[1:] == b"x-stream-filter-value"]
    if any(has_decimal(it) for _, it in kept) or rules.stream_filters and not all(map(is_filter, filters[:1])):
        return None
    left = [(key, in_stream(it, rules.stream_bytes)) for key, it in kept if key[1:] not in rules.stream_drops]
    return in_order(version, left)


def is_kept(key: bytes) -> bool:
    """Whether a stream may keep the array or the table at a key."""
    return key.startswith(b"x-") or key == b"CC"


def is_filter(data: bytes) -> bool:
    """Whether a value is one that a stream may filter by."""
    return data[:1] == b"S" and len(data) <= 5 + 4096 and is_utf8(data[5:]) and b"\0" not in data[5:]


def in_stream(data: bytes, bytes_tag: bytes) -> bytes:
    """A value as a stream stores it: Byte Arrays may become strings, and of a Timestamp in milliseconds 64 bits are kept."""

    def of_other(it: bytes) -> bytes:
        if it[:1] == b"T":
            milliseconds = (integer_of(("l", it[1:])) * 1000 + 2**63) % 2**64 - 2**63
            return b"T" + int(Fraction(milliseconds, 1000)).to_bytes(8, "big", signed=True)
        return bytes_tag + it[1:] if it[:1] == b"x" else it

    return changed(data, of_other)


def has_decimal(data: bytes) -> bool:
    """Whether a value is a decimal, or has one in it."""
    return data[:1] == b"D" or data[:1] in (b"A", b"F") and any(has_decimal(it) for _, it in parts(data))


def term(value: Value, all_numbers: bool) -> tuple[str, Any]:
    """What RabbitMQ compares of a value: numbers by value, strings by their bytes, what is nested with its types."""
    tag, content = value
    if tag in INTEGERS or tag == "T":
        return "number", Fraction(integer_of(value))
    if tag in "fd":
        (found,) = struct.unpack(f">{tag}", content)
        return ("number", Fraction(found)) if all_numbers else ("float", struct.pack(">d", found))
    if tag == "A":
        return "list", [(it[0], term(it, all_numbers)) for it in content]
    if tag == "F":
        return "list", [(key, it[0], term(it, all_numbers)) for key, it in content.items()]
    return "string" if tag in "Sx" else tag, content


def matches(version: str, argument: Value, header: Value) -> bool:
    """Whether the argument of a binding to a headers exchange matches a header."""
    if argument[0] == "V":
        return True
    all_numbers = VERSIONS[version].compares_all_numbers
    return (all_numbers or header[0] != "T") and term(argument, all_numbers) == term(header, all_numbers)


def erlang(value: Value) -> str:
    """A value as Erlang prints it by ~w."""
    tag, content = value
    if tag in "Sx":
        return binary(content)
    if tag == "A":
        return "[" + ",".join(f"{{{ERLANG[it[0]]},{erlang(it)}}}" for it in content) + "]"
    if tag == "F":
        return "[" + ",".join(f"{{{binary(key)},{ERLANG[it[0]]},{erlang(it)}}}" for key, it in content.items()) + "]"
    if tag in "fd":
        return repr(struct.unpack(f">{tag}", content)[0])
    if tag == "D":
        return f"{{{content[0]},{int.from_bytes(content[1:], 'big')}}}"
    return {"t": "true" if content == b"\1" else "false", "V": "undefined"}.get(tag) or str(integer_of(value))


def binary(data: bytes) -> str:
    return f"<<{','.join(map(str, data))}>>"


# Bytes that are odd

NAN = [bytes.fromhex(f"66{it}") for it in ("7fc00000", "ffc00000", "7f800001", "7fffffff")]
NAN += [bytes.fromhex(f"64{it}") for it in ("7ff8000000000000", "fff0000000000001", "7fffffffffffffff")]
INFINITY = [bytes.fromhex(it) for it in ("667f800000", "66ff800000", "647ff0000000000000", "64fff0000000000000")]
NO_TAG = [b"\0", b"_\1a", b"z", b"\xff", b"n\0"]
CUT_VALUES = [field(b"A", it) for it in (b"VI\0\0\0", b"S\0\0\0\5four", b"F\0\0")]
CUT_VALUES += [field(b"F", it) for it in (b"\1aI\0", b"\1a", b"\1ax\0\0\0\1")]
CUT_KEYS = [field(b"F", b"\1aV\5four"), field(b"F", b"\xff"), field(b"F", b"\2a")]
# What is odd and taken: other bytes for true, the alternate tag L, keys that aren't UTF-8, equal keys.
TAKEN = [b"t\7", b"t\xff", b"L" + b"\xff" * 8, b"L" + b"\0" * 8]
TAKEN += [field(b"F", b"\2\xff\xfeV"), field(b"F", b"\1aV\1aI\0\0\0\1")]


def odd_table(make: Random) -> bytes:
    """A table with something odd or cut somewhere in it, or one of its bytes changed, or none of these."""
    kinds = [NAN, INFINITY, [b"U\xff\xfe"], NO_TAG, CUT_VALUES, CUT_KEYS, *[TAKEN] * 5]
    kind = make.randrange(len(kinds) + 3)
    value = make.choice(kinds[kind]) if kind < len(kinds) else raw(random_value(make, 1))
    for _ in range(make.randrange(3)):
        value = contained(make, make.choice("AF"), value)
    data = contained(make, "F", value)
    if kind == len(kinds):
        at = make.randrange(5, len(data))
        change = make.choice([data[:at], data[:at] + make.randbytes(1) + data[at + 1 :], data[:at] + data[at + 1 :]])
        data = field(b"F", change[5:])
    return data


# What is changed: any byte, one of a kind of parts, or the end; or bytes are put in between.
CHANGES = ("byte", "tag", "length", "key length", "cut", "extended")


def mutated_table(make: Random, change: str) -> bytes:
    """A table with at least one entry that is changed in one place, which may be its length."""
    data = raw(("F", {random_key(make): random_value(make, 2), **random_table(make)[1]}))
    if change in ("cut", "extended"):
        at = make.choice([make.randrange(1, len(data)), len(data) - (change == "cut")])
        added, rest = (b"", b"") if change == "cut" else (make.randbytes(make.randrange(1, 9)), data[at:])
        data = data[:at] + added + rest
        # its length counts what is there, or what was
        return field(b"F", data[5:]) if make.random() < 0.5 else data
    places = [place for kind, place in [*places_of(data)][1:] if place and change in ("byte", kind)]
    if not places:
        return mutated_table(make, change)
    at = make.choice(make.choice(places))
    other = ord(make.choice([*TYPES])) if change == "tag" else data[at] + make.choice([1, -1, make.randrange(1, 256)])
    return data[:at] + bytes([other % 256]) + data[at + 1 :]


def places_of(data: bytes, at: int = 0) -> Iterator[tuple[str, range]]:
    """What is where in the value at an offset, in order."""
    tag, end = chr(data[at]), at + extent(data[at : at + 5])
    begin = at + (5 if tag in COUNTED else 1)
    yield from (("tag", range(at, at + 1)), ("length", range(at + 1, begin)))
    if tag not in "AF":
        yield "payload", range(begin, end)
        return
    while begin < end:
        if tag == "F":
            key = begin + 1
            begin = key + data[begin]
            yield from (("key length", range(key - 1, key)), ("key", range(key, begin)))
        yield from places_of(data, begin)
        begin += extent(data[begin : begin + 5])


def contained(make: Random, tag: str, value: bytes) -> bytes:
    """A container with a value among others."""
    values = [raw(random_value(make, 1)) for _ in range(make.randrange(3))]
    values.insert(make.randrange(len(values) + 1), value)
    if tag == "A":
        return field(b"A", b"".join(values))
    keys = [random_key(make) for _ in values]
    return field(b"F", b"".join(bytes([len(key)]) + key + it for key, it in zip(keys, values)))


def raw(value: Value) -> bytes:
    """The bytes of a value, with the keys of tables in their order."""
    tag, content = value
    if tag == "A":
        content = b"".join(map(raw, content))
    if tag == "F":
        content = b"".join(bytes([len(key)]) + key + raw(it) for key, it in content.items())
    return encoded(tag, content)
