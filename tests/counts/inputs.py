"""`INPUTS` of counts.c, by name: a client's messages, tables of several sizes, and what makes calls hold memory."""

from collections.abc import Iterator
from typing import NamedTuple

from speed_inputs import Value, encoded, entries, every_type, message_headers, number, server_properties, text

from tests.model.encoding import field
from tests.model.inputs import nested

# How many entries the smallest table of a shape has. Tables of 16 KiB and more are built in another way, so all have that.
N = 2000
# How deep the smallest one nests: amqpv_from_json reads 127 levels, which are four times as many and the table around them.
LEVELS = 31

Pairs = list[tuple[str, Value]]


class Input(NamedTuple):
    """The encoding of a table, or JSON text: how large it is of its shape, or 0 if only memory is measured, and how deep."""

    shape: str
    given: bytes
    size: int = 0
    levels: int = 0

    def name(self) -> str:
        return f"{self.shape}, {self.size} n" if self.size else self.shape


def table_of(pairs: Pairs) -> bytes:
    """The table of these pairs in this order. Keys may be equal."""
    return field(b"F", b"".join(bytes([len(key)]) + key.encode() + encoded(it, False) for key, it in pairs))


def unordered(levels: int) -> bytes:
    """Tables in tables. Each is the last value of a key that comes twice, after a higher key."""
    value = b"V"
    for _ in range(levels):
        value = field(b"F", b"\1bV\1aV\1a" + value)
    return value


def messages() -> Iterator[tuple[str, Value]]:
    yield "every type", every_type()
    yield "message headers", message_headers()
    yield "server's properties", server_properties()


def flat(n: int) -> Iterator[tuple[str, Pairs]]:
    """Tables of n entries, or of as many bytes as these have."""
    pairs = list(entries(n).items())
    yield "entries in order", sorted(pairs, key=lambda it: it[0])
    yield "entries in reverse", sorted(pairs, key=lambda it: it[0], reverse=True)
    yield "entries at random", pairs
    yield "equal keys", [("key", value) for _, value in pairs]
    yield "long keys", [("k" * 249 + key[4:], value) for key, value in pairs[: n // 4]]
    yield "numbers", [("v", [number("I", it) for it in range(n)])]
    yield "a string", [("v", text("x" * 20 * n))]
    yield "a string of escapes", [("v", text("\x01" * 4 * n))]


def deep(levels: int) -> Iterator[tuple[str, Pairs]]:
    yield "arrays in arrays", [("v", nested("A", levels, b""))]
    yield "tables in tables", [("v", nested("F", levels, b"V", b"\1n"))]
    yield "unordered tables in tables", [("v", unordered(levels))]


def counted() -> Iterator[Input]:
    """The inputs of which everything is counted."""
    yield from (Input(name, encoded(value, False), 1) for name, value in messages())
    for size in (1, 2, 4):
        yield from (Input(name, table_of(pairs), size) for name, pairs in flat(size * N))
    for size in (1, 2, 4, 8, 16):
        yield from (Input(name, table_of(pairs), size, size * LEVELS) for name, pairs in deep(size * LEVELS))


# What isn't canonical, so that what follows isn't copied as it is.
ODD = b"t\7"
# A table whose keys don't ascend.
FALLING = field(b"F", b"\1aV\0V")
# What an array has again and again: tables of a pair, in each other too, and strings of few bytes.
ITEMS = {
    "tables of a pair": field(b"F", b"\0V"),
    "60 tables in each other": nested("F", 60, b"V", b"\0"),
    "strings": field(b"S", b"\0"),
}
# Texts of a hundred kilobytes. Of an array before a lower key a value is made, to sort the keys.
ZEROS, TABLES = ",".join("0" * 50_000), ",".join(['{"":0}'] * 14_000)
TEXTS = {
    "zeros before a lower key": f'{{"b":[{ZEROS}],"a":0}}',
    "arrays before a lower key": f'{{"b":[{",".join(["[0]"] * 25_000)}],"a":0}}',
    "tables before a lower key": f'{{"b":[{TABLES}],"a":0}}',
    "rejected, zeros": f"[{ZEROS},-0]",
}


def held() -> Iterator[Input]:
    """The inputs for which calls hold most memory. A buffer is largest just after it has grown, so there are several sizes."""
    for n in (1000, 1414, 2000, 2828, 4000, 30_000):
        for name, item in ITEMS.items():
            yield Input(f"{name}, {n} bytes", table_of([("v", field(b"A", ODD + item * (n // len(item))))]))
        zeros = field(b"S", bytes(n))
        yield Input(f"a string, {n} bytes", table_of([("v", field(b"A", ODD + zeros))]))
        yield Input(f"a string and falling keys, {n} bytes", table_of([("v", field(b"A", zeros + FALLING))]))
        keys = sorted(f"{it:x}" for it in range(n // 5))
        yield Input(f"short keys, {n} bytes", table_of([(it, b"V") for it in keys]))
        yield Input(f"short keys in reverse, {n} bytes", table_of([(it, b"V") for it in reversed(keys)]))
    yield from (Input(name, text.encode()) for name, text in TEXTS.items())


INPUTS = {it.name(): it for it in (*counted(), *held())}
