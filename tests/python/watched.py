"""Reads mutated tables and writes hostile objects by the package, in an interpreter that watches memory or references.

test_watched.py runs it: python3 -m tests.python.watched WHAT PACKAGE SEED COUNT

WHAT is `mutated`, which reads COUNT tables that are damaged, and writes what is read and a tenth as many hostile objects; or
`references`, which does some of both again and again, and prints how many references more there are after a round, by
sys.gettotalrefcount of Python's debug build. PACKAGE is the folder that the package is in. The codecs of adapters do the same.
No exception comes but those that are documented.
"""

import gc
import sys
from collections.abc import Callable
from random import Random
from typing import Any

if __name__ == "__main__":
    sys.path.insert(0, sys.argv[2])
    if sys.argv[1] == "references":
        # (Debian has no debug build of it, so what it releases isn't counted: Python's own takes its place)
        sys.modules["_decimal"] = None  # type: ignore[assignment]

import amqp_values as own  # noqa: E402

from tests.model.inputs import damaged, value_of  # noqa: E402
from tests.model.tables import odd_table, random_table, raw  # noqa: E402
from tests.python.codecs import CODECS  # noqa: E402
from tests.python.hostile import DOCUMENTED, made  # noqa: E402

OPTIONS: list[dict[str, Any]] = [
    {},
    {"text": "bytes"},
    {"plain": True, "text": "surrogateescape", "keys": "surrogateescape"},
    {"keys": "bytes", "text": "bytes", "equal_keys": "first", "signed_decimals": True},
    {"finite": True, "text": "bytes", "depth": 3, "max_bytes": 200},
    {"equal_keys": "refuse", "text": "bytes", "keys": "bytes"},
]


def table_of_bytes(make: Random) -> bytes:
    """A table with its type tag that may be damaged, more than once."""
    kind = make.randrange(3)
    data = raw(random_table(make)) if kind == 0 else odd_table(make) if kind == 1 else value_of(make, 3)
    while data and make.random() < 0.6:
        data = damaged(make, data)
    return data


def quietly(call: Callable[[], Any], documented: tuple[type[Exception], ...] = DOCUMENTED) -> Any:
    """What a call returns, or None after an exception that is documented."""
    try:
        return call()
    except documented:
        return None


def read_and_write(data: bytes, options: dict[str, Any]) -> int:
    """Reads bytes in each way, and writes what was read; how much was."""
    found = quietly(lambda: own.loads(data, **options))
    quietly(lambda: own.loads_table(data[1:], **options))
    quietly(lambda: own.decode_table(b"..." + data + b"...", 4, **options))
    quietly(lambda: own.find(data, *(next(iter(found), "") if isinstance(found, dict) else ""), **options))
    text = quietly(lambda: own.to_json(data))
    for it in (text, text and text[: len(text) // 2], data):
        quietly(lambda: own.from_json(it, depth=9, table=len(data) % 2 == 0))
    for it, unread, unwritten in CODECS:
        table, _ = quietly(lambda: it.read(data, 1), (unread,)) or ({}, 0)
        quietly(lambda: it.write(table), unwritten)
    if found is None:
        return 0
    ways = {name: it for name, it in options.items() if name in ("keys", "text", "signed_decimals")}
    return len(own.dumps(found, **ways))


def write(value: Any, how: dict[str, Any]) -> None:
    """Writes an object, which is read again if it could be written."""
    pairs: list[tuple[Any, Any]] = [(own.dumps, own.loads), (own.dumps_table, own.loads_table)]
    for dump, load in pairs:
        data = quietly(lambda: dump(value, **how))
        if data is not None:
            load(data, text="bytes", max_bytes=2**32 - 1, keys=how.get("keys", "strict"))
    for it, _, unwritten in CODECS:
        quietly(lambda: it.write({"k": value}), (*unwritten, MemoryError))


def mutated(seed: int, count: int) -> int:
    make, read = Random(seed), 0
    for at in range(count):
        read += read_and_write(table_of_bytes(make), OPTIONS[at % len(OPTIONS)]) > 0
        if at % 10 == 0:
            write(made(make), {"keys": make.choice(["strict", "bytes", "surrogateescape"]), "naive_datetimes": True})
    assert read > count / 5, read
    return count


def left_by(call: Callable[[], object], counted: Callable[[], int]) -> int:
    """How many more there are after a call, at least of five, after two."""
    left: list[int] = []
    for _ in range(7):
        gc.collect()
        before = counted()
        call()
        gc.collect()
        left.append(abs(counted() - before))
    return min(left[2:])


def references(seed: int, count: int) -> int:
    """How many references a round has left, more than nothing leaves, and how many blocks of memory above 20."""
    make, total = Random(seed), getattr(sys, "gettotalrefcount")
    tables, values = [table_of_bytes(make) for _ in range(count)], [made(Random(seed + it)) for it in range(count // 4)]

    def run() -> None:
        for at, data in enumerate(tables):
            read_and_write(data, OPTIONS[at % len(OPTIONS)])
        for it in values:
            write(it, {})

    # (types are kept in caches)
    blocks = max(0, left_by(run, sys.getallocatedblocks) - 20)
    return left_by(run, total) - left_by(lambda: None, total) + blocks


if __name__ == "__main__":
    called = {"mutated": mutated, "references": references}[sys.argv[1]]
    print(called(int(sys.argv[3]), int(sys.argv[4])))
