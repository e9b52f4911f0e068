"""`failure_of`: where an encoding is rejected, by this library or by RabbitMQ; `doubtful`: what readers may trip over.

By docs/GRAMMAR.md and docs/INTEROP.md. It has a walk of its own, apart from the reader of encoding.py.
"""

import math
import struct
from collections.abc import Generator
from typing import NamedTuple

from tests.model.encoding import TYPES, extent, is_utf8

# The default limit of nesting.
DEPTH = 32
# The kinds of problems. What is cut at offset 0 is an input that ends.
UNKNOWN_TAG, NOT_FINITE, CUT, KEY_CUT, TOO_DEEP, TOO_LARGE, KEY_NOT_UTF8 = range(1, 8)


class Failure(Exception):
    """The offset at which a value fails, the kind of the problem, and the type tag of the container that it is in."""


class Inner(NamedTuple):
    """A value that RabbitMQ takes: its offset, type tag, key and level, and the offset of the innermost container around it."""

    at: int
    tag: str
    key: bytes | None
    outer: int
    container: int


def taken(data: bytes, rules: str = "RabbitMQ", depth: int = DEPTH) -> list[Inner]:
    """The value at the start and those in it, if RabbitMQ takes it, or a failure at the first thing that it doesn't.

    Other rules are those of what is read here: "any keys", and "read", by which keys are UTF-8.
    """
    return [*walked(data, 0, len(data), rules, depth, Inner(0, "", None, -1, 0), None)]


Walk = Generator[Inner, None, int]


def walked(data: bytes, at: int, end: int, rules: str, depth: int, around: Inner, key: bytes | None) -> Walk:
    """Yields a value that is in another, and those in it, and returns the offset of its end."""
    inside, outer = around.tag, around.outer + 1
    begin, stop = at, at + extent(data[at : min(end, at + 5)])
    tags = {*TYPES} - ({"U"} if rules == "RabbitMQ" else set())
    tag = chr(data[at]) if at < end else ""
    if tag and tag not in tags:
        raise Failure(begin, UNKNOWN_TAG, inside)
    if not tag or stop > end:
        raise Failure(begin, CUT, inside)
    if rules == "RabbitMQ" and tag in "fd" and not math.isfinite(struct.unpack(f">{tag}", data[at + 1 : stop])[0]):
        raise Failure(begin, NOT_FINITE, inside)
    if tag in "AF" and outer == depth:
        raise Failure(begin, TOO_DEEP, inside)
    value = Inner(begin, tag, key, outer, around.at)
    yield value
    at += 5
    while tag in "AF" and at < stop:
        key = None
        if tag == "F":
            if at + 1 + data[at] > stop:
                raise Failure(at, KEY_CUT, tag)
            key = data[at + 1 : at + 1 + data[at]]
            if rules == "read" and not is_utf8(key):
                raise Failure(at, KEY_NOT_UTF8, tag)
            at += 1 + data[at]
        at = yield from walked(data, at, stop, rules, depth, value, key)
    return stop


def failure_of(data: bytes, rules: str = "RabbitMQ", depth: int = DEPTH) -> tuple[int, int, str] | None:
    """The first thing in a value that the rules don't allow: its offset, its kind, and the type tag of its container."""
    try:
        taken(data, rules, depth)
    except Failure as failure:
        at, kind, inside = failure.args
        return at, kind, inside
    return None


def doubtful(data: bytes, levels: int) -> dict[str, list[int]]:
    """Where what is doubtful in a value is: pairs by their keys, and containers that are too deep."""
    found = taken(data, "any keys", 2**32)
    pairs = [(it.at - 1 - len(it.key), it.key, it.container) for it in found if it.key is not None]
    first = {(table, key): at for at, key, table in reversed(pairs)}
    return {
        "repeated_key": [at for at, key, table in pairs if first[table, key] < at],
        "key_not_utf8": [at for at, key, _ in pairs if not is_utf8(key)],
        "empty_key": [at for at, key, _ in pairs if not key],
        "too_deep": [it.at for it in found if it.tag in "AF" and levels <= it.outer],
    }


def unfit_for_streams(data: bytes) -> dict[str, list[int]]:
    """Where the decimals of a value are, and the containers in its outermost one."""
    found = taken(data, "any keys", 2**32)
    return {
        "decimal": [it.at for it in found if it.tag == "D"],
        "nested_header": [it.at for it in found if it.tag in "AF" and it.outer],
    }


def exceeds(end: int, frame_max: int) -> bool:
    """Whether a value's frame, with what is after the type tag and 8 bytes more, is beyond the frame-max."""
    return 0 < frame_max < end - 1 + 8
