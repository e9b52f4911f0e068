"""The ten inputs of docs/SPEED.md, and a stream of small values: the same bytes each time.

Each is a table, its type tag included, since librabbitmq and Go read nothing else: what isn't one is at the only key of one.
"""

import random
import struct
from collections.abc import Callable, Iterator
from typing import NamedTuple

# A dict is a table, a list an array, bytes are an encoding already.
Value = bytes | dict[str, "Value"] | list["Value"]

FORMS = {"t": "?", "b": "b", "B": "B", "s": "h", "u": "H", "I": "i", "i": "I", "l": "q", "T": "Q", "f": "f", "d": "d"}


class Input(NamedTuple):
    """Bytes that are read, and their canonical form if they are written too. `row` names it in the first table, `label` in others."""

    row: str
    label: str
    given: bytes
    canonical: bytes | None = None


def number(tag: str, value: float) -> bytes:
    return tag.encode() + struct.pack(f">{FORMS[tag]}", value)


def counted(tag: bytes, content: bytes) -> bytes:
    return tag + struct.pack(">I", len(content)) + content


def text(content: str) -> bytes:
    return counted(b"S", content.encode())


def encoded(value: Value, ascending: bool) -> bytes:
    """The encoding of a value."""
    if isinstance(value, dict):
        pairs = sorted(value.items(), key=lambda it: it[0].encode()) if ascending else value.items()
        return counted(b"F", b"".join(bytes([len(key)]) + key.encode() + encoded(it, ascending) for key, it in pairs))
    return counted(b"A", b"".join(encoded(it, ascending) for it in value)) if isinstance(value, list) else value


def every_type() -> dict[str, Value]:
    return {
        "aaaa": number("b", 42),
        "bar": {},
        "bbbb": number("B", 64),
        "blah": number("t", False),
        "cccc": number("s", 32),
        "dddd": number("u", 132),
        "eeee": number("I", -53),
        "ffff": number("i", 66666),
        "foo": [number("t", True), b"V"],
        "gggg": number("l", -9999),
        "hhhh": counted(b"x", bytes([42, 1, 2, 3])),
        "iiii": number("f", 42.42),
        "jjjj": number("d", 42.42),
        "kkkk": number("T", 1234567890),
        "llll": b"V",
        "oof": [],
        "tabl": {"baz": text("blah42"), "foo": b"D" + struct.pack(">BI", 55, 999)},
    }


def death(count: int, reason: str, queue: str, exchange: str, key: str, time: int) -> dict[str, Value]:
    return {
        "count": number("l", count),
        "reason": text(reason),
        "queue": text(queue),
        "time": number("T", time),
        "exchange": text(exchange),
        "routing-keys": [text(key)],
    }


# The count of the first death in the message headers.
FIRST_COUNT = 3


def message_headers() -> dict[str, Value]:
    dice = random.Random(2)
    return {
        "x-death": [
            death(FIRST_COUNT, "rejected", "orders.work", "orders", "orders.created", 1700000300),
            death(2, "expired", "orders.retry.30s", "orders.retry", "orders.created", 1700000200),
            death(1, "maxlen", "orders.inbox", "", "orders.inbox", 1700000100),
        ],
        "x-first-death-exchange": text(""),
        "x-first-death-queue": text("orders.inbox"),
        "x-first-death-reason": text("maxlen"),
        "traceparent": text(f"00-{dice.getrandbits(128):032x}-{dice.getrandbits(64):016x}-01"),
        "retries": number("I", 6),
        "sampled": number("t", True),
        "amount": b"D" + struct.pack(">BI", 2, 129950),
        "weight": number("d", 0.75),
        "sent-at": number("T", 1700000000),
    }


def server_properties() -> dict[str, Value]:
    able = (
        "publisher_confirms exchange_exchange_bindings basic.nack consumer_cancel_notify connection.blocked consumer_priorities "
        "authentication_failure_close per_consumer_qos direct_reply_to"
    ).split()
    return {
        "capabilities": {it: number("t", True) for it in able},
        "cluster_name": text("rabbit@node-1.example.com"),
        "copyright": text("Copyright (c) 2007-2022 VMware, Inc. or its affiliates."),
        "information": text("Licensed under the MPL 2.0. Website: https://rabbitmq.com"),
        "platform": text("Erlang/OTP 25.2.3"),
        "product": text("RabbitMQ"),
        "version": text("3.10.8"),
    }


def queue_arguments() -> bytes:
    return encoded({"x-max-length": number("I", 10_000), "x-queue-type": text("quorum")}, False)


def two_deaths() -> dict[str, Value]:
    """The headers of a message that was rejected and expired."""
    deaths: list[Value] = [
        death(2, "rejected", "orders.work", "orders", "orders.created", 1700000300),
        death(1, "expired", "orders.retry.30s", "orders.retry", "orders.created", 1700000200),
    ]
    first = {
        "x-first-death-exchange": "orders",
        "x-first-death-queue": "orders.work",
        "x-first-death-reason": "rejected",
    }
    return {"x-death": deaths, **{key: text(it) for key, it in first.items()}}


def celery_headers() -> dict[str, Value]:
    """The headers of a task, as Celery 5.2 sends them by py-amqp."""
    name = text("6b1ad0e1-0a4f-4f0f-9f0f-2f1de1d5b6a7")
    return {
        "lang": text("py"),
        "task": text("shop.tasks.send_invoice"),
        "id": name,
        "shadow": b"V",
        "eta": b"V",
        "expires": b"V",
        "group": b"V",
        "group_index": b"V",
        "retries": number("I", 0),
        "timelimit": [b"V", b"V"],
        "root_id": name,
        "parent_id": b"V",
        "argsrepr": text("(1042, 'de')"),
        "kwargsrepr": text("{}"),
        "origin": text("gen4217@shop-7d9f"),
        "ignore_result": number("t", False),
    }


def entries(count: int, at_random: bool = True) -> dict[str, Value]:
    makes: tuple[Callable[[int], bytes], ...] = (
        lambda it: number("I", it),
        lambda it: text(f"value-{it}"),
        lambda it: number("t", it % 2),
        lambda it: number("l", it * 1000003),
        lambda it: number("T", 1700000000 + it),
    )
    pairs: list[tuple[str, Value]] = [(f"key-{it:06}", makes[it % 5](it)) for it in range(count)]
    if at_random:
        random.Random(count).shuffle(pairs)
    return dict(pairs)


def nested(levels: int) -> bytes:
    """A table in a table, `levels` in all."""
    value = encoded({}, True)
    for _ in range(levels - 1):
        value = encoded({"n": value}, True)
    return value


def small_tables(count: int) -> dict[str, Value]:
    return {
        "v": [
            {"id": number("I", it), "name": text(f"item-{it}"), "open": number("t", it % 3 == 0)} for it in range(count)
        ]
    }


def of_value(row: str, label: str, value: Value) -> Input:
    """An input that is a value's encoding."""
    return Input(row, label, encoded(value, False), encoded(value, True))


def ten() -> Iterator[Input]:
    dice = random.Random(1)
    numbers: list[Value] = [number("I", dice.randrange(-(2**31), 2**31)) for _ in range(100_000)]
    yield of_value("a table with every type, 199 bytes", "every type", every_type())
    yield of_value("message headers with three `x-death` entries, 656 bytes", "message headers", message_headers())
    yield of_value("a server's properties, 480 bytes", "server's properties", server_properties())
    yield of_value("an array of 1,000 small tables, 38 kB", "1,000 small tables", small_tables(1000))
    yield of_value("a table of 10,000 entries in random order, 190 kB", "10,000 entries, random", entries(10_000))
    yield of_value("the same entries in order", "10,000 entries in order", entries(10_000, False))
    yield of_value("an array of 100,000 LongInt, 500 kB", "100,000 LongInt", {"v": numbers})
    yield of_value("a string of 16 MiB", "16 MiB string", {"v": counted(b"S", dice.randbytes(16 << 20))})
    yield of_value("a byte array of 1 MiB", "1 MiB byte array", {"v": counted(b"x", dice.randbytes(1 << 20))})
    yield of_value("200 nested tables, 1.4 kB", "200 nested tables", nested(200))


def of_python() -> Iterator[Input]:
    """The inputs that clients of Python are timed with, of which each has all."""
    yield Input("a queue's arguments, 47 bytes", "arguments", queue_arguments())
    yield of_value("headers with two `x-death` entries, 398 bytes", "two deaths", two_deaths())
    yield of_value("a Celery task's headers, 315 bytes", "a task", celery_headers())
    yield of_value("a server's properties, 480 bytes", "server's properties", server_properties())


def stream(count: int) -> Input:
    """A stream of small values: a client's properties, an `x-death` and a queue's arguments, by turns."""
    client: Value = {
        "product": text("client"),
        "version": text("1.0"),
        "capabilities": {"basic.nack": number("t", True)},
    }
    death_of_one = death(1, "expired", "orders.work", "orders", "orders.created", 1700000100)
    values: tuple[Value, ...] = (client, death_of_one, {"x-max-length": number("I", 1000)})
    given = b"".join(encoded(values[it % 3], False) for it in range(count))
    return Input(f"a stream of {count:,} small tables, 7.5 MB", "a stream", given)
