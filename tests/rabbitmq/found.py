"""Helpers: tables that the Python package writes for the broker (`built`), and what it reads in others (`value_at`)."""

import time
from collections.abc import Callable
from typing import Any

import amqp_values as own

from tests.model.encoding import Value, field
from tests.model.inputs import FRAME
from tests.model.tables import integer_of, number, parts, raw, table, text
from tests.rabbitmq.broker import Broker
from tests.rabbitmq.wire import Closed, Connection, Message
from tests.values import form

# The seconds until a message comes that takes its time.
PATIENCE = 120
# What is at a path that a table doesn't have.
NOTHING = object()


def loaded(data: bytes, **options: Any) -> Any:
    """What the package reads."""
    return own.loads(data, text="bytes", max_bytes=FRAME, **options)


def built(value: Value) -> bytes:
    """The encoding of a value, as the package writes it."""
    return own.dumps(loaded(raw(value)))


def arguments(**entries: Value) -> bytes:
    """The encoding of a table; `_` in a name is `-` in its key."""
    return built(table(**entries))


def of(*pairs: tuple[bytes, bytes | Value]) -> bytes:
    """A table of these keys, in this order, and values or encodings."""
    encodings = [(key, it if isinstance(it, bytes) else raw(it)) for key, it in pairs]
    return field(b"F", b"".join(bytes([len(key)]) + key + it for key, it in encodings))


def dying(to: str, after: int = 0) -> dict[str, Value]:
    """The arguments of a queue whose messages expire, and go to another."""
    return {"x_message_ttl": number("I", after), **dead_lettered(to)}


def dead_lettered(to: str, exchange: str = "") -> dict[str, Value]:
    """The arguments of a queue whose dead messages go to another."""
    return {"x_dead_letter_exchange": text(exchange), "x_dead_letter_routing_key": text(to)}


def value_at(data: bytes, *path: bytes | int) -> Value | None:
    """The value at a path, of equal keys by the last; None if there is none."""
    found = own.find(data, *path, text="bytes", max_bytes=FRAME, default=NOTHING)
    return None if found is NOTHING else form(found)


def without(data: bytes, *keys: bytes) -> bytes:
    """A table without these keys, of which each other entry is copied as it is."""
    return field(b"F", b"".join(key + it for key, it in parts(data) if key[1:] not in keys))


def is_now(value: Value | None, tag: str = "T") -> bool:
    """Whether it is a time of this minute, in seconds."""
    return value is not None and value[0] == tag and abs(integer_of(value) - time.time()) < 120


def awaited(
    connection: Connection, queue: str, keeps: bool = False, repeats: Callable[[], None] = lambda: None
) -> Message:
    """The next message of a queue, which may take its time."""
    end = time.time() + PATIENCE
    while time.time() < end:
        repeats()
        if found := connection.get(queue, keeps):
            return found
        time.sleep(0.02)
    raise TimeoutError(f"nothing came to {queue}")


def closed_by(broker: Broker, act: Callable[[Connection], Any], **how: Any) -> tuple[str, int] | None:
    """What the broker closes, and why, when something is done over a new connection."""
    try:
        connection = broker.connection(**how)
        act(connection)
        connection.close()
    except Closed as why:
        return why.what, why.code
    return None
