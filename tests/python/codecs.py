"""The `codec` of an adapter for a version of its client, and what it raises; test_codecs.py and watched.py use it."""

from typing import Any

from amqp.exceptions import FrameSyntaxError
from amqp_values.adapters import pamqp, pika, pyamqp
from amqp_values.adapters import shared
from amqp_values.adapters.shared import Codec
from pika import exceptions

from tests.rabbitmq.seen import VERSIONS, Client

# By the names that tests/rabbitmq has for them: the adapter, what comes of reading, and of writing.
ADAPTERS: dict[str, tuple[shared.Client, type[Exception], tuple[type[Exception], ...]]] = {
    "pika": (
        pika.client,
        exceptions.InvalidFieldTypeException,
        (exceptions.UnsupportedAMQPFieldException, exceptions.ShortStringTooLong),
    ),
    "pyamqp": (pyamqp.client, FrameSyntaxError, (FrameSyntaxError,)),
    "aiormq": (pamqp.client, ValueError, (TypeError,)),
}
# Each version of which a codec differs from all others.
CLIENTS = {name: it for name, it in VERSIONS.items() if name not in ("amqp 5.3.1", "pamqp 4.0.0")}


def unread(client: Client) -> type[Exception]:
    return ADAPTERS[client.name][1]


def unwritten(client: Client) -> tuple[type[Exception], ...]:
    return ADAPTERS[client.name][2]


def codec(client: Client, **how: Any) -> Codec:
    """The codec of a client, with the options of `install` and of that version."""
    manner: dict[str, Any] = {"aware_datetimes": client.is_aware, "milliseconds": client.has_milliseconds}
    if client.name == "pika":
        manner["integers"] = "pika 1.3" if client.negative == "L" else "pika"
    return Codec(ADAPTERS[client.name][0], **{**manner, **how})


CODECS = [(codec(it, exact=exact), unread(it), unwritten(it)) for it in CLIENTS.values() for exact in (True, False)]
