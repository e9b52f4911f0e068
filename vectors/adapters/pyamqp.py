"""`decode` and `write` for run.py and writing.py, by py-amqp's own codec of tables."""

from typing import Any

from adapters.natural import natural
from amqp.serialization import dumps, loads


def decode(data: bytes) -> Any:
    return loads("F", data, 0)[0][0]


def write(value: Any) -> Any:
    return dumps("F", [natural(value)])
