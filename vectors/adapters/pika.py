"""`decode` and `write` for run.py and writing.py, by pika's own codec of tables."""

from typing import Any

from adapters.natural import natural
from pika.data import decode_table, encode_table


def decode(data: bytes) -> Any:
    return decode_table(data, 0)[0]


def write(value: Any) -> bytes:
    pieces: list[bytes] = []
    encode_table(pieces, natural(value))
    return b"".join(pieces)
