"""`Frame`, by which the self-check has a client read and write a table, and functions for the bytes of such a frame."""

from collections.abc import Callable
from typing import Any, NamedTuple


class Frame(NamedTuple):
    """A frame of a client that has a table: what the client reads it as, and the bytes that it writes for one."""

    read: Callable[[bytes], Any]
    write: Callable[[Any], bytes]


# Raw frames that clients read: of the header of a message, and of the method Connection.Start.


def raw_frame(kind: int, payload: bytes) -> bytes:
    return bytes([kind, 0, 1]) + len(payload).to_bytes(4, "big") + payload + b"\xce"


def header_payload(table: bytes) -> bytes:
    """The payload of a content header whose properties are a content type and its headers."""
    return b"\0\x3c" + bytes(10) + b"\xa0\0\x0atext/plain" + table


def header_frame(table: bytes) -> bytes:
    return raw_frame(2, header_payload(table))


def start_frame(table: bytes) -> bytes:
    """The frame of a Connection.Start with these server properties."""
    return raw_frame(1, b"\0\x0a\0\x0a\0\x09" + table + bytes(8))


def table_in(frame: bytes, before: int) -> bytes:
    """The table that ends a frame's payload, after some of the payload's bytes."""
    return frame[7 + before : -1]
