"""`decode` for run.py, by librabbitmq and ctypes. librabbitmq returns all values of a repeated key; the last is taken."""

import ctypes
import struct
import sys
from decimal import Decimal
from typing import Any

RABBITMQ = ctypes.CDLL("librabbitmq.so.4")
NUMBERS = dict(zip("tbBsuIilLfdT", "ibBhHiIqQfdQ"))
sys.setrecursionlimit(100_000)  # (this adapter's own recursion)


def text(at: int) -> bytes:
    """An amqp_bytes_t."""
    count, place = struct.unpack("QQ", ctypes.string_at(at, 16))
    return ctypes.string_at(place, count)


def value(at: int) -> Any:
    """An amqp_field_value_t, of 24 bytes."""
    tag, content = chr(ctypes.string_at(at)[0]), ctypes.string_at(at + 8, 16)
    if tag in NUMBERS:
        number = struct.unpack_from(NUMBERS[tag], content)[0]
        return bool(number) if tag == "t" else number
    count, place = struct.unpack("I4xQ", content)
    if tag == "F":
        return {text(it): value(it + 16) for it in range(place, place + 40 * count, 40)}
    if tag == "D":
        return Decimal(struct.unpack_from("4xI", content)[0]).scaleb(-content[0])
    return None if tag == "V" else [value(place + 24 * n) for n in range(count)] if tag == "A" else text(at + 8)


def decode(data: bytes) -> Any:
    pool, found = ctypes.create_string_buffer(256), ctypes.create_string_buffer(b"F", 24)
    RABBITMQ.init_amqp_pool(pool, ctypes.c_size_t(4096))
    given = ctypes.c_size_t(len(data)), ctypes.c_char_p(data), pool
    if status := RABBITMQ.amqp_decode_table(*given, ctypes.byref(found, 8), ctypes.byref(ctypes.c_size_t())):
        raise ValueError(f"librabbitmq returned {status}")
    return value(ctypes.addressof(found))
