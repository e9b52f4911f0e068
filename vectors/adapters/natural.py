"""`natural` turns a table of the cases' JSON into Python's own types, for the `write` of an adapter."""

import struct
from datetime import datetime, timezone
from decimal import Decimal
from typing import Any

# The bits of each type of integers, and whether they have a sign.
INTEGERS = {
    "$ShortShortInt": (8, True), "$ShortShortUInt": (8, False), "$ShortInt": (16, True), "$ShortUInt": (16, False),
    "$LongInt": (32, True), "$LongUInt": (32, False),
}  # fmt: skip


class Untried(Exception):
    """A codec can't be given this value."""


def natural(value: Any) -> Any:
    """A value in Python's own types. They have no integer out of its type's range, no text of any bytes, no year 10000."""
    if isinstance(value, list):
        return [natural(it) for it in value]
    if not isinstance(value, dict):
        return value
    pair: tuple[Any, Any] = next(iter(value.items()), ("", None))
    name, content = pair
    if not isinstance(name, str) or name[:1] != "$" or name[1:2] == "$":
        return {key.removeprefix("$") if isinstance(key, str) else key: natural(it) for key, it in value.items()}
    if name in ("$Float", "$Double"):
        return struct.unpack(">f" if name == "$Float" else ">d", bytes.fromhex(content))[0]
    if name in ("$DecimalValue", "$ByteArray"):
        return Decimal(content) if name == "$DecimalValue" else bytes.fromhex(content)
    if name == "$Timestamp" and 0 <= content < 253402300800:
        return datetime.fromtimestamp(content, timezone.utc)
    bits, is_signed = INTEGERS.get(name, (0, False))
    if not bits or not 0 <= content + is_signed * 2 ** (bits - 1) < 2**bits:
        raise Untried(name)
    return content
