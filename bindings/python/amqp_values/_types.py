"""`Error`, and classes for types that Python lacks, as `ShortInt`, `Float` and `Timestamp`. `_native` imports them."""

from __future__ import annotations

import struct
from datetime import datetime, timezone
from decimal import Decimal
from operator import index
from typing import Any


# How many steps of a long path a message has of each end.
_ENDS = 4


class Error(ValueError):
    """Raised for bytes or text that can't be read, and for objects that can't be written; says what is wrong, and where.

    >>> from amqp_values import loads
    >>> for data in (b"S\\0\\0\\0\\5abc", b"A\\0\\0\\0\\5S\\0\\0\\0\\1a"):
    ...     try:
    ...         loads(data)
    ...     except Error as why:
    ...         print(why)
    ...         print(why.kind, why.offset, why.expected, why.missing, sep="; ")
    cut at 0: expected 2 more bytes
    cut; 0; 2 more bytes; 2
    cut at 5: expected a whole value inside its container
    cut; 5; a whole value inside its container; 0

    `kind` is a few words that don't change, `offset` how many of the bytes are before the value with the problem, or, of
    what can't be written, how many would be before it. `expected` tells what it should have been. `missing` counts the
    bytes that the field needs which is cut where the bytes end. It is 0 if more bytes can't help, as for a value that is cut
    by the end of its container. `reason` says why a text isn't JSON, or not that of a value, and is empty for all else. `path`
    leads to what can't be written; the message leaves out the middle of a long one. What an object's own method raised is the
    `__cause__`.
    """

    path: tuple[Any, ...] = ()
    reason: str = ""

    def __init__(self, kind: str, offset: int = 0, expected: str = "", missing: int = 0) -> None:
        super().__init__(kind, offset, expected, missing)
        self.kind, self.offset, self.expected, self.missing = kind, offset, expected, missing

    def __str__(self) -> str:
        place = f" (in {_shown_path(self.path)})" if self.path else ""
        return f"{self.kind} at {self.offset}: {self.reason or f'expected {self.expected}'}{place}"


class UnsupportedType(Error, TypeError):
    """An `Error` for an object whose type has no encoding; it is a TypeError too.

    >>> from amqp_values import dumps
    >>> dumps({"hosts": ["a", {1, 2}]})
    Traceback (most recent call last):
    amqp_values.UnsupportedType: unsupported type at 22: expected a value of a type that AMQP has, not set (in ['hosts', 1])
    """


def _shown_path(path: tuple[Any, ...]) -> str:
    """A path as a message has it: of a long one the first steps and the last."""
    if len(path) <= 2 * _ENDS:
        return repr([*path])
    first, last = (", ".join(map(repr, it)) for it in (path[:_ENDS], path[-_ENDS:]))
    return f"[{first}, .. {len(path) - 2 * _ENDS} more .., {last}]"


def _shown(number: Any) -> str:
    """A number as a message has it, or what it is."""
    kind = type(number)
    if issubclass(kind, int):
        bits = int.bit_length(number)
        return int.__repr__(number) if bits <= 128 else f"an integer of {bits} bits"
    return float.__repr__(number) if issubclass(kind, float) else f"this {kind.__name__}"


def _index(value: Any) -> int:
    """An integer as it is, whatever a subclass makes of it."""
    try:
        return int.__int__(index(value))
    except (TypeError, MemoryError):
        raise
    except Exception as why:
        raise Error("raised", 0, "an object whose own methods raise nothing") from why


class _Integer(int):
    """An integer of one type. What is added to it in place has the same type if that has the number, and else is an int."""

    __slots__ = ()
    tag, least, most = "", 0, 0

    def __new__(cls, value: Any = 0) -> Any:
        number = _index(value)
        if not cls.least <= number <= cls.most:
            raise Error("out of range", 0, f"a number from {cls.least} to {cls.most}, not {_shown(number)}")
        return int.__new__(cls, number)

    def __iadd__(self, other: int, /) -> int:
        return self._of_type(int.__add__(self, other))

    def __isub__(self, other: int, /) -> int:
        return self._of_type(int.__sub__(self, other))

    def _of_type(self, number: int) -> int:
        # (NotImplemented stays, so that Python asks the other object)
        return int.__new__(type(self), number) if type(number) is int and self.least <= number <= self.most else number

    def __repr__(self) -> str:
        return f"{type(self).__name__}({int(self)})"

    __str__ = int.__repr__


class ShortShortInt(_Integer):
    """A signed integer of 8 bits, by the type tag b."""

    __slots__ = ()
    tag, least, most = "b", -(2**7), 2**7 - 1


class ShortShortUInt(_Integer):
    """An unsigned integer of 8 bits, by the type tag B.

    >>> ShortShortUInt(5), ShortShortUInt(5) == 5
    (ShortShortUInt(5), True)
    >>> table = {"x-max-priority": ShortShortUInt(5)}
    >>> table["x-max-priority"] += 1
    >>> table
    {'x-max-priority': ShortShortUInt(6)}
    """

    __slots__ = ()
    tag, least, most = "B", 0, 2**8 - 1


class ShortInt(_Integer):
    """A signed integer of 16 bits, by the type tag s."""

    __slots__ = ()
    tag, least, most = "s", -(2**15), 2**15 - 1


class ShortUInt(_Integer):
    """An unsigned integer of 16 bits, by the type tag u."""

    __slots__ = ()
    tag, least, most = "u", 0, 2**16 - 1


class LongInt(_Integer):
    """A signed integer of 32 bits, by the type tag I."""

    __slots__ = ()
    tag, least, most = "I", -(2**31), 2**31 - 1


class LongUInt(_Integer):
    """An unsigned integer of 32 bits, by the type tag i."""

    __slots__ = ()
    tag, least, most = "i", 0, 2**32 - 1


class Timestamp(_Integer):
    """Seconds since 1970, by the type tag T. A datetime with a time zone can be written too, rounded down.

    >>> Timestamp(1800000000).as_datetime().isoformat()
    '2027-01-15T08:00:00+00:00'
    """

    __slots__ = ()
    tag, least, most = "T", 0, 2**64 - 1

    @classmethod
    def of(cls, time: datetime) -> Any:
        """Returns the seconds of a datetime with a time zone, rounded down.

        A datetime without a time zone, or before 1970, raises an `Error`; an object of another type a TypeError.
        """
        from . import dumps

        if not issubclass(type(time), datetime):
            raise TypeError(f"a time is a datetime, not {type(time).__name__}")
        return cls(int.from_bytes(dumps(time)[1:], "big"))

    def as_datetime(self) -> datetime:
        """Returns the time as a datetime in UTC. From the year 10000 on it raises an `Error`."""
        try:
            return datetime.fromtimestamp(int(self), timezone.utc)
        except (OverflowError, ValueError, OSError):
            raise Error("out of range", 0, f"a time before the year 10000, not {int(self)} seconds") from None


class Float(float):
    """The nearest number of 32 bits, by the type tag f; `bits` are these, also of a NaN.

    >>> Float(0.1), hex(Float(0.1).bits)
    (Float(0.10000000149011612), '0x3dcccccd')
    """

    __slots__ = ()

    def __new__(cls, value: Any = 0.0) -> Any:
        if not issubclass(type(value), (int, float, Decimal)):
            raise TypeError(f"a Float is made of a number, not {type(value).__name__}")
        try:
            # (as it is, whatever a subclass makes of it; a signaling NaN of Decimal is no float)
            kind: Any = next(it for it in (int, float, Decimal) if issubclass(type(value), it))
            wide = kind.__float__(value)
            if wide - wide != 0 and kind is Decimal and Decimal.is_finite(value):
                raise OverflowError
            (narrow,) = struct.unpack(">f", struct.pack(">f", wide))
        except (OverflowError, ValueError):
            raise Error("out of range", 0, f"a number of 32 bits, not {_shown(value)}") from None
        return float.__new__(cls, narrow)

    @classmethod
    def of_bits(cls, bits: Any) -> Any:
        """Returns the Float that has these 32 bits, which are given as an integer from 0 to 2**32 - 1."""
        number = _index(LongUInt(bits))
        if number >> 23 & 0xFF != 0xFF or not number & 0x7FFFFF:
            return float.__new__(cls, struct.unpack(">f", number.to_bytes(4, "big"))[0])
        # (what converts a NaN may change its bits)
        wide = (number >> 31) << 63 | 0x7FF << 52 | (number & 0x7FFFFF) << 29
        return float.__new__(cls, struct.unpack(">d", wide.to_bytes(8, "big"))[0])

    @property
    def bits(self) -> int:
        """The 32 bits, as an integer."""
        wide = int.from_bytes(struct.pack(">d", self), "big")
        if float.__eq__(self, self):
            return int.from_bytes(struct.pack(">f", self), "big")
        # (a NaN of 64 bits may have none of these)
        return wide >> 63 << 31 | 0xFF << 23 | (wide >> 29 & 0x7FFFFF or 1 << 22)

    def __repr__(self) -> str:
        return f"Float({float.__repr__(self)})"

    __str__ = float.__repr__


def _content(data: Any) -> bytes:
    """Bytes as they are, whatever a subclass makes of them."""
    if type(data) is bytes:
        return data
    try:
        return bytes(memoryview(data))
    except ValueError as why:
        raise Error("raised", 0, "a memoryview that isn't released") from why


class _Bytes(bytes):
    __slots__ = ()

    def __new__(cls, content: Any = b"") -> Any:
        return bytes.__new__(cls, _content(content))


class LongString(_Bytes):
    """A string by its bytes, by the type tag S."""

    __slots__ = ()

    def __repr__(self) -> str:
        return f"LongString({_content(self)!r})"


class Encoded(_Bytes):
    """The encoding of a value with its type tag, to be checked, and written as it is.

    >>> from amqp_values import dumps
    >>> dumps([Encoded(b"V"), Encoded(b"t\\1")])
    b'A\\x00\\x00\\x00\\x03Vt\\x01'
    """

    __slots__ = ()


class _Template:
    """An object without attributes, whose dict has the keys of its class."""


def _of_empty_key() -> dict[str, Any]:
    """A dict whose only key is empty, and whose copies have their keys in common: CPython has those of objects once."""
    # (it leaves room for more keys at first, and less with each object)
    for _ in range(64):
        template = _Template()
        setattr(template, "", None)
    return vars(template)


_OF_EMPTY_KEY = _of_empty_key()
