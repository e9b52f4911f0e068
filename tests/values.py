"""Turns values of the model into the Python package's (`python_of`) and back (`form`), and its errors into tuples.

The suites python and rabbitmq use it.
"""

import struct
from collections.abc import Callable
from datetime import timezone
from decimal import Decimal
from typing import Any

import amqp_values as own

from tests.model.encoding import Value
from tests.model.tables import integer_of, number

CLASSES: dict[str, type[int]] = {
    "t": bool, "b": own.ShortShortInt, "B": own.ShortShortUInt, "s": own.ShortInt, "u": own.ShortUInt, "I": own.LongInt,
    "i": own.LongUInt, "l": int, "T": own.Timestamp,
}  # fmt: skip
TAGS = {it: tag for tag, it in CLASSES.items()}
UTC = timezone.utc


def python_of(value: Value) -> Any:
    """What the package has for a value, with any bytes as keys."""
    tag, content = value
    if tag in CLASSES:
        return CLASSES[tag](integer_of(value))
    match tag:
        case "S":
            try:
                return content.decode()
            except UnicodeDecodeError:
                return own.LongString(content)
        case "A":
            return [python_of(it) for it in content]
        case "F":
            return {key_of(key): python_of(it) for key, it in content.items()}
        case "D":
            return Decimal(f"{int.from_bytes(content[1:], 'big')}E-{content[0]}")
        case "f":
            return own.Float.of_bits(int.from_bytes(content, "big"))
        case "d":
            return struct.unpack(">d", content)[0]
    return content if tag == "x" else None


def key_of(key: bytes) -> str | bytes:
    try:
        return key.decode()
    except UnicodeDecodeError:
        return key


def of_decimal(value: Decimal) -> bytes:
    """The scale and the number of a decimal."""
    _, digits, exponent = value.as_tuple()
    return struct.pack(">BI", -int(exponent), int("".join(map(str, digits))))


# Of each type of the package, except those of integers, the type tag and the content.
FORMS: dict[type, Callable[[Any], Value]] = {
    list: lambda it: ("A", [form(each) for each in it]),
    dict: lambda it: ("F", {key if type(key) is bytes else key.encode(): form(each) for key, each in it.items()}),
    Decimal: lambda it: ("D", of_decimal(it)),
    own.Float: lambda it: ("f", it.bits.to_bytes(4, "big")),
    float: lambda it: ("d", struct.pack(">d", it)),
    str: lambda it: ("S", it.encode()),
    own.LongString: lambda it: ("S", bytes(it)),
    bytes: lambda it: ("x", it),
    type(None): lambda _: ("V", b""),
}


def form(value: Any) -> Value:
    """The value that the package means, by the type."""
    kind = type(value)
    return number(TAGS[kind], int(value)) if kind in TAGS else FORMS[kind](value)


def error_of(call: Callable[[], Any]) -> type[Exception] | None:
    """The class of what a call raises, or None."""
    try:
        call()
    except Exception as why:
        return type(why)
    return None


def problem_of(error: own.Error) -> tuple[str, int, int]:
    """The kind, the offset and the missing bytes of an error, whose text has to have them."""
    assert bool(error.reason) == (error.kind in ("not JSON", "not a value"))
    assert str(error).startswith(f"{error.kind} at {error.offset}: {error.reason or f'expected {error.expected}'}")
    assert error.expected and error.args == (error.kind, error.offset, error.expected, error.missing)
    return error.kind, error.offset, error.missing


def own_error(call: Callable[[], Any]) -> tuple[str, int, int] | None:
    """The kind, the offset and the missing bytes of the Error that a call raises, or None."""
    try:
        call()
    except own.Error as why:
        return problem_of(why)
    return None


def shape(value: Any) -> Any:
    """A value as it is compared: its type, the order of its keys, and the bits of its floats."""
    kind = type(value)
    if kind is dict:
        return "dict", [(shape(key), shape(it)) for key, it in value.items()]
    if kind is list:
        return "list", [shape(it) for it in value]
    if kind is own.Float:
        return "Float", value.bits
    if kind is float:
        return "float", struct.pack(">d", value)
    return kind.__name__, value.as_tuple() if kind is Decimal else value
