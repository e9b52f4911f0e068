"""What run.py compares: the bytes of a case, and its value and a codec's in one form. It needs only the standard library.

Numbers are compared by value (5, 5.0 and Decimal(5) are equal; -0.0 isn't 0, and each NaN is equal to each), strings and keys
by their bytes, times by seconds since 1970. A Boolean is no number. Nothing here recurses, since values may be deep.
"""

import calendar
import json
import re
import struct
from collections.abc import Callable
from datetime import datetime
from decimal import Decimal
from fractions import Fraction
from typing import Any

TOKEN = re.compile(r'[][{}]|"(?:[^"\\]|\\.)*"|[^][{}:,"\s]+')


def bytes_of(case: Any) -> bytes:
    """The bytes of a case."""
    data = bytes.fromhex(case.get("bytes", ""))
    for step in case.get("repeat", []):
        times = step.get("times", 1)
        if "append" in step:
            data += bytes.fromhex(step["append"]) * times
            continue
        before, parts, length = bytes.fromhex(step["wrap"]), [data], len(data)
        for _ in range(times):
            parts.append(before + length.to_bytes(4, "big"))
            length += len(parts[-1])
        data = b"".join(reversed(parts))
    return data


def in_a_table(data: bytes, is_table: bool) -> bytes:
    """A table as it is, and a value at the key k of a table."""
    return data if is_table else (len(data) + 2).to_bytes(4, "big") + b"\1k" + data


def text_of(result: Any) -> str:
    """The JSON of a value."""
    return "".join(it * times for it, times in result["text"]) if "text" in result else json.dumps(result["value"])


def from_json(text: str, of_object: Callable[[dict[str, Any]], Any], of_scalar: Callable[[Any], Any]) -> Any:
    """The value of a JSON text of any depth. Objects and scalars are given to a function each, the innermost first."""
    open_ones: list[list[Any]] = [[]]
    for token in TOKEN.findall(text):
        if token in "[{":
            open_ones.append([])
        elif token in "]}":
            items = open_ones.pop()
            open_ones[-1].append(items if token == "]" else of_object(dict(zip(items[::2], items[1::2]))))
        else:
            open_ones[-1].append(of_scalar(json.loads(token)))
    return open_ones[0][0]


def meant(result: Any) -> Any:
    """The value of a result."""
    return from_json(text_of(result), of_object, lambda it: it)


def of_object(found: dict[str, Any]) -> Any:
    """An object of a case: a table, or a value under the name of its type."""
    name, content = next(iter(found.items())) if found else ("", b"")
    if name[:1] != "$" or name[1:2] == "$":
        return {key.removeprefix("$").encode(): it for key, it in found.items()}
    if name in ("$Float", "$Double"):
        return struct.unpack(">f" if name == "$Float" else ">d", bytes.fromhex(content))[0]
    if name == "$FieldTable":
        return {bytes.fromhex(key.decode()): it for key, it in content.items()}
    return (
        Decimal(content) if name == "$DecimalValue" else content if isinstance(content, int) else bytes.fromhex(content)
    )


def flat(value: Any) -> list[Any]:
    """A value as a list that has no lists in it: of a container first what it is and its size, then what is in it."""
    found, waiting = [], [value]
    while waiting:
        it = waiting.pop()
        if isinstance(it, dict):
            pairs = sorted(
                ((scalar(key), each) for key, each in it.items()), key=lambda pair: bytes(pair[0]), reverse=True
            )
            found.append(("F", *(key for key, _ in pairs)))
            waiting += [each for _, each in pairs]
        elif isinstance(it, list):
            found.append(("A", len(it)))
            waiting += reversed(it)
        else:
            found.append(scalar(it))
    return found


def scalar(value: Any) -> Any:
    """What a codec returned, if it is no container."""
    if isinstance(value, datetime):
        return Fraction(calendar.timegm(value.utctimetuple()))
    if (
        value is None
        or isinstance(value, bool)
        or str(value) in ("nan", "inf", "-inf", "-0.0")
        and isinstance(value, float)
    ):
        return str(value)
    if isinstance(value, (int, float, Decimal, Fraction)):
        return Fraction(value)
    return value.encode(errors="surrogatepass") if isinstance(value, str) else bytes(value)
