"""The Python package on the cases of writing (vectors/writing.json), and on the values of the others, which it writes back."""

import struct
from decimal import Decimal
from types import SimpleNamespace
from typing import Any

import amqp_values as own
import pytest
import writing
from comparing import text_of

from tests.vectors.cases import none_of

pytestmark = pytest.mark.usefixtures("deep")


def of_package(value: Any) -> Any:
    """A value of the cases' JSON as the package has it."""
    if isinstance(value, list):
        return [of_package(it) for it in value]
    if not isinstance(value, dict):
        return value
    pair: tuple[Any, Any] = next(iter(value.items()), ("", None))
    name, content = pair
    if not isinstance(name, str) or name[:1] != "$" or name[1:2] == "$":
        return {key.removeprefix("$") if isinstance(key, str) else key: of_package(it) for key, it in value.items()}
    match name:
        case "$Float":
            return own.Float.of_bits(int(content, 16))
        case "$Double":
            return struct.unpack(">d", bytes.fromhex(content))[0]
        case "$DecimalValue":
            return Decimal(content)
        case "$LongString" | "$ByteArray":
            return (own.LongString if name == "$LongString" else bytes)(bytes.fromhex(content))
    return getattr(own, name[1:])(content)


def write(value: Any) -> bytes:
    return own.dumps_table(of_package(value), depth=own.MOST_DEPTH)


def is_in_order(case: Any) -> bool:
    """Whether no table has two keys, whose order the package keeps."""
    return text_of(case).count('": ') < 2 if "pairs" not in case else False


def is_too_deep(case: Any) -> bool:
    text = text_of(case)
    return text.count("[") + text.count("{") >= own.MOST_DEPTH


def test_writing() -> None:
    """Each case has its bytes, except for the order of keys, or its error."""
    cases = [it for it in writing.cases() if "large" not in it["flags"] and not ("text" in it and is_too_deep(it))]
    found = [(it, writing.outcome(SimpleNamespace(write=write), it)) for it in cases]
    assert len(found) > 450
    allowed = {"as stated", "rejects", "equal"}
    wrong = [
        f"{it['id']}: {said}"
        for it, said in found
        if "wrong" in said or said[2] not in allowed or said[2] == "equal" and is_in_order(it)
    ]
    assert none_of(wrong) == ""
