"""The Python package on each case of vectors/."""

from typing import Any

import amqp_values as own
import pytest

from tests.model.json_format import json_of
from tests.values import form, own_error
from tests.vectors.cases import CASES, NAMES, Case, none_of

pytestmark = pytest.mark.usefixtures("deep")
# The deepest that the package reads and writes.
DEPTH = 512
LIMITS: dict[str, Any] = {"max_bytes": 2**32 - 1, "depth": DEPTH}
TOO_DEEP = ("nested-arrays-1000", "nested-tables-1000")


def differs(it: Case) -> object:
    """What the package returns or raises instead, or nothing."""
    load: Any = own.loads_table if it.is_table else own.loads
    dump: Any = own.dumps_table if it.is_table else own.dumps
    if it.id in TOO_DEEP or it.json is None:
        error = own_error(lambda: load(it.data, **LIMITS))
        return error if error is None or error[:1] + error[2:] != wanted(it) or is_elsewhere(it, error[1]) else ""
    value = load(it.encoding, text="bytes", **LIMITS)
    again = load(dump(value, depth=DEPTH), text="bytes", **LIMITS)
    return "" if json_of(form(value)) == json_of(form(again)) == it.json else value


def wanted(it: Case) -> tuple[str, int]:
    """The kind of the error, and the missing bytes."""
    if it.id in TOO_DEEP:
        return "too deep", 0
    if it.is_beyond_limits:
        return "too large", 0
    return ("cut", it.result["missing"]) if "missing" in it.result else (NAMES[it.result["error"]], 0)


def is_elsewhere(it: Case, offset: int) -> bool:
    return bool(offset != it.result.get("offset", offset))


def test_vectors() -> None:
    """The value, by its JSON, also when it is written and read again; or the kind, the offset and the missing bytes of the error."""
    wrong = [(it, differs(it)) for it in CASES]
    assert none_of([f"{it.id}: {said!r:.200}" for it, said in wrong if said != ""]) == ""
