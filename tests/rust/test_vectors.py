"""amqp-values on each case of vectors/, as vectors.rs reads it."""

import json
from pathlib import Path
from typing import Any

import pytest

from tests.model.json_format import json_of
from tests.model.encoding import Value
from tests.model.tables import number
from tests.rust.cargo import CRATES, TARGET, assert_well, cargo, package, run
from tests.vectors.cases import CASES, Case, none_of

pytestmark = [pytest.mark.needs("cargo"), pytest.mark.usefixtures("deep")]
# How the crate calls each error of the vectors.
KINDS = {"unknown tag": "UnknownTag({})", "value cut": "Cut", "key cut": "KeyCut", "key not UTF-8": "KeyNotUtf8"}


def value_of(found: Any) -> Value:
    """What the program prints of a value, in the form of the model."""
    ((tag, content),) = found.items()
    if tag == "A":
        return tag, [value_of(it) for it in content]
    if tag == "F":
        return tag, {bytes.fromhex(key): value_of(it) for key, it in content}
    if tag == "V":
        return tag, b""
    return (tag, bytes.fromhex(content)) if isinstance(content, str) else number(tag, content)


def is_well(it: Case, said: str) -> bool:
    if it.json is not None:
        text, _, rest = said.rpartition(" ")
        return rest == f"{it.result['rest']}" and json_of(value_of(json.loads(text))) == it.json
    if it.is_beyond_limits:
        return said == "Problem(Problem { offset: 0, kind: TooLarge })"
    if "missing" in it.result:
        return said == f"Incomplete {{ missing: {it.result['missing']} }}"
    at = it.result["offset"]
    kind = KINDS[it.result["error"]].format(it.data[at] if at < len(it.data) else 0)
    return said == f"Problem(Problem {{ offset: {at}, kind: {kind} }})"


def test_vectors(copies: Path) -> None:
    folder = package("vectors", [f'amqp-values = {{ path = "{copies / CRATES[1]}" }}'], vectors="vectors")
    assert_well(cargo(folder, "build", "--release", "--quiet"))
    given = "".join(f"{it.case['form']} {it.data.hex()}\n" for it in CASES)
    printed = assert_well(run([TARGET / "release/vectors"], input=given, timeout=60))
    said = zip(CASES, printed.splitlines(), strict=True)
    assert none_of([f"{it.id}: {text:.200}" for it, text in said if not is_well(it, text)]) == ""
