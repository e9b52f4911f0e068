"""JSON by the crate amqp-values, which json.rs calls, against tests/model/json_format.py."""

import re
from collections import Counter
from collections.abc import Iterator
from pathlib import Path
from random import Random

import pytest

from tests import large_texts
from tests.json_reasons import TEXTS
from tests.model.json_format import LEVELS, SPACE, Rejected, json_of, large_values, texts, value_of_json
from tests.model.encoding import TYPES, extent, json_of_encoding, lack, read, write
from tests.model.inputs import damaged, nested, value_of
from tests.model.tables import first_problem, odd_table, random_table, raw
from tests.rust.cargo import CRATES, RUST, TARGET, assert_well, cargo, package, run

pytestmark = [pytest.mark.needs("cargo"), pytest.mark.usefixtures("deep")]
# How the crate calls each problem of the model, and each error of a text.
KINDS = {1: "UnknownTag({})", 3: "Cut", 4: "KeyCut", 5: "TooDeep", 7: "KeyNotUtf8"}
WRONG = {"": "NotJson", "TooDeep": "TooDeep"}
# The deepest values of which there is JSON, and how many values are tried.
MOST_DEPTH, COUNT = 1024, 2_000
# A line for the program, and what it has to print.
Row = tuple[str, str]


def problem(kind: str, offset: int) -> str:
    return f"Problem(Problem {{ offset: {offset}, kind: {kind} }})"


def of_bytes(data: bytes, depth: int, left_out: int, is_canonical: bool = False) -> Row:
    """A row for bytes, from which a table's type tag may be left out."""
    given = f"{'canonical_' * is_canonical}{'table_' * left_out}to_json {depth} {data[left_out:].hex()}"
    found = first_problem(data, "read", min(depth, MOST_DEPTH))
    if found is None:
        text = json_of(read(data)[0]) if is_canonical else json_of_encoding(data)
        return given, text.encode().hex()
    at, kind, tag = found
    if at == 0 and kind == 3 and (not data or chr(data[0]) in TYPES):
        return given, f"Incomplete {{ missing: {lack(data)} }}"
    return given, problem(KINDS[kind].format(tag), max(0, at - left_out))


def of_text(text: bytes, depth: int, is_table: bool) -> Row:
    given = f"{'table_' * is_table}from_json {depth} {text.hex()}"
    try:
        value = value_of_json(text, min(depth, LEVELS))
    except Rejected as why:
        return given, problem(WRONG.get(why.mismatch, f"NotAValue({why.mismatch})"), why.at)
    if is_table and value[0] != "F":
        return given, problem("NotATable", len(text) - len(text.lstrip(SPACE)))
    return given, write(value)[is_table:].hex()


def rows(make: Random) -> Iterator[Row]:
    for number, value in enumerate(large_values(make, COUNT)):
        for data in (raw(value), odd_table(make), raw(random_table(make)), value_of(make, 3)):
            data = damaged(make, data) if make.random() < 0.3 else data
            # (the limit on bytes is another test's)
            if extent(data) < 2**32:
                left_out, is_canonical = number % 2 if data[:1] == b"F" else 0, number % 3 == 0
                yield of_bytes(data, make.choice([0, 1, 2, 32]), left_out, is_canonical)
        for text in texts(make, [value]):
            yield of_text(text, make.choice([1, 3, 32, LEVELS, 2**32 - 1]), number % 3 == 0)
    for form in ("A", "F", "AF"):
        for levels in (1, LEVELS - 1, LEVELS, LEVELS + 1, MOST_DEPTH, MOST_DEPTH + 1):
            data = nested(form, levels, b"V")
            yield of_bytes(data, 2**32 - 1, 0)
            yield of_bytes(data, 2**32 - 1, 0, is_canonical=True)
            yield of_text(json_of(read(data)[0]).encode(), 2**32 - 1, False)


def large_rows() -> Iterator[Row]:
    """Texts that are wrong beyond byte 65,536, and beyond 1 MiB. (A str is UTF-8.)"""
    kinds = {
        large_texts.NOT_JSON: "NotJson({})",
        large_texts.TOO_DEEP: "TooDeep",
        large_texts.NOT_A_VALUE: "NotAValue({})",
    }
    for text, wrong, at, reason in large_texts.wrong_texts():
        if wrong in kinds:
            yield f"from_json 1 {text.hex()}", problem(kinds[wrong].format(reason), at)


def is_right(found: str, wanted: str) -> bool:
    """Whether a line is the one that was wanted. (Why a text isn't JSON, the model doesn't say.)"""
    return wanted in (found, re.sub(r"NotJson\(\w+\)", "NotJson", found))


def test_json(copies: Path, seed: int) -> None:
    folder = package("json", [f'amqp-values = {{ path = "{copies / CRATES[1]}" }}'], json="json")
    assert_well(cargo(folder, "build", "--release", "--quiet"))
    asked = [*rows(Random(seed)), *large_rows()]
    given = "".join(f"{it}\n" for it, _ in asked)
    said = assert_well(run([TARGET / "release/json"], input=given, timeout=300)).splitlines()
    wrong = [
        (it, wanted, found) for (it, wanted), found in zip(asked, said, strict=True) if not is_right(found, wanted)
    ]
    assert not wrong, f"{len(wrong)}, as {str(wrong[0]):.2000}"
    counts = Counter(it.partition(" {")[0].partition("(")[0] if it[:1] in "IP" else "" for it in said)
    assert counts[""] > len(said) / 3 and counts["Problem"] > len(said) / 10, counts


def test_texts_of_reasons() -> None:
    """They are those of amqp_json."""
    source = (RUST / "amqp-values/src/error.rs").read_text()
    body = source.partition("impl fmt::Display for JsonReason {")[2].partition("\n}\n")[0]
    assert dict(re.findall(r'Self::(\w+) => "(.*)",', body)) == TEXTS | {"Other": "unknown reason"}
