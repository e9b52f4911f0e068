"""The files of vectors/: their form, by vectors/schema.json, and the model (tests/model) on each case."""

import json
import re
import subprocess
from collections import Counter
from pathlib import Path
from typing import Any

import jsonschema
import pytest
from comparing import text_of
from dependencies import TOP
from families import layout

from tests.model.json_format import json_of
from tests.model.encoding import Unread, extent, read, write
from tests.model.tables import VERSIONS, delivered, first_problem, parts
from tests.rabbitmq.broker import PYTHON
from tests.vectors.cases import CASES, DEEP, EVERY, FILES, IMPLEMENTATIONS, PROBLEMS, SCHEMA, VECTORS, Case, none_of
from tests.vectors.profiles import PROFILES, decision, flags_of, same

pytestmark = pytest.mark.usefixtures("deep")
# No limit on depth.
ANY_DEPTH = 10_000
MOST_LINES = {".py": 40, ".rs": 40, ".go": 73, ".php": 40, ".rb": 40, ".java": 40}
# What is equal to no value of a case.
NO_VALUE = {"$": 0}


@pytest.mark.parametrize("file", FILES, ids=lambda it: str(it.stem))
def test_schema(file: Path) -> None:
    found = json.loads(file.read_text())
    jsonschema.Draft7Validator(json.loads(SCHEMA.read_text())).validate(found)
    assert found["subject"] == file.stem


def test_schema_is_one() -> None:
    jsonschema.Draft7Validator.check_schema(json.loads(SCHEMA.read_text()))


def test_each_case_is_stated_once() -> None:
    """No id comes twice, and no bytes in the same form."""
    ids, given = Counter(it.id for it in EVERY), Counter((it.data, it.is_table) for it in EVERY)
    assert [it.id for it in EVERY if ids[it.id] > 1 or given[it.data, it.is_table] > 1] == []


def test_flags() -> None:
    """A case has the flags of what its bytes have, in the order of their names, and README.md explains each flag."""
    flags = {it.id: flags_of(it.data, it.is_table, it.result.get("rest", 0)) for it in EVERY}
    assert none_of([f"{it.id}: {flags[it.id]}" for it in EVERY if it.case["flags"] != flags[it.id]]) == ""
    listed = json.loads(SCHEMA.read_text())["definitions"]["flag"]["enum"]
    explained = re.findall(r"(?m)^\| `([a-z-]+)` \|", section("Flags"))
    assert explained == listed and {*listed} == {flag for it in EVERY for flag in it.case["flags"]}


def section(name: str) -> str:
    """A section of README.md."""
    _, found, text = (VECTORS / "README.md").read_text().partition(f"\n### {name}\n")
    assert found
    return re.split(r"\n##", text)[0]


@pytest.mark.parametrize("profile", PROFILES)
def test_expected(profile: str) -> None:
    """Each profile decides as its own reader does."""
    wrong = []
    for it in EVERY:
        if it.file == DEEP:
            assert it.case["expected"][profile] == "undecided"
            continue
        value = json.loads(text_of(it.result)) if "rest" in it.result else NO_VALUE
        found = decision(it.data, it.is_table, it.result.get("rest", 0), profile, value)
        wrong += [] if same(found, it.case["expected"][profile]) else [f"{it.id}: {found}"]
    assert none_of(wrong) == ""


def test_expected_is_what_rabbitmq_does() -> None:
    """What its profile accepts RabbitMQ delivers, and for what its profile rejects it closes the connection."""
    wrong, word = [], {"reject": "closes", "undecided": ""}
    for it in CASES:
        expected: Any = it.case["expected"]["rabbitmq"]
        wanted = "delivers" if isinstance(expected, dict) else word.get(expected, "delivers")
        wrong += [it.id for did in it.case.get("rabbitmq", {}).values() if wanted and wanted not in did]
    assert none_of(wrong) == ""


def test_repeats() -> None:
    """A case names another that is the same in a table, and no two that don't are the same."""
    by_id = {it.id: it for it in EVERY}
    for it in EVERY:
        first = by_id[it.case.get("repeats", it.id)]
        assert first.headers == it.headers and "repeats" not in first.case, it.id
    given = [it.headers for it in EVERY if "repeats" not in it.case]
    assert len({*given}) == len(given)


def test_canonical_is_same_where_it_is() -> None:
    """`same` stands where the canonical encoding is that of the case."""
    assert none_of([it.id for it in CASES if it.case.get("canonical") == it.encoding.hex()]) == ""


def test_families(tmp_path: Path) -> None:
    """The regular files are those that families.py writes, and every file has its layout."""
    subprocess.run([PYTHON, "-B", VECTORS / "families.py", tmp_path], check=True)
    written = sorted(tmp_path.glob("*.json"))
    assert written and [it.name for it in written if it.read_text() != (VECTORS / "cases" / it.name).read_text()] == []
    found = {it: json.loads(it.read_text()) for it in FILES}
    assert [it.name for it in FILES if layout(**found[it]) != it.read_text()] == []


def test_bugs_of_codecs() -> None:
    """CODECS.md has each codec that is scored, and a codec that fails the cases named there by the profile of RabbitMQ."""
    stored, by_id = json.loads(IMPLEMENTATIONS.read_text()), {it.id: it for it in EVERY}
    sections = re.split(r"(?m)^## ", (VECTORS / "CODECS.md").read_text())[1:]
    codecs, wrong = set(), []
    for it in sections:
        name, *versions = re.split(r" (?:and )?(?=\d)", it.split("\n")[0])
        codecs |= {f"{name} {version}" for version in versions}
        for id in re.findall(r"`([a-z0-9]+(?:-[a-z0-9]+)+)`", it):
            listed = any(f"{name} {version}" in stored["outcomes"].get(id, {}) for version in versions)
            # (what a profile expects, or is the result of the case, isn't listed)
            of_result = "accept" if "rest" in by_id[id].result else "reject"
            is_agreed = all(each in (of_result, "undecided") for each in by_id[id].case["expected"].values())
            wrong += [f"{name}: {id}"] if is_agreed and not listed else []
    assert (codecs, wrong) == ({*stored["codecs"]}, [])


def test_pages_have_the_number_of_cases() -> None:
    assert f"These are {len(EVERY)} encodings" in (VECTORS / "README.md").read_text()
    assert f"`vectors/` has {len(EVERY)} cases" in (TOP / "CHANGELOG.md").read_text()


def outcome(data: bytes) -> tuple[object, bytes | None]:
    """What the model has for an encoding: the result of a case, with JSON text for a value, and the canonical encoding."""
    try:
        value, rest = read(data)
        return {"text": json_of(value), "rest": len(rest)}, write(value)
    except Unread as why:
        if found := re.fullmatch(r"more (\d+)", str(why)):
            return {"missing": int(found[1])}, None
    problem = first_problem(data, "read", ANY_DEPTH)
    assert problem
    return {"error": next(it for it, kind in PROBLEMS.items() if kind == problem[1]), "offset": problem[0]}, None


def stated(it: Case) -> tuple[object, bytes | None]:
    """The same by the case; an offset counts the type tag of a table."""
    found = {"text": it.json, "rest": it.result["rest"]} if it.json is not None else dict(it.result)
    if "offset" in found:
        found["offset"] += it.is_table
    return found, None if it.canonical is None else b"F" * it.is_table + it.canonical


def test_model() -> None:
    """The model reads and writes each case as the file states."""
    assert none_of([f"{it.id}: {outcome(it.tagged)}" for it in CASES if outcome(it.tagged) != stated(it)]) == ""


@pytest.mark.parametrize("version", VERSIONS)
def test_model_of_rabbitmq(version: str) -> None:
    """The model predicts what RabbitMQ does with each case, and by which entry of a repeated key it routes."""
    wrong = []
    for it in CASES:
        if "rabbitmq" not in it.case:
            continue
        is_taken = extent(it.headers[:5]) == len(it.headers) and not first_problem(it.headers, depth=ANY_DEPTH)
        back = delivered(version, it.headers) if is_taken else None
        keys = [key for key, _ in parts(it.headers)] if is_taken else []
        by = ["first", "last"][VERSIONS[version].routes_by] if len({*keys}) < len(keys) else None
        if (back, by) != (it.headers_from(version), it.case["rabbitmq"][version].get("routes_by")):
            wrong.append(f"{it.id}: {back!r:.200}, routes by {by}")
    assert none_of(wrong) == ""


def test_length_of_programs() -> None:
    """The adapters are short; Go takes more lines, and so does what several of them use."""
    adapters = [it for it in (VECTORS / "adapters").glob("*.*") if it.name != "program.py"]
    assert not [it.name for it in adapters if len(it.read_text().splitlines()) > MOST_LINES[it.suffix]]
