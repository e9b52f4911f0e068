"""The cases of writing (vectors/writing.json): their form, and what the model (tests/model) and the runner make of each."""

import json
import re
import subprocess
from pathlib import Path
from typing import Any

import jsonschema
import pytest
import writing
from comparing import bytes_of, in_a_table, text_of
from run import PROFILES
from wheels import PYTHON

from tests.model.encoding import write
from tests.model.json_format import Rejected, value_of_json
from tests.vectors.cases import VECTORS, none_of

pytestmark = pytest.mark.usefixtures("deep")
FILE = json.loads((VECTORS / "writing.json").read_text())
CASES = [it for it in FILE["cases"] if "large" not in it["flags"]]


def test_schema() -> None:
    schema = json.loads((VECTORS / "writing.schema.json").read_text())
    jsonschema.Draft7Validator.check_schema(schema)
    jsonschema.Draft7Validator(schema).validate(FILE)


def test_each_id_is_there_once() -> None:
    ids = [it["id"] for it in FILE["cases"]]
    assert len({*ids}) == len(ids)


def of_model(case: Any) -> bytes | None:
    """What the model writes for a case, or nothing if the JSON means no value."""
    text = text_of(case) if "pairs" not in case else json.dumps(dict(case["pairs"]))
    try:
        data = write(value_of_json(text.encode("utf-8", "surrogatepass")))
    except Rejected:
        return None
    return data[case["form"] == "table" :]


def test_model() -> None:
    """The model writes the bytes of each case, and nothing where there is an error."""
    wanted = {it["id"]: None if "error" in it and "pairs" not in it else bytes_of(it) for it in CASES}
    wrong = [it["id"] for it in CASES if of_model(it) != wanted[it["id"]]]
    assert none_of(wrong) == ""


def test_equal_bytes_are_read_by_each_profile() -> None:
    """The runner's own reader reads what is canonical as the value, where the profile decides the case."""
    wrong = [
        f"{it['id']} by {profile}"
        for it in writing.cases()
        for profile in PROFILES
        if "error" not in it and "large" not in it["flags"] and it["expected"][profile] == "write"
        if writing.read_back(in_a_table(bytes_of(it), it["form"] == "table"), profile) != writing.meant_of(it)
    ]
    assert none_of(wrong) == ""


def test_large() -> None:
    """What is too long for a field is stated by its length alone."""
    large = [it for it in FILE["cases"] if "large" in it["flags"]]
    assert [it["error"] for it in large] == ["value too long"] * 3
    assert all(sum(len(part) * times for part, times in it["text"]) >= 2**32 - 1 for it in large)


@pytest.mark.parametrize("adapter", ("pika", "pamqp", "pyamqp"))
def test_scores_of_the_page(adapter: str) -> None:
    """WRITING.md has how many cases the clients of Debian 12 write right."""
    words: list[str | Path] = [PYTHON, VECTORS / "writing.py", f"adapters.{adapter}"]
    done = subprocess.run(words, capture_output=True, text=True, check=False)
    score = re.search(r"rabbitmq: (\d+ of \d+) right", done.stderr)
    assert score and f"| {score[1]} |" in (VECTORS / "WRITING.md").read_text()


def test_page_has_the_number_of_cases() -> None:
    assert f"has {len(FILE['cases'])} values to write" in (VECTORS / "WRITING.md").read_text()
