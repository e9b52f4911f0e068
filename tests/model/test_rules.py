"""Tries mutants of the model: each breaks one rule, and has to disagree with a row.

The rules are the lines of `mutants`, and of each type tag that it is one, and its width. The rows are those of worked.py, what
programs have stored, and the test vectors.
"""

import re
import signal
from collections.abc import Callable, Iterator
from pathlib import Path
from types import ModuleType
from typing import Any, NamedTuple

import pytest

from tests.model import encoding, json_format, rules, stored_output, tables, worked
from tests.model.stored_output import Rows
from tests.vectors.cases import CASES

HERE = Path(__file__).parent


def rows_of_vectors(model: Any) -> Rows:
    """The cases of vectors/ that have their bytes, by what amqp_wire prints of them."""
    for it in CASES:
        if "bytes" in it.case:
            yield it.id, stored_output.line(it.tagged.hex(), model) == it.line


# The rows by which each file is judged.
ROWS: dict[str, tuple[ModuleType, list[Callable[[Any], Rows]]]] = {
    "encoding.py": (encoding, [stored_output.rows_of_wire, rows_of_vectors, worked.rows_of_encoding]),
    "rules.py": (rules, [worked.rows_of_rules]),
    "tables.py": (tables, [worked.rows_of_tables]),
    "json_format.py": (json_format, [worked.rows_of_json, stored_output.rows_of_encode]),
}
CHANGE = re.compile("«(.*?)→(.*?)»")


class Mutant(NamedTuple):
    """A rule, and words of a file that are replaced by others."""

    rule: str
    file: str
    old: str
    new: str


def of_types() -> Iterator[Mutant]:
    """Of each type tag that it is one, and the width of its payload; and of each name in JSON what is under it."""
    for tag, (name, width) in encoding.TYPES.items():
        entry, wider = f'"{tag}": ("{name}", {width})', 3 if width is None else width + 1
        yield Mutant(f"{tag} is a type tag", "encoding.py", entry, f'"no tag {tag}": ("{name}", {width})')
        yield Mutant(f"the width of {tag}", "encoding.py", entry, f'"{tag}": ("{name}", {wider})')
    for name, (tag, width, is_signed) in json_format.INTEGERS.items():
        entry = f'"{name}": ("{tag}", {width}, {is_signed})'
        yield Mutant(f"{name} is a name in JSON", "json_format.py", entry, entry.replace(name, f"no {name}"))
        yield Mutant(f"the range of {name}", "json_format.py", entry, entry.replace(str(width), str(width + 1)))
        yield Mutant(f"the sign of {name}", "json_format.py", entry, entry.replace(str(is_signed), str(not is_signed)))


def of_file() -> Iterator[Mutant]:
    """The lines of `mutants`."""
    file = ""
    for line in (HERE / "mutants").read_text().splitlines():
        if line and line[0] != "#":
            rule, _, change = line.partition(": ")
            file = change if rule == "file" else file
            if rule != "file":
                yield Mutant(rule, file, CHANGE.sub(r"\1", change), CHANGE.sub(r"\2", change))


MUTANTS = [*of_types(), *of_file()]


def mutated(it: Mutant) -> ModuleType:
    """The module with these words replaced, which it has once."""
    text = (HERE / it.file).read_text()
    assert text.count(it.old) == 1, f"{it.file} has {text.count(it.old)} times: {it.old}"
    module = ModuleType(f"mutated_{it.file.removesuffix('.py')}")
    exec(compile(text.replace(it.old, it.new), it.file, "exec"), vars(module))
    return module


def first_wrong(file: str, model: Any) -> str:
    """The first row that a model doesn't agree with, or at which it fails; nothing if it agrees with all."""
    name = "the first row"
    try:
        for rows in ROWS[file][1]:
            for name, is_well in rows(model):
                if not is_well:
                    return name
    except Exception as why:
        return f"after {name}: {why!r}"
    return ""


@pytest.mark.parametrize("file", ROWS)
def test_model_agrees_with_each_row(file: str) -> None:
    assert first_wrong(file, ROWS[file][0]) == ""


@pytest.mark.parametrize("mutant", MUTANTS, ids=[it.rule for it in MUTANTS])
def test_broken_rule_is_found_out(mutant: Mutant) -> None:
    # (a broken model may never end: the alarm then ends the process)
    signal.alarm(30)
    assert first_wrong(mutant.file, mutated(mutant)) != ""
    signal.alarm(0)


def test_each_rule_is_broken_once() -> None:
    assert len({it.rule for it in MUTANTS}) == len(MUTANTS)
