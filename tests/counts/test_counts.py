"""No call takes more instructions, memory or stack than its row of table.txt allows. `--write` writes the table anew.

The kit compiles the library, so a call takes the same instructions wherever the same kit builds it. A row lets it take 0.5 %
more, which another kit may need; a change of a loop makes more. Allocations and the memory that is held don't depend on the
machine. The C library's own stack may vary by 256 bytes.

If the input doubles, instructions may grow by 2.5 at most. They double if nothing is sorted, and to sort n keys takes n log n
comparisons, which grow by 2.2. Those of a call that is quadratic grow by 4.

A call that has no allocation in its row may not allocate. `--write` leaves such a row, so that it has to be changed by hand.
"""

import re
from collections.abc import Callable, Iterable, Sequence
from pathlib import Path
from statistics import mean
from typing import NamedTuple

import pytest
from dependencies import TOP

from tests.counts.counting import OfCall, Taken, grown, taken
from tests.counts.inputs import INPUTS
from tests.memory import stacks

TABLE, HEADER = Path(__file__).with_name("table.txt"), TOP / "include/amqp_values.h"
HEAD = """\
What each call takes. `tests/run counts` fails if a call takes more, and `tests/run counts --write` writes this table anew.

instructions  for 1,000 bytes of input, the average over messages and tables; a byte that is copied counts as one
allocations   over the same inputs, in all; a call with `-` never allocates
held          the most bytes of memory at once for each byte of input
stack         bytes, with `a level` for each level of nesting
growth        how many times as many instructions a call takes at most if the input doubles

"""
# Inputs of fewer bytes don't show what is held for each byte.
LARGE = 10_000


class Column(NamedTuple):
    """A column of the table: how its numbers are written, and the most that a call may take by its row."""

    name: str
    form: str
    most: Callable[[float], float]

    def written(self, number: float) -> str:
        text = self.form.format(number)
        return text if float(text.replace(",", "")) else NONE


ALLOCATIONS, NONE = 1, "-"
COLUMNS = (
    Column("instructions", "{:,.0f}", lambda row: row * 1.005),
    Column("allocations", "{:,.0f}", lambda row: row),
    Column("held", "{:,.1f}", lambda row: row),
    Column("stack", "{:,.0f}", lambda row: row + 256),
    Column("a level", "{:,.0f}", lambda row: row + 4),
    Column("growth", "{:.2f}", lambda row: 2.5),
)
# The numbers of each call, as the table has them.
Rows = dict[str, list[str]]
# A number, and the input that it is of.
Most = tuple[float, str]


def number(written: str) -> float:
    return 0 if written == NONE else float(written.replace(",", ""))


def most(found: Iterable[Most]) -> Most:
    return max(found, default=(0, ""))


def numbers(found: OfCall) -> list[Most]:
    """The numbers of a call."""
    of_size, pairs = [it for name, it in found.items() if INPUTS[name].size == 1], [*grown(found)]
    levels = {name: INPUTS[name].levels for name in found}
    return [
        (mean(it.instructions * 1000 / it.given for it in of_size), ""),
        (sum(it.allocations for it in of_size), ""),
        most((it.held / it.given, name) for name, it in found.items() if it.given >= LARGE),
        most((it.stack, name) for name, it in found.items() if INPUTS[name].size and not levels[name]),
        most((2 * (now.stack - half.stack) / levels[name], name) for name, half, now in pairs if levels[name]),
        most((now.instructions / max(half.instructions, 1), name) for name, half, now in pairs),
    ]


def rows() -> Rows:
    """The rows of the table."""
    lines = TABLE.read_text().rpartition("\n\n")[2].splitlines()[1:] if TABLE.exists() else []
    return {call: row for call, *row in (re.split(r"\s{2,}", it) for it in lines)}


def write(found: dict[str, OfCall], old: Rows) -> None:
    """Writes the table."""
    lines = [["call", *(it.name for it in COLUMNS)]]
    for call, of_call in found.items():
        row = [column.written(it) for column, (it, _) in zip(COLUMNS, numbers(of_call))]
        if call in old and old[call][ALLOCATIONS] == NONE:
            row[ALLOCATIONS] = NONE
        lines.append([call, *row])
    TABLE.write_text(HEAD + "".join(f"{call:<38}" + "".join(f"{it:>14}" for it in row) + "\n" for call, *row in lines))


def fail_if(wrong: Sequence[str]) -> None:
    if wrong:
        pytest.fail("\n".join(wrong), pytrace=False)


@pytest.fixture(scope="module")
def found() -> dict[str, OfCall]:
    """What each call takes now."""
    return taken()


@pytest.fixture(scope="module")
def table(request: pytest.FixtureRequest, found: dict[str, OfCall]) -> Rows:
    """The rows, which --write writes anew."""
    if request.config.getoption("--write"):
        write(found, rows())
    return rows()


def test_each_call_has_a_row(found: dict[str, OfCall], table: Rows) -> None:
    assert [*table] == [*found], "tests/run counts --write writes the table anew"


def test_each_call_is_done(found: dict[str, OfCall]) -> None:
    """Each call returns AMQPV_OK or AMQPV_NONE, or for a text that is rejected another code."""
    results = [(call, name, it.result) for call, of_call in found.items() for name, it in of_call.items()]
    fail_if([f"{call}, {name}: {it}" for call, name, it in results if (it < 0) != name.startswith("rejected")])


@pytest.mark.parametrize("call", rows())
def test_row(call: str, found: dict[str, OfCall], table: Rows) -> None:
    """A call takes no more than its row."""
    if call not in found or call not in table:
        return  # the first test fails, or --write has removed the row
    wrong = []
    for column, was, (now, name) in zip(COLUMNS, table[call], numbers(found[call])):
        is_now, may_be = column.written(now), column.written(column.most(number(was)))
        if number(is_now) > number(may_be):
            of_input = f" with {name}" if name else ""
            wrong.append(f"{call}, {column.name}{of_input}: was {was}, is {is_now}, may be {may_be}")
    fail_if(wrong)


def test_stack_is_stated() -> None:
    """A level takes no more here than docs/PROMISES.md states, and of the calls that take most here more than half of it."""
    figures, _ = stacks.table()
    for call, (*_, a_level, _) in rows().items():
        name, takes = call.split()[0], number(a_level)
        # (amqpv_put and others have amqpv_put_value among them)
        stated = max((it for of, it in figures.items() if of.startswith(name)), default=0)
        assert takes <= stated, f"{call}: {takes} bytes a level, {stated} are stated"
        assert (
            takes > stated / 2 or name not in stacks.IN_COUNTS
        ), f"{call}: {takes} bytes a level, and {stated} are stated"


def test_stack_of_unlimited_parsing() -> None:
    """The tables of which README.md says that they can overflow a stack do so here, by what a level takes."""
    ((kilobytes, mebibytes),) = re.findall(
        r"(\d+) kB of nested tables can overflow a stack of (\d+) MiB", (TOP / "README.md").read_text()
    )
    a_level = number(rows()["parse_value"][-2])
    assert int(kilobytes) * 1000 / 6 * a_level > int(mebibytes) << 20


# What the header states that calls hold at most, and how much that is; a row of a table without its type tag is of the same call.
STATED: dict[str, tuple[str, Callable[[Taken], float]]] = {
    "amqpv_canonical": (
        "145 per byte, or 4 per byte and 860 per value",
        lambda it: min(145 * it.given, 4 * it.given + 860 * it.values),
    ),
    "amqpv_from_json": ("180 per byte of the text", lambda it: 180 * it.given),
    "amqpv_warn": (
        "50 per byte, or 39 per value and 248 per level",
        lambda it: min(50 * it.given, 39 * it.values + 248 * it.levels),
    ),
}


def test_header_states_each_call_that_holds_memory(found: dict[str, OfCall]) -> None:
    holding = {call.split()[0] for call, it in found.items() if any(of.held for of in it.values())}
    assert {it for it in holding if it.startswith("amqpv_")} == {*STATED}


@pytest.mark.parametrize("call", STATED)
def test_held_is_stated(call: str, found: dict[str, OfCall]) -> None:
    """No input takes more memory than the header states."""
    stated, most_of = STATED[call]
    header = " ".join(HEADER.read_text().replace("\n * ", " ").split())
    assert f"{call} {stated}" in header
    rows = [of_row for row, of_row in found.items() if row.split()[0] == call]
    held = [(name, it.held, most_of(it)) for of_row in rows for name, it in of_row.items()]
    fail_if([f"{call} holds {it:,} bytes with {name}, {may:,} are stated" for name, it, may in held if it > may])


def test_held_of_keys_that_ascend(found: dict[str, OfCall]) -> None:
    """amqpv_from_json takes what the header states if the keys of every object ascend, as in the text of a canonical encoding."""
    (stated,) = re.findall(r"per byte of the text; (\d+) if the keys of every object ascend", HEADER.read_text())
    of_call = {name: it for name, it in found["amqpv_from_json"].items() if not name.endswith("before a lower key")}
    large = {name: it for name, it in of_call.items() if it.given >= LARGE}
    fail_if([f"{it.held:,} bytes with {name}" for name, it in large.items() if it.held > int(stated) * it.given])
