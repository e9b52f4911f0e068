"""What bench/measure.py counts once, since it is the same each time: the instructions of calls, and their requests for memory."""

import re
import shutil
import sys
from collections.abc import Collection, Iterable, Iterator, Sequence

from lanes import OUT, Lanes, Process, note
from speed_inputs import Input

from tests.counts.counting import dumps

# The inputs of which this is counted, by their labels.
INPUTS = ("every type", "message headers", "server's properties", "1,000 small tables", "200 nested tables")
# The lanes whose instructions are counted: the first of reading and the first of writing are what the others are ratios to.
COLUMNS = {
    "crate.read": "the Rust crate reads",
    "library.read": "this library",
    "in-place.read": "in place",
    "c.read": "from C",
    "librabbitmq.read": "librabbitmq",
    "crate.write": "the Rust crate writes",
    "library.write": "this library",
    "librabbitmq.write": "librabbitmq",
}
HEAP = {"crate.read": "the Rust crate", "library.read": "this library", "librabbitmq.read": "librabbitmq"}
FEW, MANY = 1, 11
# Of each input the instructions of a call, by lane.
Counts = list[tuple[Input, dict[str, float]]]


def commands(inputs: Sequence[Input], lanes: Iterable[str]) -> Iterator[str]:
    """Yields what the driver is asked: few and many calls of each lane, for each input."""
    for number, one in enumerate(inputs):
        (OUT / f"input-{number}").write_bytes(one.given)
        yield f"load input-{number}"
        for lane in lanes:
            # (the first call also finds functions of the C library)
            yield from (f"make {lane} made", f"time {lane} {FEW}", f"time {lane} {MANY}")


def instructions(driver: str, inputs: Sequence[Input], lanes: Collection[str]) -> Counts:
    """The instructions of one call of each lane for each input: those of many calls less those of few."""
    words = ["--dump-before=bench_time", "--dump-after=bench_time", driver]
    calls = [
        it for it in dumps(OUT, words, "".join(f"{it}\n" for it in commands(inputs, lanes))) if "--dump-after" in it
    ]
    found = [int(total) for it in calls for total in re.findall(r"(?m)^totals: (\d+)", it)]
    if len(found) != 2 * len(inputs) * len(lanes):
        sys.exit(f"bench: {len(found)} counts of instructions")
    each = iter((many - few) / (MANY - FEW) for few, many in zip(found[::2], found[1::2]))
    return [(one, {lane: next(each) for lane in lanes}) for one in inputs]


def shown(counts: dict[str, float], lane: str) -> str:
    """What the Rust crate takes, or another lane as a ratio to it."""
    base = f"crate.{lane.partition('.')[2]}"
    return f"{counts[lane]:,.0f}" if lane == base else f"{counts[lane] / counts[base]:.2f}"


def heap_row(one: Input, process: Process, lanes: Iterable[str]) -> list[str]:
    """The requests of one reading of an input by each side, then their most bytes at once."""
    (OUT / "input").write_bytes(one.given)
    process.ask("load", "input")
    counts = [[int(it) for it in re.findall(r"\d+", process.ask("heap", lane))] for lane in lanes]
    return [one.label, *(f"{count[which]:,}" for which in (0, 1) for count in counts)]


def tables(
    driver: str, inputs: Iterable[Input], lanes: Lanes, preloaded: Process
) -> Iterator[tuple[list[str], list[list[str]]]]:
    """Yields the heads and the rows of both tables."""
    chosen = [it for it in inputs if it.label in INPUTS]
    if shutil.which("valgrind"):
        note("instructions")
        columns = {lane: text for lane, text in COLUMNS.items() if lane in lanes}
        found = instructions(driver, chosen, columns)
        rows = [[one.label, *(shown(counts, lane) for lane in counts)] for one, counts in found]
        yield ["Instructions of a call", *columns.values()], rows
    else:
        note("instructions are left out: valgrind isn't installed")
    note("heap")
    columns = {lane: text for lane, text in HEAP.items() if lane in lanes}
    heads = [f"{which}, {text}" for which in ("requests", "bytes") for text in columns.values()]
    yield ["Heap of a reading", *heads], [heap_row(it, preloaded, columns) for it in chosen]
