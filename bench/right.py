"""`right_lanes` and others check that each lane reads and writes what it should, before bench/measure.py times it."""

import sys
from collections.abc import Iterable, Sequence

import speed_inputs
from lanes import OUT, Lanes, load, made, note
from speed_inputs import Input

# The sides that must have the Rust crate's results, and write its bytes.
ALIKE = ("crate", "library", "in-place", "look-up", "by-hand", "c")
# The lanes that can't take an input, by its label: Go's client doesn't know the tag u, and JSON is read up to 127 levels deep.
UNABLE = {
    "every type": ("go.read", "go.write"),
    "200 nested tables": ("crate.to-json", "crate.from-json", "library.to-json", "library.from-json"),
}
# The tasks of bench/tasks.c, by the operations of their lanes.
TASKS = {"arguments": "write a queue's arguments", "deaths": "find the count of the first death"}


def able(one: Input, lanes: Iterable[str]) -> list[str]:
    """The lanes that take an input, but those of tasks."""
    found = [it for it in lanes if it.partition(".")[2] not in TASKS and it not in UNABLE.get(one.label, ())]
    return found if one.canonical else [it for it in found if it.endswith(".read")]


def is_same(data: bytes, one: Input, lanes: Lanes) -> bool:
    """Whether the Rust crate reads bytes as the same value, whose entries may be in another order."""
    load(data, {"crate.read": lanes["crate.read"]})
    canonical = made("crate.write", lanes)[1]
    load(one.given, lanes)
    return canonical == one.canonical


def is_right(lane: str, count: int, data: bytes, one: Input, lanes: Lanes) -> bool:
    """Whether a lane has read all of an input, or made the right bytes of it."""
    side, _, operation = lane.partition(".")
    if operation == "read":
        return count == len(one.given)
    if side in ALIKE:
        # (JSON is right if the right bytes are made of it)
        return data == one.canonical or operation == "to-json"
    return data in (one.given, one.canonical) or is_same(data, one, lanes)


def right_lanes(one: Input, lanes: Lanes) -> list[str]:
    """The lanes that take an input, each of which is right."""
    load(one.given, lanes)
    results = {lane: made(lane, lanes) for lane in able(one, lanes)}
    for lane, (count, data) in results.items():
        if not is_right(lane, count, data, one, lanes):
            sys.exit(f"bench: {lane} isn't right: {count} bytes of {one.row}")
    return [*results]


def right_tasks(headers: Input, lanes: Lanes) -> Lanes:
    """The lanes of tasks: each has written the right bytes, or found the right number in message headers."""
    chosen = {it: process for it, process in lanes.items() if it.partition(".")[2] in TASKS}
    if not chosen:
        note("the tasks are left out: they need the C API and librabbitmq")
    load(headers.given, chosen)
    right = speed_inputs.queue_arguments()[1:]
    for lane in chosen:
        count, data = made(lane, chosen)
        if count != speed_inputs.FIRST_COUNT if lane.endswith("deaths") else data != right:
            sys.exit(f"bench: {lane} isn't right: {count} {data.hex()}")
    return chosen


def right_python(one: Input, lanes: Lanes) -> list[str]:
    """The lanes of Python, of which each has read or written the table of an input, as bench/side.py judges."""
    load(one.given, lanes)
    for lane in lanes:
        count, data = made(lane, lanes)
        if count != len(one.given) if lane.endswith(".read") else count < 0:
            sys.exit(f"bench: {lane} isn't right: {count} bytes of {one.row} {data.hex()}")
    return [*lanes]


def results_of(one: Input, step: int, lanes: Lanes) -> dict[str, bytes]:
    """The results of the driver's sides on the prefixes and changes of an input, by side."""
    load(one.given, lanes)
    driver, found = lanes["crate.read"], {}
    for side in dict.fromkeys(it.partition(".")[0] for it in driver.lanes):
        driver.ask("all", side, step, "results")
        found[side] = (OUT / "results").read_bytes()
    return found


def compare(inputs: Sequence[Input], step: int, lanes: Lanes) -> str:
    """Compares the results on the prefixes and changes of some inputs, and returns what was found."""
    tried = rejected = others = 0
    for one in inputs:
        results = results_of(one, step, lanes)
        for side in ALIKE:
            found = results.get(side, b"")
            if found != results["crate"][: len(found)]:
                sys.exit(f"bench: {side} has other results than the Rust crate on prefixes and changes of {one.row}")
        count = len(one.given) * (1 + len(range(0, 256, step)))
        # (the highest byte of each count: of -1 it isn't 0)
        read, other = (
            [it == 0 for it in results.get(side, b"")[7 : 8 * count : 8]] for side in ("crate", "librabbitmq")
        )
        tried, rejected = tried + count, rejected + read.count(False)
        others += sum(a != b for a, b in zip(read, other))
    return (
        f"Before timing, {tried:,} prefixes and changes of the small inputs were tried. The Rust crate rejects {rejected:,}. "
        "This library and the loop by hand agree with it on all of them"
        f"{f'; librabbitmq differs on {others:,}' if others else ''}."
    )
