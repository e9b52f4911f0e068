#!/usr/bin/env python3
"""Times this library next to others: bench/measure.py [--quick] [--crate FOLDER [--packages FOLDER]]

It prints tables, writes them into docs/SPEED.md and bench/RESULTS.md in place of those there, and draws docs/speed.svg of them.
With --quick, in a minute, it prints the times only.

- This library: crates/amqp_bench and amqp_show as `rt ci` has left them, the C API and JSON over generated/.
- The Rust crate 10.6.3, built by cargo from its registry or from a folder that has it (--crate). --packages: cargo takes all
  packages from this folder, which `cargo vendor` made, and needs no network.
- librabbitmq (Debian's librabbitmq-dev), Go (golang-go, golang-github-rabbitmq-amqp091-go-dev) and Erlang (erlang-base,
  rabbitmq-server): a side that isn't installed is reported and left out.
- Python's clients (python3-pika, python3-amqp, python3-pamqp), the package of bindings/python, and the clients with its adapters.

It also needs gcc, and cargo with rustc 1.85 or later; instructions are counted by valgrind, and left out without it. All
sides are one process, except Go, Erlang and Python, each a process. Nothing is timed before each side has made the right bytes of
each input, and this library and the loop by hand have the Rust crate's results on all prefixes and changes of the three small
ones: if one hasn't, the run ends. Then the sides alternate in rounds. A time is the median of the rounds, a ratio the median
of the ratios within a round, with its quartiles in brackets.
"""

import argparse
import math
import os
import re
import shutil
import statistics
import subprocess
import sys
import time
from collections.abc import Iterable, Iterator, Mapping, Sequence
from datetime import date
from pathlib import Path

ROOT = Path(__file__).resolve().parents[1]
sys.path += [str(ROOT), str(ROOT / "packaging")]

import counted  # noqa: E402
import picture  # noqa: E402
import speed_inputs  # noqa: E402
from dependencies import TOP, said_by  # noqa: E402
from lanes import BEGIN, OUT, RUST_CRATE, Lanes, load, note, preloaded, python_sides, sides  # noqa: E402
from page import RESULTS, SPEED, Pages  # noqa: E402
from right import TASKS, compare, right_lanes, right_python, right_tasks  # noqa: E402
from speed_inputs import Input  # noqa: E402

# By the head of a table, the lane that ratios are to, and lanes with the heads of their columns.
TABLES = {
    "Read and drop": (
        "crate.read",
        {"library.read": "this library", "librabbitmq.read": "librabbitmq", "go.read": "Go", "erlang.read": "Erlang"},
    ),
    "Read in place": (
        "crate.read",
        {
            "in-place.read": "this library",
            "look-up.read": "with a look-up",
            "c.read": "from C",
            "librabbitmq.read": "librabbitmq",
            "by-hand.read": "by hand",
        },
    ),
    "Write": (
        "crate.write",
        {
            "library.write": "this library",
            "librabbitmq.write": "librabbitmq",
            "go.write": "Go",
            "erlang.write": "Erlang",
        },
    ),
    "Bytes to JSON": ("crate.to-json", {"library.to-json": "this library"}),
    "JSON to bytes": ("crate.from-json", {"library.from-json": "this library"}),
}
# The tables of Python's clients, by the operations of their lanes.
OF_PYTHON = {"read": "Read by Python", "write": "Write by Python"}
# How many values a stream has.
STREAM = 100_000
# The median of some ratios, and their quartiles.
Ratios = tuple[float, float, float]


class Times:
    """The nanoseconds of each lane for one input, round by round."""

    def __init__(self, lanes: Lanes, chosen: Iterable[str], rounds: int, least: float) -> None:
        self.lanes, self.least = lanes, least
        self.rounds: dict[str, list[float]] = {lane: [] for lane in chosen}
        calls = {lane: self.calls_of(lane) for lane in self.rounds}
        for _ in range(rounds):
            for lane, times in calls.items():
                self.rounds[lane].append(self.time_of(lane, times) / times)

    def time_of(self, lane: str, times: int) -> int:
        """The nanoseconds of n calls."""
        return int(self.lanes[lane].ask("time", lane, times))

    def calls_of(self, lane: str) -> int:
        """How many calls are enough for a round; of writing, for five times one reading, which is taken off."""
        reading = self.time_of(lane.replace("write", "read"), 1)
        enough, times = max(self.least, 5 * reading if lane.endswith("write") else 0), 1
        while (took := self.time_of(lane, times)) < enough and times < 1 << 26:
            times = 8 * times if took < enough / 20 else max(times + 1, math.ceil(times * enough / took))
        return times

    def ratios(self, lane: str, base: str) -> Ratios | None:
        """The median of the ratios, and its quartiles."""
        if lane not in self.rounds or base not in self.rounds:
            return None
        ratios = [a / b for a, b in zip(self.rounds[lane], self.rounds[base])]
        low, median, high = statistics.quantiles(ratios, n=4, method="inclusive")
        return median, low, high

    def median(self, lane: str) -> str:
        """The median of the rounds, with its unit."""
        if lane not in self.rounds:
            return "–"
        median = statistics.median(self.rounds[lane])
        if median >= 1e6:
            return f"{median / 1e6:.2f} ms"
        return f"{median / 1e3:.2f} us" if median >= 1e3 else f"{median:.1f} ns"


# Inputs with their times.
Timed = list[tuple[Input, Times]]


def measured(inputs: Sequence[Input], lanes: Lanes, rounds: int, least: float) -> Timed:
    """Times the lanes that are right for each input, and returns the inputs with their times."""
    note(f"the bytes of {len(inputs)} inputs")
    right = [right_lanes(one, lanes) for one in inputs]
    found: Timed = []
    for one, chosen in zip(inputs, right):
        note(f"{len(found) + 1} of {len(inputs)}: {one.row}")
        load(one.given, lanes)
        found.append((one, Times(lanes, chosen, rounds, least)))
    return found


def shown(ratios: Ratios | None) -> str:
    """A ratio as tables have it: the median, and in brackets the quartiles."""
    if ratios is None:
        return "–"
    if ratios[0] < 0.01:
        return "<0.01"
    median, low, high = (f"{it:.{2 if ratios[0] < 10 else 0}f}" for it in ratios)
    return f"{median} ({low}–{high})"


def ratio_tables(pages: Pages, found: Timed, lanes: Lanes) -> None:
    """The tables of TABLES, with the sides that are there."""
    for head, (base, lanes_of_table) in TABLES.items():
        columns = {lane: text for lane, text in lanes_of_table.items() if lane in lanes}
        rows = []
        for one, times in [(one, times) for one, times in found if base in times.rounds]:
            # inputs are described in the first table
            name = one.label if pages.tables else one.row
            rows.append([name, times.median(base), *(shown(times.ratios(it, base)) for it in columns)])
        if columns:
            pages.table([head, "the Rust crate", *columns.values()], rows)


def task_table(
    pages: Pages, headers: Input, lanes: Lanes, rounds: int, least: float, counts: Mapping[str, float] | None
) -> None:
    """The tasks of C programs, this library from C next to librabbitmq, with the instructions of a call if they are known."""
    note("tasks")
    load(headers.given, lanes)
    times, names = Times(lanes, lanes, rounds, least), ("librabbitmq", "this library")
    rows = []
    for operation, text in TASKS.items():
        base, lane = f"librabbitmq.{operation}", f"c.{operation}"
        rows.append([text, times.median(base), shown(times.ratios(lane, base))])
        rows[-1] += [f"{counts[base]:,.0f}", f"{counts[lane] / counts[base]:.2f}"] if counts else []
    pages.table(["A task from C", *names, *(f"instructions, {it}" for it in names if counts)], rows)


def python_tables(pages: Pages, lanes: Lanes, rounds: int, least: float) -> None:
    """The tables of Python: the clients, and as ratios the package to the fastest of them, and each adapter to its client."""
    if not lanes:
        return
    found: Timed = []
    for one in speed_inputs.of_python():
        note(f"Python: {one.row}")
        found.append((one, Times(lanes, right_python(one, lanes), rounds, least)))
    clients = dict.fromkeys(it.partition("-adapter")[0] for it in map(side_of, lanes) if it != "package")
    for operation, head in OF_PYTHON.items():
        rows = []
        for one, times in found:
            fastest = min(clients, key=lambda it: statistics.median(times.rounds[f"{it}.{operation}"]))
            ratios = {"package": fastest} | {f"{it}-adapter": it for it in clients}
            shown_ones = [shown(times.ratios(f"{it}.{operation}", f"{to}.{operation}")) for it, to in ratios.items()]
            name = one.row if operation == "read" else one.label
            rows.append([name, *(times.median(f"{it}.{operation}") for it in clients), *shown_ones])
        pages.table([head, *clients, "the package", *(f"{it}, adapter" for it in clients)], rows)


def side_of(lane: str) -> str:
    return lane.partition(".")[0]


def stream_table(pages: Pages, program: Path, rounds: int) -> None:
    """How fast amqp_show reads a stream of small values, as its output is discarded."""
    if not program.exists():
        note(f"amqp_show is left out: there is no {program} (rt ci)")
        return
    note("amqp_show")
    (OUT / "stream").write_bytes(data := speed_inputs.stream(STREAM).given)
    words, took = [str(program), "--stream", "--json", str(OUT / "stream")], []
    if (lines := subprocess.run(words, capture_output=True).stdout.count(b"\n")) != STREAM:
        sys.exit(f"bench: amqp_show makes {lines} lines of {STREAM} values")
    for _ in range(rounds):
        begin = time.monotonic()
        subprocess.run(words, stdout=subprocess.DEVNULL, check=True)
        took.append(time.monotonic() - begin)
    median = statistics.median(took)
    row = [
        "`amqp_show --stream --json`",
        f"{len(data) / median / 1e6:.1f} MB",
        f"{STREAM / median:,.0f}",
        f"{min(took):.2f}–{max(took):.2f} s",
    ]
    pages.table(["The stream", "a second", "values a second", "all of it"], [row])


def machine() -> Iterator[tuple[str, str]]:
    """What the figures are from: the day, a processor, packages and programs, each after the page that has it."""
    about = dict(re.findall(r"(?m)^(model name|model)\s*: (.*)$", Path("/proc/cpuinfo").read_text()))
    load, processors = os.getloadavg()[0], os.cpu_count() or 1
    if load > processors / 4:
        note(f"the machine is busy, with load {load:.1f}: ratios are rough, times more so")
    model = f"{about.get('model name', 'unknown')}, model {about.get('model', 'unknown')}"
    yield SPEED, f"{date.today():%-d %B %Y}, {model}, {processors} cores"
    yield RESULTS, f"load {load:.1f} at the start"
    lock = dict(re.findall(r'name = "(.*)"\nversion = "(.*)"', (OUT / "Cargo.lock").read_text()))
    is_older = lock.get("nom", "").startswith("7.")
    changed = " (the crate's own is nom 8, and the given folder was changed for this one)" if is_older else ""
    crates = (RUST_CRATE, "cookie-factory", "serde_json", "nom")
    yield SPEED, ", ".join(f"{it} {lock.get(it)}" for it in crates) + changed
    debian = {
        SPEED: ("librabbitmq-dev", "golang-github-rabbitmq-amqp091-go-dev", "rabbitmq-server"),
        RESULTS: ("python3", "python3-pika", "python3-amqp", "python3-pamqp"),
    }
    for page, packages in debian.items():
        said = (said_by("dpkg-query", "-W", "-f", "${Package} ${Version}", it) for it in packages)
        yield page, ", ".join(filter(None, said))
    tools = ("rustc", "--version"), ("cc", "-dumpfullversion"), ("go", "version"), ("rt", "version")
    yield RESULTS, ", ".join(f"{words[0]}: {said_by(*words)}" for words in tools if shutil.which(words[0]))


def asked() -> argparse.Namespace:
    """What the command line asks for."""
    reader = argparse.ArgumentParser(
        prog="bench/measure.py", description=__doc__, formatter_class=argparse.RawDescriptionHelpFormatter
    )
    reader.add_argument("--quick", action="store_true")
    for it in ("--crate", "--packages"):
        reader.add_argument(it, type=Path, metavar="FOLDER")
    return reader.parse_args()


def main() -> None:
    given = asked()
    if missing := [it for it in ("cargo", "cc", "rt") if not shutil.which(it)]:
        sys.exit(f"bench: missing: {', '.join(missing)}")
    rounds, least, step = (5, 1e6, 37) if given.quick else (25, 6e6, 1)
    lanes, inputs, pages = sides(given), [*speed_inputs.ten()], Pages()
    built, driver = time.monotonic() - BEGIN, lanes["crate.read"]
    for where, text in machine():
        pages.line(text, where)
    note("results on prefixes and changes")
    pages.line(compare(inputs[:3], step, lanes), SPEED)
    tasks = right_tasks(headers := inputs[1], lanes)
    found = measured([*inputs, speed_inputs.stream(STREAM)], lanes, rounds, least)
    ratio_tables(pages, found, lanes)
    if tasks:
        is_counted = not given.quick and shutil.which("valgrind")
        counts = counted.instructions(driver.words[0], [headers], tasks)[0][1] if is_counted else None
        task_table(pages, headers, tasks, rounds, least, counts)
    python_tables(pages, python_sides(), rounds, least)
    stream_table(pages, TOP / "crates/amqp_show/out/amqp_show", rounds)
    if not given.quick:
        for heads, rows in counted.tables(driver.words[0], inputs, lanes, preloaded(driver)):
            pages.table(heads, rows)
    pages.line(f"It took {time.monotonic() - BEGIN:.0f} seconds, {built:.0f} of them to build.")
    if not given.quick:
        pages.write(TOP)
        picture.draw()


if __name__ == "__main__":
    main()
