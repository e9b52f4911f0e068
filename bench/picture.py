"""Draws docs/speed.svg from the tables of docs/SPEED.md and bench/RESULTS.md: python3 bench/picture.py

A bar is how many microseconds a side takes for message headers: the time in a row of a table, or the ratio there times the time
that it is relative to. A side that wasn't measured has no bar.
"""

import re
from collections.abc import Iterator
from html import escape
from pathlib import Path
from typing import NamedTuple

TOP = Path(__file__).resolve().parents[1]
PICTURE, SPEED, RESULTS = TOP / "docs/speed.svg", "docs/SPEED.md", "bench/RESULTS.md"
# The colours of this library's bars, and of all others.
OURS, OTHERS = "#2a9d8f", "#9aa7b4"
# The units of times, in microseconds.
UNITS = {"ns": 1e-3, "us": 1.0, "ms": 1e3}


class Group(NamedTuple):
    """Bars below a heading: the row of a page's table, by how both begin, and the label of each column that is drawn."""

    heading: str
    page: str
    table: str
    row: str
    labels: dict[str, str]


CLIENTS = {"Go": "amqp091-go, Go", "Erlang": "RabbitMQ, Erlang", "the Rust crate": "amq-protocol-types, Rust"}
IN_C = {"librabbitmq": "librabbitmq, C"}
OWN = {"this library": "this library"}
IN_PYTHON = {it: it for it in ("pamqp", "pika", "py-amqp")} | {"the package": "this library"}
GROUPS = (
    Group("Decode 656 bytes of message headers", SPEED, "Read and drop", "message headers", CLIENTS | OWN),
    Group("Decode them, with strings left in the input", SPEED, "Read in place", "message headers", IN_C | OWN),
    Group("Encode them", SPEED, "Write", "message headers", CLIENTS | IN_C | OWN),
    Group("Decode 398 bytes of message headers in Python", RESULTS, "Read by Python", "headers with two", IN_PYTHON),
)
LEFT, TOP_OF_BARS, BAR, HEADING, WIDTH = 200, 40, 19, 30, 700
# How wide a microsecond is drawn.
ONE = 36


def times(group: Group) -> Iterator[tuple[str, float]]:
    """Yields the label of each bar, and its microseconds."""
    page = (TOP / group.page).read_text()
    found = re.search(rf"(?m)^\|({group.table}\|.*)\|\n.*\n(?:\|.*\n)*?\|({group.row}[^|]*\|.*)\|$", page)
    assert found, f"{group.page} has no {group.row} in its table {group.table}"
    cells = dict(zip(found[1].split("|"), found[2].split("|")))
    timed = {name: re.fullmatch(r"([\d.]+) (ns|us|ms)", it) for name, it in cells.items()}
    measured = {name: float(it[1]) * UNITS[it[2]] for name, it in timed.items() if it}
    for name, label in group.labels.items():
        ratio = re.match(r"[\d.]+(?= \()", cells.get(name, ""))
        if name in measured:
            yield label, measured[name]
        elif ratio:
            # (a ratio is to the fastest of those whose time is there)
            yield label, float(ratio[0]) * min(measured.values())


def text(x: float, y: float, words: str, more: str = "") -> str:
    return f'<text x="{x:.0f}" y="{y:.0f}" {more}>{escape(words)}</text>'


def drawn() -> str:
    """The picture of the pages as they are."""
    lines, y = [text(10, 22, "Microseconds; shorter is faster", 'font-weight="bold"')], TOP_OF_BARS
    for group in GROUPS:
        y += HEADING
        lines.append(text(10, y - 10, group.heading, 'font-weight="bold"'))
        for label, time in times(group):
            width, colour = max(ONE * time, 1), OURS if label in OWN.values() else OTHERS
            lines.append(text(LEFT - 10, y + 13, label, 'text-anchor="end"'))
            lines.append(f'<rect x="{LEFT}" y="{y}" width="{width:.0f}" height="{BAR - 3}" fill="{colour}"/>')
            lines.append(text(LEFT + width + 6, y + 13, f"{time:.2g}"))
            y += BAR
    head = f'<svg xmlns="http://www.w3.org/2000/svg" viewBox="0 0 {WIDTH} {y + 14}" font-family="sans-serif" font-size="13" fill="#222">'
    return "\n".join([head, '<rect width="100%" height="100%" fill="#fff"/>', *lines, "</svg>", ""])


def draw() -> None:
    PICTURE.write_text(drawn())


if __name__ == "__main__":
    draw()
