"""`Pages` prints the tables of bench/measure.py, and writes them into docs/SPEED.md and bench/RESULTS.md."""

import re
import sys
from collections.abc import Sequence
from pathlib import Path

# The pages: of the tables that users read, and of the others.
SPEED, RESULTS = "docs/SPEED.md", "bench/RESULTS.md"
# What is between these lines of a page is written anew, as all its tables are.
BEGIN, END = "<!-- run: bench/measure.py -->\n", "<!-- end of run -->\n"
TABLE = re.compile(r"(?m)(?:^\|.*\n)+")


def head_of(table: str) -> str:
    """What the first column of a table is headed by."""
    return table.partition("|")[2].partition("|")[0].strip()


class Pages:
    """What a run has found, for both pages: tables by their first head, and lines about the run."""

    def __init__(self) -> None:
        self.tables: dict[str, str] = {}
        self.lines: dict[str, list[str]] = {SPEED: [], RESULTS: []}

    def line(self, text: str, page: str = RESULTS) -> None:
        """Adds and prints a line about the run."""
        print(text, flush=True)
        self.lines[page].append(f"- {text}")

    def table(self, heads: Sequence[str], rows: Sequence[Sequence[str]]) -> None:
        """Adds and prints a table, whose first column is of words and the others of numbers."""
        lines = [heads, ["---", *["---:"] * (len(heads) - 1)], *rows]
        text = "".join(f"|{'|'.join(it)}|\n" for it in lines)
        print(f"\n{text}", end="", flush=True)
        self.tables[heads[0]] = text

    def written(self, page: str, old: str) -> str:
        """A page with what was found; a table that wasn't measured loses its rows."""
        text = TABLE.sub(lambda it: self.tables.get(head_of(it[0]), "".join(it[0].splitlines(True)[:2])), old)
        before, _, rest = text.partition(BEGIN)
        return before + BEGIN + "\n" + "\n".join(self.lines[page]) + "\n\n" + END + rest.partition(END)[2]

    def write(self, top: Path) -> None:
        """Writes both pages, which have to have each table that was measured."""
        old = {page: (top / page).read_text() for page in self.lines}
        if missing := self.tables.keys() - {head_of(it) for text in old.values() for it in TABLE.findall(text)}:
            sys.exit(f"bench: {' and '.join(old)} have no table for: {', '.join(missing)}")
        for page, text in old.items():
            (top / page).write_text(self.written(page, text))
