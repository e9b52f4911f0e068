"""Parses the rows of crates/test_calls/data, `REQUEST => ANSWER` (`rows`), and words that are bytes (`bytes_of`).

The suites c, model, oracle and wire use it. tests/memory/calls.py says what the same requests may answer if an allocation
fails.
"""

from collections.abc import Iterator
from pathlib import Path

from dependencies import TOP

DATA = TOP / "crates/test_calls/data"


def rows(text: str) -> Iterator[tuple[str, str]]:
    """The requests of a file, each with its answer."""
    for line in text.split("\n"):
        if line and not line.startswith("#"):
            request, _, answer = line.partition(" => ")
            yield request, answer


def stored(name: str) -> list[tuple[str, str]]:
    """The rows of a file of test_calls."""
    return [*rows((DATA / name).read_text())]


def bytes_of(word: str) -> bytes:
    """The bytes of a word: `-` for none, else parts joined by `+`, each hexadecimal or in quotes, maybe after `N*`."""
    parts = (it.rpartition("*") for it in word.split("+") if it != "-")
    return b"".join(
        (part.strip("'").encode() if part.startswith("'") else bytes.fromhex(part)) * int(count or 1)
        for count, _, part in parts
    )
