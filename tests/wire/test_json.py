"""JSON by test_calls, as `rt ci` left it, against tests/model/json_format.py: tests/run wire --count 20000 tries more.

Of each random value the text that is written for its encoding is compared, and of each text the encoding of the value that it
means, or the error: Syntax or NotAValue, the byte, and the mismatch.
"""

import re
from collections import Counter
from random import Random

import pytest

from tests.model.json_format import Value, large_values, texts
from tests.model.encoding import write
from tests.model.test_rows import is_read, is_written
from tests.wire.answered import answers


@pytest.fixture
def values(request: pytest.FixtureRequest, seed: int) -> list[Value]:
    return [*large_values(Random(seed), int(request.config.getoption("--count")))]


def test_written(values: list[Value]) -> None:
    for value, (request, answer) in zip(values, answers([f"json_of_encoding {write(it).hex()}" for it in values])):
        assert is_written(write(value), answer), (request, answer)


def test_read(values: list[Value], seed: int, notes: list[str]) -> None:
    found = [*texts(Random(seed), values)]
    kinds: Counter[str] = Counter()
    for text, (request, answer) in zip(found, answers([f"json_bytes {it.hex() or '-'}" for it in found])):
        assert is_read(text, answer), (request, answer)
        error = re.match(r"Syntax|NotAValue\(\d+, (\w+)\)", answer)
        kinds[(error[1] or error[0]) if error else "read"] += 1
    notes.append(", ".join(f"{kind} {count}" for kind, count in sorted(kinds.items())))
