"""Fixtures of test_alloc_failures.py: `preloaded` (fail_alloc.c, compiled) and `failed` (how many calls failed)."""

import subprocess
from collections import Counter
from collections.abc import Iterator
from pathlib import Path

import pytest

from tests.memory.failing import Preloaded

COMPILER = ["cc", "-std=c11", "-Wall", "-Wextra", "-Werror", "-O1", "-shared", "-fPIC"]


@pytest.fixture(scope="session")
def failed(notes: list[str]) -> Iterator[Counter[str]]:
    """How many calls of each kind failed, which is noted."""
    found: Counter[str] = Counter()
    yield found
    notes.append("failed: " + ", ".join(f"{number} {kind}" for kind, number in found.items()))


@pytest.fixture(scope="session")
def preloaded(tmp_path_factory: pytest.TempPathFactory) -> Preloaded:
    """fail_alloc.c, as it is built."""
    library = tmp_path_factory.mktemp("preloaded") / "fail_alloc.so"
    source = Path(__file__).with_name("fail_alloc.c")
    subprocess.run([*COMPILER, "-o", library, source], check=True)
    return Preloaded(library)
