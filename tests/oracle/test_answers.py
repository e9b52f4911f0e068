"""The Rust crate answers stored requests as crates/test_calls/data has it, and fresh ones as this library does."""

import os
import re
from collections import Counter
from concurrent.futures import ProcessPoolExecutor
from itertools import repeat
from pathlib import Path
from random import Random

import pytest
from dependencies import TOP

from tests.rows import DATA, rows
from tests.checks import built, run
from tests.oracle.crate import Driver
from tests.oracle.inputs import request as made

STORED, STORED_DIFFERENCES = DATA / "rust.calls", DATA / "differences.calls"
# How many requests are made and asked at once.
BLOCK = 10_000
# What the driver answers to a request for which the Rust crate has no call.
NO_REQUEST = "no request"


def test_stored_rows(driver: Driver, is_writing: bool) -> None:
    """The crate answers the requests of rust.calls as it is stored, which --write writes anew."""
    said = driver.rows(STORED.read_bytes())
    if is_writing:
        STORED.write_bytes(said)
    assert NO_REQUEST not in said.decode()
    assert said.decode().split("\n") == STORED.read_text().split("\n")


@pytest.mark.parametrize("file", sorted(it for it in DATA.glob("*.calls") if it != STORED), ids=lambda it: str(it.stem))
def test_other_rows(driver: Driver, file: Path, notes: list[str]) -> None:
    """The crate answers the other rows too as they have it, if it has such a call."""
    said = dict(rows(driver.rows(file.read_bytes()).decode()))
    wants = {request: wants for request, wants in rows(file.read_text()) if said[request] != NO_REQUEST}
    notes.append(f"{file.name}: {len(wants)} of {len(said)} rows are of calls that the crate has")
    assert {request: said[request] for request in wants} == wants


def test_differences(driver: Driver) -> None:
    """The crate itself answers as the line above each row of differences.calls has it."""
    found = re.findall(r"(?m)^# There: (.*)\n(.*?) => ", STORED_DIFFERENCES.read_text())
    said = driver.as_it_is("".join(f"{request}\n" for _, request in found).encode()).decode()
    assert [*rows(said)] == [(request, theirs) for theirs, request in found]
    assert len(found) == len([*rows(STORED_DIFFERENCES.read_text())])


def answered(driver: Driver, seed: int, count: int) -> bytes:
    """So many fresh requests, with the crate's answers."""
    make = Random(seed)
    return driver.rows("".join(f"{made(make)}\n" for _ in range(count)).encode())


def judged(program: Path, block: bytes) -> str:
    """What test_calls prints of these rows."""
    return run([program], input=block.decode()).stdout


def test_fresh_requests(driver: Driver, request: pytest.FixtureRequest, seed: int, notes: list[str]) -> None:
    """This library answers fresh requests as the crate does."""
    count, program = int(request.config.getoption("--count")), built("test_calls")
    counts = [min(BLOCK, count - at) for at in range(0, count, BLOCK)]
    with ProcessPoolExecutor(len(os.sched_getaffinity(0))) as pool:
        blocks = [*pool.map(answered, repeat(driver), range(seed * 1000, seed * 1000 + len(counts)), counts)]
        said = [*pool.map(judged, repeat(program), blocks)]
    calls = Counter(it.partition(" ")[0] for block in blocks for it, _ in rows(block.decode()))
    notes.append(", ".join(f"{call} {number}" for call, number in sorted(calls.items())))
    assert not [it for block in blocks for it in rows(block.decode()) if it[1] == NO_REQUEST]
    wrong = [it for it, rows_ in zip(said, counts, strict=True) if it != f"{rows_} rows, 0 wrong\n"]
    assert not wrong, "answered otherwise:\n" + "".join(wrong)[:5000]
