"""Options of the tests in tests/oracle (--crate, --packages, --count), and the `driver`, which asks the Rust crate."""

import time
from pathlib import Path

import pytest

from tests.oracle.crate import Driver, build, named


def pytest_addoption(parser: pytest.Parser) -> None:
    group = parser.getgroup("this repository")
    group.addoption("--crate", type=Path, metavar="FOLDER", default=named(), help="the Rust crate's folder")
    group.addoption("--packages", type=Path, metavar="FOLDER", help="from where cargo takes all packages")
    group.addoption("--count", type=int, default=1_000_000, help="how many fresh requests are asked (1,000,000)")


def pytest_configure(config: pytest.Config) -> None:
    """The requests are fresh in each run. (pytest calls this before that of tests/conftest.py, which it has read earlier.)"""
    if config.option.seed is None:
        config.option.seed = int(time.time())


@pytest.fixture(scope="session")
def driver(request: pytest.FixtureRequest, notes: list[str]) -> Driver:
    """What asks the Rust crate."""
    found = build(request.config.getoption("--crate"), request.config.getoption("--packages"))
    notes.append(f"over nom {found.nom}")
    return found
