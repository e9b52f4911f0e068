"""Options and fixtures of tests/rust: the Rust crate (`rust`), the `drop_in`, and `copies` of the crates over the C API."""

import shutil
from pathlib import Path

import pytest
from building import GENERATED

from tests.oracle.crate import named, packages_for
from tests.rust.cargo import COPIES, CRATES, OUT, RUST, Given
from tests.rust.cargo import assert_well, copied, given


def pytest_addoption(parser: pytest.Parser) -> None:
    group = parser.getgroup("this repository")
    group.addoption("--crate", type=Path, metavar="FOLDER", default=named(), help="the Rust crate")
    group.addoption("--packages", type=Path, metavar="FOLDER", help="from where cargo takes all packages")
    group.addoption("--count", type=int, default=100_000, help="how many random inputs are tried (100,000)")


def pytest_configure(config: pytest.Config) -> None:
    """Packages for the Rust crate, if it is given."""
    if config.option.crate and not config.option.packages:
        config.option.packages = packages_for(config.option.crate)


@pytest.fixture(scope="session")
def count(request: pytest.FixtureRequest) -> int:
    """How many random inputs are tried."""
    return int(request.config.getoption("--count"))


@pytest.fixture(scope="session")
def rust(request: pytest.FixtureRequest, tmp_path_factory: pytest.TempPathFactory) -> Given:
    """The Rust crate, and what is needed to build it."""
    OUT.mkdir(parents=True, exist_ok=True)
    option = request.config.getoption
    return given(option("--crate"), option("--packages"), tmp_path_factory.mktemp("registry"))


@pytest.fixture(scope="session")
def drop_in(rust: Given) -> Path:
    """The drop-in of the Rust crate."""
    assert_well(rust.drop_in(OUT / "drop-in"))
    return OUT / "drop-in"


@pytest.fixture(scope="session")
def copies() -> Path:
    """The folder that has both crates, with the compiled code where a drop-in has it."""
    for name in CRATES:
        copied(RUST / name, COPIES / name)
    shutil.copytree(GENERATED, COPIES / CRATES[0] / GENERATED.name)
    return COPIES
