"""Fixtures of tests/packages: the `prefix` that the library is installed in with amqp_show, and copies of the repository.

All is built outside of the checkout, in copies over generated/ and the amqp_show that the checkout has.
"""

import shutil
import tempfile
from collections.abc import Iterator
from pathlib import Path

import pytest

from tests.c.places import installed
from tests.copies import copy_repository

TOOL = "crates/amqp_show/out/amqp_show"


def pytest_addoption(parser: pytest.Parser) -> None:
    group = parser.getgroup("this repository")
    group.addoption("--root", action="store_true", help="use a release in a fresh root, for which it has to be root")


def pytest_collection_modifyitems(config: pytest.Config, items: list[pytest.Item]) -> None:
    """Leaves out the tests for which --root isn't given, as before a release."""
    if not config.getoption("--root"):
        items[:] = [it for it in items if not any("--root" in mark.args for mark in it.iter_markers("needs"))]


@pytest.fixture(scope="session")
def folder() -> Iterator[Path]:
    """A folder to work in, which isn't kept."""
    with tempfile.TemporaryDirectory(prefix="packages-") as name:
        yield Path(name)


@pytest.fixture(scope="session")
def prefix(program: Path, folder: Path) -> Path:
    """Where the library is installed, with amqp_show since that is built."""
    return installed(folder / "installed")


@pytest.fixture(scope="session")
def clone(folder: Path) -> Path:
    """A copy of the repository in which only what is tracked is there, as in a clone."""
    path = folder / "clone"
    copy_repository(path)
    return path


@pytest.fixture(scope="session")
def repository(program: Path, folder: Path) -> Path:
    """A copy of the repository that has amqp_show too."""
    path = folder / "repository"
    copy_repository(path)
    (path / TOOL).parent.mkdir(parents=True)
    shutil.copy2(program, path / TOOL)
    return path
