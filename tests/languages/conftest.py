"""Puts the Python package on the path for tests/languages; the fixture `copies` has the Rust crates over the C API."""

import shutil
from pathlib import Path

import pytest
from building import GENERATED

from tests.package import put_package
from tests.rust.cargo import CRATES, RUST, copied


def pytest_configure(config: pytest.Config) -> None:
    put_package(config)


@pytest.fixture(scope="session")
def copies(tmp_path_factory: pytest.TempPathFactory) -> Path:
    """The folder that has both crates, with the compiled code where a release has it."""
    folder = tmp_path_factory.mktemp("crates")
    for name in CRATES:
        copied(RUST / name, folder / name)
    shutil.copytree(GENERATED, folder / CRATES[0] / GENERATED.name)
    return folder
