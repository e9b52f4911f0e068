"""Leaves out, and says so, test_go.py without Go or Debian's package of its client, and test_javascript.py without node."""

import shutil

import pytest

from tests.conftest import NOTES
from tests.vectors.cases import OF_GO

MISSING = {
    "test_go.py": "" if shutil.which("go") and OF_GO.exists() else "Go's client",
    "test_javascript.py": "" if shutil.which("node") else "node",
}
collect_ignore = [it for it, what in MISSING.items() if what]


def pytest_configure(config: pytest.Config) -> None:
    NOTES.extend(f"NOT TRIED: {it}, since {MISSING[it]} isn't installed" for it in collect_ignore)
