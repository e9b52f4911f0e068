"""Puts the package on the path for tests/python, and leaves out tests marked `whole` unless --random is given."""

from typing import Any

import pytest

from tests.package import put_package


def pytest_configure(config: pytest.Config) -> None:
    put_package(config)


def pytest_collection_modifyitems(config: pytest.Config, items: list[pytest.Item]) -> None:
    if not config.getoption("--random"):
        items[:] = [it for it in items if not it.get_closest_marker("whole")]


def pytest_terminal_summary(terminalreporter: Any) -> None:
    """Prints what tests have recorded in words, as the versions of Python for which the wheel was installed."""
    for report in terminalreporter.stats.get("passed", []):
        for name, value in getattr(report, "user_properties", []):
            if isinstance(value, str):
                terminalreporter.write_line(f"{name}: {value}")
