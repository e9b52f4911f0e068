"""The option --count of test_json.py: how many random values are tried as JSON."""

import pytest


def pytest_addoption(parser: pytest.Parser) -> None:
    group = parser.getgroup("this repository")
    group.addoption("--count", type=int, default=2_000, help="how many random values are tried as JSON (2,000)")
