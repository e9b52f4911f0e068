"""Fixtures of the tests in tests/web and of some in tests/show: the `page`, which packaging/web.py makes, and a `browser` with it."""

from collections.abc import Iterator
from pathlib import Path

import pytest
from dependencies import TOP

from tests.checks import assert_well, run
from tests.web.browser import Browser, opened


def pytest_addoption(parser: pytest.Parser) -> None:
    parser.addoption("--page", type=Path, metavar="PATH", help="the page, which is made otherwise")


@pytest.fixture(scope="session")
def page(request: pytest.FixtureRequest, tmp_path_factory: pytest.TempPathFactory) -> Path:
    """The page's path."""
    path: Path | None = request.config.getoption("--page", None)
    if path is None:
        path = tmp_path_factory.mktemp("page") / "amqp.html"
        assert_well(run([TOP / "packaging/web.py", path]))
    return path.resolve()


@pytest.fixture(scope="session")
def browser(page: Path) -> Iterator[Browser]:
    """A browser with the page."""
    with opened(page) as it:
        yield it
