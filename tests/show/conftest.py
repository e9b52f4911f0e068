"""The `page` and the `browser` of tests/web, for the tests that compare the page with amqp_show.

Tests marked `whole` are left out unless --random is given.
"""

import pytest

from tests.web.conftest import browser as browser
from tests.web.conftest import page as page


def pytest_collection_modifyitems(config: pytest.Config, items: list[pytest.Item]) -> None:
    if not config.getoption("--random"):
        items[:] = [it for it in items if not it.get_closest_marker("whole")]
