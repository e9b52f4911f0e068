"""Options and fixtures of all suites: --write, --seed, `program` (amqp_show) and others.

The last line that a run prints is 'N passed, M failed'. A test that is skipped has shown nothing: it counts as failed, unless
WITHOUT names what it needs.
"""

import os
import random
import sys
from collections.abc import Callable, Generator, Iterator
from pathlib import Path
from typing import Any, TypeVar

import pytest
from dependencies import TOP
from hypothesis import settings
from tests.processes import end_descendants, end_on_signals


# What WITHOUT names, and lines that are printed at the end.
WITHOUT = os.environ.get("WITHOUT", "").split()
NOTES: list[str] = []
Hook = TypeVar("Hook", bound=Callable[..., Any])

# Of a property, the examples that are tried: the same in each run, or others in each.
settings.register_profile("fixed", derandomize=True, deadline=None, database=None)
settings.register_profile("random", derandomize=False, deadline=None, database=None, max_examples=1000)


def pytest_addoption(parser: pytest.Parser) -> None:
    group = parser.getgroup("this repository")
    group.addoption("--write", action="store_true", help="write files anew")
    group.addoption("--random", action="store_true", help="another seed in each run")
    group.addoption("--seed", type=int, help="of what is random (1)")
    group.addoption("--program", type=Path, metavar="PATH", help="amqp_show, by default as rt ci left it")
    group.addoption("--library", metavar="PATH", help="the library of the C API, built otherwise")


def interrupted() -> None:
    """Has pytest end what it began."""
    raise KeyboardInterrupt


def pytest_configure(config: pytest.Config) -> None:
    if not hasattr(config, "workerinput"):
        end_on_signals(interrupted)
    is_random = config.getoption("--random")
    settings.load_profile("random" if is_random else "fixed")
    if config.option.seed is None:
        config.option.seed = random.randrange(2**32) if is_random else 1


def pytest_sessionstart(session: pytest.Session) -> None:
    """Prints the seed, since a quiet pytest has no header; of processes that run side by side the first does."""
    reporter = session.config.pluginmanager.get_plugin("terminalreporter")
    if reporter:
        reporter.write_line(f"seed: {session.config.option.seed}")


def pytest_runtest_setup(item: pytest.Item) -> None:
    """Skips a test that needs what WITHOUT names, and fails one that needs an option which isn't given."""
    needs = [str(it) for mark in item.iter_markers("needs") for it in mark.args]
    for it in (it for it in needs if it.lstrip("-") in WITHOUT):
        pytest.skip(f"WITHOUT names {it.lstrip('-')}")
    for it in (it for it in needs if it.startswith("--") and not item.config.getoption(it)):
        pytest.fail(f"it needs {it}: give it, or leave such tests out by WITHOUT={it.lstrip('-')}", pytrace=False)


def around(hook: Hook) -> Hook:
    """Has pytest call a hook around all others of its name. (Its own decorator has no types.)"""
    called: Hook = pytest.hookimpl(hookwrapper=True)(hook)
    return called


@around
def pytest_runtest_makereport() -> Generator[None, Any, None]:
    fail_if_skipped((yield).get_result())


@around
def pytest_make_collect_report() -> Generator[None, Any, None]:
    fail_if_skipped((yield).get_result())


def fail_if_skipped(report: pytest.TestReport | pytest.CollectReport) -> None:
    """Makes a test or a module that is skipped fail, unless WITHOUT names why."""
    why = str(report.longrepr[2] if isinstance(report.longrepr, tuple) else report.longrepr)
    if report.skipped and why.removeprefix("Skipped: WITHOUT names ") not in WITHOUT:
        report.outcome, report.longrepr = "failed", f"skipped, but WITHOUT doesn't name why: {why}"
        report.__dict__.pop("wasxfail", None)


def pytest_terminal_summary(terminalreporter: Any) -> None:
    for note in NOTES:
        terminalreporter.write_line(note)


def pytest_unconfigure(config: pytest.Config) -> None:
    """Ends what tests have started, and prints the counts; of processes that run side by side the first does."""
    reporter = config.pluginmanager.get_plugin("terminalreporter")
    if reporter and not hasattr(config, "workerinput"):
        end_descendants()
        passed, *failed = (len(reporter.stats.get(it, ())) for it in ("passed", "failed", "error"))
        print(f"{passed} passed, {sum(failed)} failed", flush=True)


@pytest.fixture(scope="session")
def notes() -> list[str]:
    """Lines that are printed at the end."""
    return NOTES


@pytest.fixture(scope="session")
def seed(request: pytest.FixtureRequest) -> int:
    """The seed of what is random."""
    return int(request.config.option.seed)


@pytest.fixture
def is_writing(request: pytest.FixtureRequest) -> bool:
    """Whether files are to be written anew."""
    return bool(request.config.getoption("--write"))


@pytest.fixture
def deep() -> Iterator[None]:
    """The model, and JSON of Python, may recurse through thousands of levels."""
    before = sys.getrecursionlimit()
    sys.setrecursionlimit(100_000)
    yield
    sys.setrecursionlimit(before)


@pytest.fixture(scope="session")
def program(request: pytest.FixtureRequest) -> Path:
    """The path of amqp_show."""
    path = Path(request.config.getoption("--program") or TOP / "crates/amqp_show/out/amqp_show").resolve()
    assert path.is_file(), "amqp_show isn't built: rt run in crates/amqp_show builds it"
    return path
