"""Options and fixtures of the tests in tests/rabbitmq: the `broker`, a `connection` to it, and Python's clients."""

import json
import os
import signal
import subprocess
from collections.abc import Callable, Iterator
from pathlib import Path
from random import Random
from typing import Any, NamedTuple

import pytest
from dependencies import TOP

from tests.model.tables import VERSIONS, Version
from tests.package import BUILT, put_package
from tests.python.trying import python_in
from tests.rabbitmq import adapted, seen
from tests.rabbitmq.broker import DEBIAN_13, ROOTS, Broker
from tests.rabbitmq.wire import Connection

# The minutes that all tests with one version take at most, on a busy machine too.
MINUTES = 60


def pytest_addoption(parser: pytest.Parser) -> None:
    group = parser.getgroup("this repository")
    group.addoption("--tables", type=int, default=10000, help="how many random tables are sent (10000)")
    group.addoption("--rabbitmq", action="append", choices=[*ROOTS], help=f"a version of RabbitMQ ({DEBIAN_13})")
    group.addoption("--root", type=Path, help="a root of Debian whose RabbitMQ is tested as if it were that version")
    group.addoption(
        "--clients", metavar="ROOT", help="Python's clients of a root of Debian (Debian 12's and Debian 13's)"
    )


def pytest_configure(config: pytest.Config) -> None:
    put_package(config)


def pytest_generate_tests(metafunc: pytest.Metafunc) -> None:
    if "broker" in metafunc.fixturenames:
        named = metafunc.config.getoption("--rabbitmq") or [DEBIAN_13]
        marker = metafunc.definition.get_closest_marker("rabbitmq")
        versions = marker.args if marker else getattr(metafunc.module, "RABBITMQ", named)
        metafunc.parametrize("broker", versions, indirect=True, scope="session")
    root = metafunc.config.getoption("--clients")
    roots = {f"clients of {root}": Path(root)} if root else {"Debian 12": Path("/"), "Debian 13": ROOTS[DEBIAN_13]}
    if "debian" in metafunc.fixturenames:
        metafunc.parametrize("debian", roots.values(), ids=roots, indirect=True, scope="session")
    if "dist_packages" in metafunc.fixturenames:
        others = [it / "usr/lib/python3/dist-packages" for it in roots.values() if it != Path("/")]
        metafunc.parametrize("dist_packages", others, ids=str)


@pytest.fixture(scope="session")
def broker(request: pytest.FixtureRequest, tmp_path_factory: pytest.TempPathFactory) -> Iterator[Broker]:
    """A running broker of a version."""
    signal.signal(signal.SIGALRM, lambda *_: pytest.exit(f"not done within {MINUTES} minutes", 1))
    signal.alarm(60 * MINUTES)
    root = request.config.getoption("--root")
    with Broker(Path(tmp_path_factory.mktemp("broker")), request.param, root) as found:
        yield found
    signal.alarm(0)


@pytest.fixture(scope="session")
def package() -> str:
    """The folder that has the Python package amqp_values."""
    return os.environ[BUILT]


class Debian(NamedTuple):
    """A Debian that has clients: its Python, and what that needs in the environment."""

    words: list[str]
    env: dict[str, str]

    def said(self, script: str) -> str:
        """What a script prints."""
        done = subprocess.run([*self.words, "-c", script], capture_output=True, text=True, env=self.env, check=True)
        return done.stdout.strip()


@pytest.fixture(scope="session")
def debian(request: pytest.FixtureRequest, package: str) -> Debian:
    """The Python of a Debian, which finds the package and the tests too."""
    words, env = python_in(request.param)
    path = f"{package}:{TOP}:{TOP / 'packaging'}"
    return Debian([*words, "-B"], {"PATH": "/usr/bin:/bin", "PYTHONPATH": path, "LC_ALL": "C.UTF-8", **env})


# Runs a job of adapted.py with a client and an adapter, and returns what it prints.
Child = Callable[..., Any]


@pytest.fixture
def child(broker: Broker, debian: Debian) -> Child:
    def run(job: str, client: str, adapter: str, **given: object) -> Any:
        words = [*debian.words, "-m", adapted.__name__, job, client, adapter, f"{broker.port}"]
        how: dict[str, Any] = {"env": debian.env, "cwd": TOP, "capture_output": True, "text": True, "timeout": 600}
        done = subprocess.run(words, input=json.dumps(given), **how)
        assert not done.returncode, done.stderr[-3000:]
        return json.loads(done.stdout)

    return run


@pytest.fixture(scope="session")
def versions(debian: Debian) -> dict[str, str]:
    """The versions of the clients that the Debian has, as seen.py names them."""
    script = "import importlib.metadata as it; [print(name, it.version(name)) for name in ('pika', 'amqp', 'pamqp')]"
    return dict(zip(adapted.CLIENTS, debian.said(script).splitlines(), strict=True))


@pytest.fixture
def version(client: str, versions: dict[str, str]) -> seen.Client:
    """What the version of a client does that the Debian has."""
    return seen.VERSIONS[versions[client]]


@pytest.fixture
def connection(broker: Broker) -> Iterator[Connection]:
    """A connection to the broker."""
    found = broker.connection()
    yield found
    found.close()


@pytest.fixture
def saw(broker: Broker, notes: list[str]) -> Callable[[str, object], None]:
    """Notes a row of what a version does, as docs/INTEROP.md has them."""
    return lambda what, seen: notes.append(f"{broker.version} | {what} | {seen}")


@pytest.fixture
def rules(broker: Broker) -> Version:
    """What the broker's version does with tables."""
    return VERSIONS[broker.version]


@pytest.fixture
def make(request: pytest.FixtureRequest, seed: int) -> Random:
    """What is random in a test."""
    return Random(f"{request.node.name} {seed}")
