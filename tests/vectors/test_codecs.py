"""The scores of librabbitmq and of Python's clients over vectors/: tests/run vectors -k codecs --write

docs/INTEROP.md and vectors/implementations.json have them. The runner of vectors/ runs each by its adapter. Those of
Python are Debian 12's and Debian 13's.
"""

import ctypes
import subprocess

import pytest

from tests.python.trying import python_in
from tests.rabbitmq.broker import DEBIAN_12, DEBIAN_13, ROOTS
from tests.rabbitmq.broker import PYTHON as PYTHON_OF_DEBIAN
from tests.vectors.scores import assert_scores, run

pytestmark = pytest.mark.needs("codecs")
# The modules of Python, by what the page calls them.
PYTHON = {"pika": "pika", "py-amqp": "pyamqp", "pamqp": "pamqp"}
DISTRIBUTIONS = {"py-amqp": "amqp"}
DEBIANS = {"Debian 12": ROOTS[DEBIAN_12], "Debian 13": ROOTS[DEBIAN_13]}
ENVIRONMENT = {"PATH": "/usr/bin:/bin", "LC_ALL": "C.UTF-8"}
OF_PYTHON = "import sys; print(*sys.version_info[:2], sep='.')"


def said(words: list[str], env: dict[str, str], script: str) -> str:
    """What a script prints."""
    return subprocess.run([*words, "-c", script], env=env, capture_output=True, text=True, check=True).stdout.strip()


@pytest.mark.parametrize("debian", ["Debian 12", pytest.param("Debian 13", marks=pytest.mark.needs("broker"))])
@pytest.mark.parametrize("name", PYTHON)
def test_codecs_of_python(name: str, debian: str, is_writing: bool) -> None:
    words, more = python_in(DEBIANS[debian])
    env = {**ENVIRONMENT, **more}
    version = said(words, env, f"import importlib.metadata as it; print(it.version('{DISTRIBUTIONS.get(name, name)}'))")
    toolchain = f"CPython {said(words, env, OF_PYTHON)}"
    assert_scores(f"{name} {version}", toolchain, run(f"adapters.{PYTHON[name]}", words, env), is_writing)


def test_librabbitmq(is_writing: bool) -> None:
    version = ctypes.CDLL("librabbitmq.so.4").amqp_version_number()
    name = f"librabbitmq {version >> 24}.{version >> 16 & 255}.{version >> 8 & 255}"
    toolchain = f"Debian 12's package, CPython {said([PYTHON_OF_DEBIAN], ENVIRONMENT, OF_PYTHON)}"
    assert_scores(name, toolchain, run("adapters.librabbitmq", [PYTHON_OF_DEBIAN], ENVIRONMENT), is_writing)
