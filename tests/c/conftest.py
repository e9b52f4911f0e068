"""Fixtures of tests/c: the `library` that c_api.py calls, the objects that programs are `linked` with, the `prefix` that the
library is installed in.

All are built over generated/, outside of the checkout. `folder` is one to work in.
"""

import shutil
import tempfile
from collections.abc import Callable, Iterator
from functools import cache
from pathlib import Path

import pytest
from building import AARCH64, COMPILERS, X86_64, objects, shared_object
from dependencies import TOP

from tests.c import c_api
from tests.c.compiling import Words
from tests.c.places import WITHOUT_TOOL, installed

# Assembles generated/ for a target by a compiler; the objects, first of the calls that don't allocate.
Assemble = Callable[[str, str], list[Path]]


def pytest_addoption(parser: pytest.Parser) -> None:
    group = parser.getgroup("this repository")
    group.addoption(
        "--assembler", metavar="NAME", default="", help="assemble generated/ by another compiler than gcc: clang"
    )


def pytest_configure(config: pytest.Config) -> None:
    lacks = [it for it in ("cc", "c++", "nm") if not shutil.which(it)]
    if lacks:
        raise pytest.UsageError(f"tests/run c needs {', '.join(lacks)} (make setup installs it)")


def pytest_generate_tests(metafunc: pytest.Metafunc) -> None:
    """Calls the library of this assembler or, unless one is given, that of each."""
    if "library" in metafunc.fixturenames:
        chosen = metafunc.config.getoption("--assembler")
        clang = pytest.param("clang", marks=pytest.mark.needs("clang"))
        ways = [chosen] if chosen or metafunc.config.getoption("--library") else ["", clang]
        metafunc.parametrize("library", ways, indirect=True, scope="session", ids=lambda it: f"by {it or 'gcc'}")


@pytest.fixture(scope="session")
def folder() -> Iterator[Path]:
    """A folder to work in, which isn't kept."""
    with tempfile.TemporaryDirectory(prefix="c-api-") as name:
        yield Path(name)


@pytest.fixture(scope="session")
def assembler(request: pytest.FixtureRequest) -> str:
    """What assembles, or nothing for the target's own compiler."""
    return str(request.config.getoption("--assembler"))


def for_target(assembler: str, target: str, folder: Path) -> str:
    """An assembler's name for a target: by its own name clang finds out what it compiles for."""
    if not assembler or target == X86_64:
        return assembler
    named = folder / COMPILERS[target][0].replace("gcc", assembler)
    if not named.exists():
        named.symlink_to(shutil.which(named.name) or shutil.which(assembler) or assembler)
    return str(named)


@pytest.fixture(scope="session")
def assemble(folder: Path) -> Assemble:
    @cache
    def made(target: str, assembler: str) -> list[Path]:
        to = folder / f"objects for {target} {assembler}"
        to.mkdir()
        return objects(to, target, for_target(assembler, target, folder))

    return made


@pytest.fixture(scope="session")
def linked(assemble: Assemble, assembler: str) -> Words:
    """The objects of the C API, with which programs are linked."""
    return assemble(X86_64, assembler)


@pytest.fixture(scope="session")
def prefix(folder: Path, assembler: str) -> Path:
    """Where the library is installed."""
    flags = [f"-DCMAKE_ASM_COMPILER={assembler}"] * bool(assembler)
    return installed(folder / "installed", WITHOUT_TOOL, *flags)


@pytest.fixture(scope="session")
def made_for_aarch64(folder: Path, assembler: str) -> Path:
    """Where it is installed for aarch64."""
    flags = [f"-DCMAKE_ASM_COMPILER={for_target(assembler, AARCH64, folder)}"] * bool(assembler)
    return installed(folder / "aarch64", "--toolchain", str(TOP / "packaging/aarch64.cmake"), *flags)


@pytest.fixture(scope="session")
def library(request: pytest.FixtureRequest, tmp_path_factory: pytest.TempPathFactory) -> str:
    """The path of the shared object of the C API, which c_api.py has loaded."""
    given = request.config.getoption("--library")
    path = str(given or shared_object(tmp_path_factory.mktemp("library"), request.param))
    c_api.load(path)
    return path
