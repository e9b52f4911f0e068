"""What CMake installs into a folder is used from there, without anything of this repository or of the kit.

Used are examples in C11 over the shared object, in C11 over the archive, one in C++17, one in Python, the symbols, the pages, and
CMake's files, at usual places and at others. The commands of the installed page show what it has.
"""

import os
import re
import shutil
import sys
from collections.abc import Callable
from functools import cache
from pathlib import Path
from typing import Any

import pytest
from dependencies import TOP

from tests.c.declared import CALLS
from tests.c.compiling import EXAMPLES, Done, Words, assert_well, printed, run, symbols, version
from tests.c.pages import commands_of_linking, names_that_lack
from tests.c.places import NAME, PATH, WITHOUT_TOOL, assert_needs_glibc, installed
from tests.c.running import assert_as_transcript
from tests.transcripts import cases

ARCHIVE, SHARED = "the archive", "the shared object"
LANGUAGES = {"C11": ["cc", "-std=c11"], "C++17": ["c++", "-std=c++17", "-xc++"]}
USES = [
    (name, language, linked)
    for language in LANGUAGES
    for linked in (SHARED, ARCHIVE)
    for name in (sorted(it.stem for it in EXAMPLES.glob("*.c")) if language == "C11" else ["count_deaths"])
]
Use = Callable[[str, str, str], Path]


@pytest.fixture(scope="module")
def alone(prefix: Path, folder: Path) -> dict[str, Any]:
    """How a program is run that has only what is installed."""
    lib = prefix / "lib"
    paths = {"PATH": PATH, "PKG_CONFIG_PATH": str(lib / "pkgconfig"), "LD_LIBRARY_PATH": str(lib)}
    return {"env": paths, "cwd": folder}


@pytest.fixture(scope="module")
def use(prefix: Path, folder: Path, alone: dict[str, Any]) -> Use:
    """Compiles and links an installed example, in a language, over a library."""
    flags = printed(["pkg-config", "--cflags", "--libs", NAME], **alone).split()
    over: dict[str, Words] = {
        SHARED: flags,
        ARCHIVE: [f"-I{prefix / 'include'}", "-xnone", prefix / "lib/libamqp_values.a"],
    }

    @cache
    def compiled(name: str, language: str, linked: str) -> Path:
        program = folder / f"{name}, {language} and {linked}"
        source = prefix / f"share/doc/{NAME}/examples/c/{name}.c"
        words = [*LANGUAGES[language], "-Wall", "-Wextra", "-Werror"]
        assert_well(run([*words, "-o", program, source, *over[linked]], **alone))
        return program

    return compiled


@pytest.mark.parametrize(("name", "language", "linked"), USES, ids=[", ".join(it) for it in USES])
def test_example(use: Use, alone: dict[str, Any], name: str, language: str, linked: str) -> None:
    """The first case of an installed example."""
    first, *_ = cases(EXAMPLES / f"{name}.t").values()
    assert_as_transcript(first, [use(name, language, linked)], **alone)


def test_no_allocator_is_linked(use: Use) -> None:
    """A program without an allocating call asks for none."""
    taken = printed(["nm", use("print_value", "C11", ARCHIVE)])
    assert " main" in taken and "amqpv_read" in taken
    assert not re.search(r"rattle_alloc|\bmalloc@", taken)


def test_archive_has_the_calls_only(prefix: Path) -> None:
    """Another archive that Rattle made, with functions of the same names, links with it."""
    found = symbols(prefix / "lib/libamqp_values.a", "-g", "--defined-only")
    assert found == {name for names in CALLS.values() for name in names}


def test_shared_object_shows_the_calls(prefix: Path) -> None:
    # (each with its version, which is a symbol too, of kind A)
    found = symbols(prefix / "lib/libamqp_values.so", "-D", "--defined-only", kinds="B-Z")
    assert {it.partition("@")[0] for it in found} == {name for names in CALLS.values() for name in names}


def test_what_is_before_librabbitmq_shows_its_calls(prefix: Path) -> None:
    found = symbols(prefix / f"lib/lib{NAME}_rabbitmq.so", "-D", "--defined-only")
    assert found == {"amqp_decode_table", "amqpv_before_rabbitmq"}


def test_shared_object_needs_the_c_library(prefix: Path) -> None:
    said = printed(["readelf", "-d", prefix / "lib/libamqp_values.so"])
    assert re.findall(r"NEEDED.*\[(.*)\]", said) == ["libc.so.6"]


def test_symbols_have_the_versions_of_the_map(prefix: Path) -> None:
    mapped: set[str] = set()
    text = (TOP / f"packaging/{NAME}.map").read_text()
    for of, body in re.findall(r"(?m)^(AMQPV_[\d.]+) \{\n(.*?)^\}", text, re.DOTALL):
        mapped |= {f"{it}@@{of}" for it in re.findall(r"(?m)^    (\w+);$", body)}
    said = printed(["nm", "-D", "--defined-only", "--with-symbol-versions", prefix / f"lib/lib{NAME}.so"])
    assert {it.split()[-1] for it in said.splitlines() if " T " in it} == mapped


def test_version_of_pkg_config(alone: dict[str, Any]) -> None:
    assert printed(["pkg-config", "--modversion", NAME], **alone).strip() == version()


def test_python_finds_the_shared_object(alone: dict[str, Any]) -> None:
    script = "import ctypes; print(ctypes.CDLL('libamqp_values.so.0').amqpv_version())"
    major, minor, patch = map(int, version().split("."))
    assert printed([sys.executable, "-c", script], **alone) == f"{10000 * major + 100 * minor + patch}\n"


@pytest.mark.parametrize(
    ("name", "latest"),
    ((f"lib/lib{NAME}.so", "2.17"), (f"lib/lib{NAME}_rabbitmq.so", "2.34")),
)
def test_glibc(prefix: Path, name: str, latest: str) -> None:
    assert_needs_glibc(prefix / name, latest)


# Pages


def test_names_in_pages(prefix: Path) -> None:
    """Installed pages name only what is installed."""
    assert names_that_lack(prefix / f"share/doc/{NAME}", prefix) == []


def test_names_in_headers(prefix: Path) -> None:
    named = {page for it in prefix.glob("include/*.h") for page in re.findall(r"[\w/]+\.md", it.read_text())}
    assert sorted(it for it in named if not (prefix / f"share/doc/{NAME}" / it).exists()) == []


def test_manual(prefix: Path) -> None:
    """It is as mandoc wants it."""
    pages = sorted(it for it in prefix.glob("share/man/man*/*") if not it.is_symlink())
    assert pages
    assert printed(["mandoc", "-Tlint", "-Wwarning", *pages]) == ""


def declared(name: str) -> list[tuple[str, str, list[str]]]:
    """The type, the name and the parameters of each function that a header declares."""
    text = (TOP / "include" / name).read_text()
    found = re.findall(r"(?m)^(?:static inline )?((?:const )?\w+ \*?)(amqpv_\w+)\(([^;{]*?)\)[^;{)]*;", text)
    return [(of.strip(), call, re.split(r",\s+", parameters)) for of, call, parameters in found]


def test_manual_has_the_prototypes(prefix: Path) -> None:
    """In the order of the header."""
    text = (prefix / f"share/man/man3/{NAME}.3").read_text()
    found = re.findall(r'(?m)^\.Ft "?(.*?)"?\n\.Fn (\w+) (.*)$', text)
    shown = [(of, call, re.findall(r'"(.*?)"', parameters) or [parameters]) for of, call, parameters in found]
    wanted = declared("amqp_values.h") + declared("amqp_values_rabbitmq.h")
    assert shown == wanted, f"write these prototypes in packaging/{NAME}.3"
    calls = {it for names in CALLS.values() for it in names}
    assert calls < {call for _, call, _ in shown}


@pytest.mark.parametrize(
    ("name", "pattern"),
    (
        ("packaging/amqp_values.map", r"(?m)^    (amqpv_\w+);$"),
        ("debian/libamqp-values0.symbols", r"(?m)^ (amqpv_\w+)@AMQPV_"),
    ),
)
def test_list_has_the_calls_of_the_header(name: str, pattern: str) -> None:
    calls = {it for names in CALLS.values() for it in names}
    assert sorted(re.findall(pattern, (TOP / name).read_text())) == sorted(calls), f"{name} has a line for each call"


# CMake

KINDS = (NAME, "shared", "static")
CMAKE = """\
cmake_minimum_required(VERSION 3.13)
project(uses C)
find_package(amqp_values 0.1 REQUIRED)
foreach(kind amqp_values shared static)
    add_executable(over_${kind} json.c)
    target_link_libraries(over_${kind} amqp_values::${kind})
endforeach()
"""


def by_cmake(prefix: Path, source: Path, text: str) -> Done:
    """What cmake says of a project, which is written to a folder with an example."""
    (source / "CMakeLists.txt").write_text(text)
    for it in ("json.c", "hexadecimal.h"):
        shutil.copy(prefix / f"share/doc/{NAME}/examples/c/{it}", source)
    return run(["cmake", "-S", source, "-B", source / "built", f"-DCMAKE_PREFIX_PATH={prefix}"])


@pytest.fixture(scope="module")
def by_kind(prefix: Path, folder: Path) -> Path:
    """The folder in which CMake has built an example over each target."""
    source = folder / "cmake"
    source.mkdir()
    assert_well(by_cmake(prefix, source, CMAKE))
    assert_well(run(["cmake", "--build", source / "built"]))
    return source / "built"


@pytest.mark.parametrize("kind", KINDS)
def test_built_by_cmake(by_kind: Path, kind: str) -> None:
    assert printed([by_kind / f"over_{kind}"], input="46 00000003 01 61 56") == '{"a":null}\n'
    needed = printed(["readelf", "-d", by_kind / f"over_{kind}"])
    assert ("libamqp_values.so.0" in needed) == (kind != "static")


def test_cmake_finds_no_version_1_0(prefix: Path, tmp_path: Path) -> None:
    done = by_cmake(prefix, tmp_path, CMAKE.replace("amqp_values 0.1", "amqp_values 1.0"))
    assert done.returncode == 1


# What CMake's file of a version sets.
OWN_VERSION = """\
set(PACKAGE_VERSION 7.3.1)
set(PACKAGE_VERSION_EXACT own)
set(PACKAGE_VERSION_COMPATIBLE own)
set(PACKAGE_VERSION_UNSUITABLE own)
find_package(amqp_values 0.1 REQUIRED)
message("${PACKAGE_VERSION} ${PACKAGE_VERSION_EXACT} ${PACKAGE_VERSION_COMPATIBLE} ${PACKAGE_VERSION_UNSUITABLE}")
"""


def test_cmake_leaves_a_projects_own_version(prefix: Path, tmp_path: Path) -> None:
    done = by_cmake(prefix, tmp_path, f"cmake_minimum_required(VERSION 3.13)\nproject(own C)\n{OWN_VERSION}")
    assert_well(done)
    assert done.stderr == "7.3.1 own own own\n"


def test_install_at_other_places(tmp_path: Path) -> None:
    places = {"LIBDIR": "there/lib", "INCLUDEDIR": "inc", "MANDIR": "man", "DOCDIR": "doc"}
    flags = [f"-DCMAKE_INSTALL_{name}={place}" for name, place in places.items()]
    at = installed(tmp_path / "at", WITHOUT_TOOL, *flags)
    assert {it.name for it in at.iterdir()} == {"there", "inc", "man", "doc"}
    env = {**os.environ, "PKG_CONFIG_PATH": str(at / "there/lib/pkgconfig")}
    program = tmp_path / "program"
    flags = printed(["pkg-config", "--cflags", "--libs", NAME], env=env).split()
    assert_well(run(["cc", "-std=c11", "-o", program, at / "doc/examples/c/json.c", *flags]))
    doc = printed(["pkg-config", "--variable=docdir", NAME], env=env).strip()
    assert Path(doc).resolve() == at / "doc"


def test_commands_of_page(tmp_path: Path) -> None:
    """What the installed page says about linking, in a folder of one's own, shows what it has."""
    home, own = tmp_path / "home", tmp_path / "own"
    own.mkdir()
    installed(home / "amqp", WITHOUT_TOOL)
    commands, wants = commands_of_linking((home / f"amqp/share/doc/{NAME}/C.md").read_text())
    env = {"PATH": PATH, "HOME": str(home), "LD_LIBRARY_PATH": str(home / "amqp/lib")}
    env["PKG_CONFIG_PATH"] = str(home / "amqp/lib/pkgconfig")
    assert wants
    assert printed(["sh", "-ec", "\n".join(commands)], cwd=own, env=env) == wants
