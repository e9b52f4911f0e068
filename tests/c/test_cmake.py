"""CMake alone builds the library from a clone, for which a C compiler is enough, and in a project around it.

Such a project has it by add_subdirectory or by FetchContent, with its own flags and variables.
"""

import re
import time
from pathlib import Path

import pytest
from dependencies import TOP

from tests.c.compiling import assert_well, printed, run, symbols
from tests.c.pages import blocks_of_cmake
from tests.c.places import NAME, PATH, WITHOUT_TOOL, files_in, installed
from tests.copies import copy_repository

# What is built in this many seconds, on a busy machine too.
SECONDS = 60


@pytest.fixture
def without_python(tmp_path: Path) -> str:
    """A path with all of Debian's programs but Python."""
    folder = tmp_path / "path"
    folder.mkdir()
    for it in (it for it in Path("/usr/bin").iterdir() if not it.name.startswith("python3")):
        (folder / it.name).symlink_to(it)
    return str(folder)


def test_no_toolchain(prefix: Path, tmp_path: Path) -> None:
    """What is installed is the same as with rt in the path."""
    begun = time.monotonic()
    env = {"PATH": PATH, "HOME": str(tmp_path)}
    found = installed(tmp_path / "installed", WITHOUT_TOOL, env=env)
    assert time.monotonic() - begun < SECONDS
    assert run(["sh", "-c", "command -v rt rattle"], env=env).returncode
    assert files_in(found) == files_in(prefix)


def test_no_python(prefix: Path, without_python: str, tmp_path: Path) -> None:
    """All but the pages is installed, and the texts of licences are."""
    env = {"PATH": without_python}
    # (CMake would look at Debian's usual places besides)
    flags = [WITHOUT_TOOL, "-DCMAKE_FIND_USE_CMAKE_SYSTEM_PATH=OFF"]
    found = installed(tmp_path / "installed", *flags, env=env)
    pages = {it for it in files_in(prefix) if it.endswith(".md")}
    assert pages and files_in(found) == files_in(prefix) - pages
    said = printed(["cmake", "-S", TOP, "-B", tmp_path / "again", *flags], env=env)
    assert "-- The pages aren't installed, since there is no python3.\n" in said


@pytest.mark.parametrize(
    "flags",
    (
        ("-DCMAKE_BUILD_TYPE=Debug",),
        ("-DCMAKE_BUILD_TYPE=Release", "-DCMAKE_INTERPROCEDURAL_OPTIMIZATION=ON", "-DCMAKE_UNITY_BUILD=ON"),
        # (of clang a library has the names of the sanitizer only once a program has it)
        pytest.param(
            (
                "-DCMAKE_C_COMPILER=clang",
                "-DCMAKE_BUILD_TYPE=Debug",
                "-DCMAKE_C_FLAGS=-fsanitize=address -Wall -Werror",
            ),
            marks=pytest.mark.needs("clang"),
        ),
    ),
    ids=("debug", "optimized", "sanitized by clang"),
)
def test_other_flags(tmp_path: Path, flags: tuple[str, ...]) -> None:
    assert_well(run(["cmake", "-S", TOP, "-B", tmp_path, WITHOUT_TOOL, *flags]))
    done = run(["cmake", "--build", tmp_path])
    assert_well(done)
    assert done.stderr == ""


@pytest.mark.parametrize(
    ("flags", "platform"),
    (
        (["-DCMAKE_SYSTEM_NAME=Linux", "-DCMAKE_SYSTEM_PROCESSOR=riscv64"], "riscv64 Linux"),
        (["-DCMAKE_SYSTEM_NAME=Darwin", "-DCMAKE_SYSTEM_PROCESSOR=arm64"], "arm64 Darwin"),
        (["-DCMAKE_SYSTEM_NAME=FreeBSD", "-DCMAKE_SYSTEM_PROCESSOR=x86_64"], "x86_64 FreeBSD"),
        # (where gcc can't link such programs, CMake itself would say so)
        (
            ["-DCMAKE_C_FLAGS=-m32", "-DCMAKE_TRY_COMPILE_TARGET_TYPE=STATIC_LIBRARY"],
            "x86_64 Linux with addresses of 32 bits",
        ),
    ),
    ids=("riscv64", "macOS", "FreeBSD", "32 bits"),
)
def test_other_platform(tmp_path: Path, flags: list[str], platform: str) -> None:
    """One sentence says that nothing is compiled for it."""
    done = run(["cmake", "-S", TOP, "-B", tmp_path, WITHOUT_TOOL, *flags])
    assert done.returncode
    said = " ".join(re.findall(r"(?s)\(message\):\n(.*?)\n\n", done.stderr)[0].split())
    wanted = f"amqp_values has compiled code for x86_64 and aarch64 Linux only, and not for {platform}: see docs/PLATFORMS.md"
    assert said == wanted


# In a project around it

# Variables that CMakeLists.txt has too are the project's own before and after.
PROJECT = """\
cmake_minimum_required(VERSION 3.14)
project(around {languages})
set(CMAKE_C_STANDARD 99)
set(CMAKE_C_EXTENSIONS OFF)
set(CMAKE_C_VISIBILITY_PRESET hidden)
set(CMAKE_POSITION_INDEPENDENT_CODE ON)
set(names version library target it name map generated none pages sources tool amqp_values)
foreach(own ${{names}})
    set(${{own}} mine)
endforeach()
add_compile_options(-Werror -Wall -Wextra -pedantic $<$<COMPILE_LANGUAGE:C>:-std=c99>)
add_compile_definitions(OWN=1)
{has}
foreach(own ${{names}})
    if(NOT ${{own}} STREQUAL mine)
        message(FATAL_ERROR "${{own}} is ${{${{own}}}}")
    endif()
endforeach()
foreach(kind amqp_values shared static)
    add_executable(over_${{kind}} program.{suffix})
    target_link_libraries(over_${{kind}} PRIVATE amqp_values::${{kind}})
endforeach()
install(TARGETS over_static)
"""
PROGRAM = """\
#include <stdio.h>
#include "amqp_values.h"
int main(void) {
    static const uint8_t bytes[] = {'I', 0, 0, 0, OWN};
    amqpv_input in = amqpv_value(bytes, sizeof bytes);
    amqpv_entry entry;
    int64_t number = 0;
    char json[64];
    size_t needed;
    if (amqpv_read(&in, &entry, NULL) != AMQPV_OK || amqpv_as_int(&entry, &number) != AMQPV_OK) return 1;
    if (amqpv_to_json(&in, json, sizeof json, &needed) != AMQPV_OK) return 1;
    return printf("%d %s\\n", (int)number, json) < 0;
}
"""
PRINTED = '1 {"$LongInt":1}\n'
BY_FOLDER = f"add_subdirectory({TOP} {NAME})"
FETCHED = f"include(FetchContent)\nFetchContent_Declare({NAME} %s)\nFetchContent_MakeAvailable({NAME})"
LANGUAGES = {"C": "c", "CXX": "cpp", "C CXX": "cpp"}
WAYS = {
    **{f"in a folder, {it} by gcc": (BY_FOLDER, it, "gcc", "g++") for it in LANGUAGES},
    **{f"in a folder, {it} by clang": (BY_FOLDER, it, "clang", "clang++") for it in LANGUAGES},
    "fetched, C by gcc": (FETCHED % f"SOURCE_DIR {TOP}", "C", "gcc", "g++"),
    "fetched, CXX by clang": (FETCHED % f"SOURCE_DIR {TOP}", "CXX", "clang", "clang++"),
}
AROUND = [
    pytest.param(*way, id=name, marks=pytest.mark.needs(*["clang"] * ("clang" in name))) for name, way in WAYS.items()
]


def around(source: Path, has: str, languages: str = "C", *flags: str) -> Path:
    """Builds a project that has the library, without a warning; the folder in which it is built."""
    source.mkdir()
    suffix = LANGUAGES[languages]
    (source / f"program.{suffix}").write_text(PROGRAM)
    (source / "CMakeLists.txt").write_text(PROJECT.format(languages=languages, suffix=suffix, has=has))
    assert_well(run(["cmake", "-S", source, "-B", source / "built", *flags]))
    done = run(["cmake", "--build", source / "built"])
    assert_well(done)
    assert done.stderr == ""
    return source / "built"


@pytest.mark.parametrize(("has", "languages", "cc", "cxx"), AROUND)
def test_project_around(tmp_path: Path, has: str, languages: str, cc: str, cxx: str) -> None:
    """Of the library only what it links is built, and nothing is installed."""
    compilers = f"-DCMAKE_C_COMPILER={cc}", f"-DCMAKE_CXX_COMPILER={cxx}"
    built = around(tmp_path / "around", has, languages, *compilers)
    for kind in (NAME, "shared", "static"):
        assert printed([built / f"over_{kind}"]) == PRINTED
        needed = printed(["readelf", "-d", built / f"over_{kind}"])
        assert ("libamqp_values.so.0" in needed) == (kind != "static")
    assert [*built.rglob("libamqp_values_rabbitmq*")] == []
    assert_well(run(["cmake", "--install", built, "--prefix", tmp_path / "installed"]))
    assert files_in(tmp_path / "installed") == {"bin/over_static"}


def test_what_is_before_librabbitmq_in_a_project_around(prefix: Path, tmp_path: Path) -> None:
    """It shows the same, though the project hides what it doesn't name."""
    built = around(tmp_path / "around", BY_FOLDER)
    assert_well(run(["cmake", "--build", built, "--target", f"{NAME}_rabbitmq"]))
    words = ["-D", "--defined-only"]
    wanted = symbols(prefix / f"lib/lib{NAME}_rabbitmq.so", *words)
    assert "amqp_decode_table" in wanted
    assert symbols(built / f"{NAME}/lib{NAME}_rabbitmq.so", *words) == wanted


def test_project_fetches_a_repository(tmp_path: Path) -> None:
    """By git, from a repository in which all of this is committed."""
    repository = tmp_path / "repository"
    copy_repository(repository)
    for words in ("init -q", "add -A", "-c user.name=nobody -c user.email=nobody@example.org commit -qm all"):
        assert_well(run(["git", "-C", repository, *words.split()]))
    commit = printed(["git", "-C", repository, "rev-parse", "HEAD"]).strip()
    built = around(tmp_path / "around", FETCHED % f"GIT_REPOSITORY file://{repository} GIT_TAG {commit}")
    assert printed([built / "over_static"]) == PRINTED


@pytest.mark.parametrize(
    "block", blocks_of_cmake((TOP / "docs/C.md").read_text()), ids=("FetchContent", "find_package")
)
def test_block_of_page(prefix: Path, tmp_path: Path, block: str) -> None:
    """What the page has for a project, as it is printed."""
    (tmp_path / "amqp_values").symlink_to(TOP)
    (tmp_path / "program.c").write_text(PROGRAM)
    head = "cmake_minimum_required(VERSION 3.14)\nproject(own C)\nadd_executable(program program.c)\n"
    (tmp_path / "CMakeLists.txt").write_text(head + block)
    flags = ["-DCMAKE_C_FLAGS=-DOWN=1", f"-DCMAKE_PREFIX_PATH={prefix}"]
    assert_well(run(["cmake", "-S", tmp_path, "-B", tmp_path / "built", *flags]))
    assert_well(run(["cmake", "--build", tmp_path / "built"]))
    assert printed([tmp_path / "built/program"]) == PRINTED
