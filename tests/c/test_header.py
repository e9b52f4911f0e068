"""include/amqp_values.h compiles, misuse of its macros doesn't, and stable.c states its structs and constants.

Nothing is run. header.c uses it in each version of C and C++ from C99 to C23 and C++11 to C++23, by gcc and clang with
all their warnings.
stable.c states every struct's fields and every constant.
"""

import re
from typing import NamedTuple

import pytest

from tests.c.compiling import HEADER, HERE, assert_well, run

WARNINGS = "-Wall -Wextra -Wpedantic -Wconversion -Wsign-conversion -Wshadow -Wcast-qual -Werror".split()
WARNINGS_OF = {"c": WARNINGS, "c++": [*WARNINGS, "-Wold-style-cast"]}
# The versions of each language, as both compilers call them.
VERSIONS = {"c": ("c99", "c11", "c17", "c2x"), "c++": ("c++11", "c++14", "c++17", "c++20", "c++2b")}


class Compiler(NamedTuple):
    """A compiler of a language."""

    name: str
    language: str

    def needs(self) -> list[pytest.MarkDecorator]:
        return [pytest.mark.needs("clang")] * self.name.startswith("clang")


COMPILERS = [Compiler(*it) for it in (("gcc", "c"), ("g++", "c++"), ("clang", "c"), ("clang++", "c++"))]
VERSIONS_OF = [
    pytest.param(compiler, version, id=f"{version} by {compiler.name}", marks=compiler.needs())
    for compiler in COMPILERS
    for version in VERSIONS[compiler.language]
]


@pytest.mark.parametrize(("compiler", "version"), VERSIONS_OF)
def test_header(compiler: Compiler, version: str) -> None:
    """It compiles, as header.c uses it."""
    words = [compiler.name, f"-std={version}", f"-x{compiler.language}", *WARNINGS_OF[compiler.language]]
    assert_well(run([*words, f"-I{HEADER.parent}", "-fsyntax-only", HERE / "header.c"]))


# What isn't taken

REFUSED = (
    "amqpv_step by_pointer(const char *key) { amqpv_step it = AMQPV_KEY(key); return it; }",
    "amqpv_result get(const amqpv_input *in, amqpv_entry *it, const char *key) { return amqpv_get(in, it, AMQPV_STR(key), it); }",
    "amqpv_step by_negative(void) { amqpv_step it = AMQPV_INDEX(-1); return it; }",
    "void add(amqpv_writer *w, const char *n) { amqpv_add_int(w, 0, 0, AMQPV_LONG_INT, n); }",
)


@pytest.mark.parametrize("compiler", [pytest.param(it, id=it.name, marks=it.needs()) for it in COMPILERS])
@pytest.mark.parametrize("line", REFUSED, ids=range(len(REFUSED)))
def test_misuse(compiler: Compiler, line: str) -> None:
    """It gets a warning, or an error."""
    words = [compiler.name, f"-x{compiler.language}", f"-I{HEADER.parent}", "-fsyntax-only", *WARNINGS, "-"]
    head = '#include "amqp_values.h"\n'
    declared = line.partition(" {")[0]
    assert_well(run(words, input=f"{head}{declared};\n"))
    assert run(words, input=f"{head}{declared};\n{line}\n").returncode == 1


# Results

# What the header declares that returns a result: its name, and its arguments.
RETURNING = dict(
    re.findall(r"(?m)^(?:static inline )?amqpv_result (amqpv_\w+)\(([^;{]*)\)[^;{)]*;", HEADER.read_text())
)


@pytest.mark.parametrize("compiler", [pytest.param(it, id=it.name, marks=it.needs()) for it in COMPILERS])
def test_ignored_result(compiler: Compiler) -> None:
    """It gets a warning, except of a conversion, which leaves a default."""
    calls = [f"{name}({', '.join('0' for _ in arguments.split(','))});" for name, arguments in RETURNING.items()]
    source = "\n".join(['#include "amqp_values.h"', "void ignore(void) {", *calls, "}\n"])
    # (gcc says where the macros are that stand for six calls, unless it doesn't track them)
    tracked = [] if "clang" in compiler.name else ["-ftrack-macro-expansion=0"]
    words = [compiler.name, f"-x{compiler.language}", f"-I{HEADER.parent}", *tracked, "-S", "-o", "/dev/null", "-"]
    done = run(words, input=source)
    assert_well(done)
    warned = {int(it) - 3 for it in re.findall(r"(?m)^<stdin>:(\d+):.*\[-Wunused-result\]$", done.stderr)}
    ignored = {name for line, name in enumerate(RETURNING) if line not in warned}
    assert ignored and ignored == {it for it in RETURNING if it.startswith("amqpv_as_")}


# What stays


def wanted_in_stable() -> list[str]:
    """What stable.c has to state of the header."""
    header = re.sub(r"/\*.*?\*/", "", HEADER.read_text(), flags=re.DOTALL)
    wanted = {f"CONSTANT({it}," for it in re.findall(r"(AMQPV_\w+) = ", header)}
    for name, body in re.findall(r"typedef struct (\w+) \{(.*?)\}", header, re.DOTALL):
        wanted |= {f"FIELD({name}, {it}," for it in re.findall(r"(\w+)(?:\[\w+\])?;", body)} | {f"STRUCT({name},"}
    return sorted(wanted)


def test_stable_has_all_of_header() -> None:
    wanted, stable = wanted_in_stable(), (HERE / "stable.c").read_text()
    assert wanted
    assert [it for it in wanted if it not in stable] == [], "write these lines in tests/c/stable.c"


# What habits.c and the examples try, and inline.c doesn't.
ONLY_COMPILED = {"amqpv_table", "amqpv_enter"}


def test_programs_have_each_inline_function() -> None:
    """Those of users, whose names don't end in an underscore."""
    text = HEADER.read_text() + HEADER.with_name("amqp_values_inline.h").read_text()
    names = {*re.findall(r"(?m)^static inline [\w *]*?\b(amqpv_\w*[a-z0-9])\(", text)}
    assert "amqpv_value" in names
    for program, left_out in (("header.c", set[str]()), ("inline.c", ONLY_COMPILED)):
        lacks = names - left_out - {*re.findall(r"\w+", (HERE / program).read_text())}
        assert not lacks, f"call these in tests/c/{program}"


@pytest.mark.parametrize("compiler", ("cc", "aarch64-linux-gnu-gcc"))
def test_stable(compiler: str) -> None:
    words = [compiler, "-std=c11", "-Wall", "-Wextra", "-Werror", f"-I{HEADER.parent}", "-fsyntax-only"]
    assert_well(run([*words, HERE / "stable.c"]))
