"""The examples of README.md and the guides that return the count of a message's first death agree, in each language.

There is one in Rattle, and there are several in C, Rust and Python. All get the same headers, tables without their type tag:
those of vectors/cases/real-world.json, which a broker and its clients sent, and some in which a key comes twice, that are
malformed, or that nest as deep as the limits allow. An example is taken from its page as it is.
"""

import re
import shutil
from collections.abc import Callable
from pathlib import Path
from typing import NamedTuple

import pytest
from building import static_library
from dependencies import TOP, Crates
from wheels import PYTHON

from tests.compiling import compile_package
from tests.model.encoding import field
from tests.model.inputs import captured, nested
from tests.rust.cargo import TARGET, assert_well, cargo, package, run

pytestmark = pytest.mark.needs("cargo")

# What stands for no count.
NONE = -1


def count(number: int) -> bytes:
    """A pair of a death."""
    return b"\x05countl" + number.to_bytes(8, "big", signed=True)


def deaths(*tables: bytes) -> bytes:
    """A pair of headers: an array of tables that have these pairs."""
    return b"\x07x-death" + field(b"A", b"".join(field(b"F", it) for it in tables))


def headers(*pairs: bytes) -> bytes:
    """A table without its type tag."""
    return field(b"F", b"".join(pairs))[1:]


# Headers, each with the count that an example returns.
CASES = {
    "two deaths": (headers(deaths(count(7), count(8))), 7),
    "x-death twice": (headers(deaths(count(1)), deaths(count(2))), 1),
    "count twice": (headers(deaths(count(3) + count(4))), 3),
    "x-death twice, at first without a count": (headers(deaths(b"\x01aV"), deaths(count(2))), NONE),
    "no count": (headers(deaths(b"\x06reasonV")), NONE),
    "no death": (headers(deaths()), NONE),
    "no header": (headers(), NONE),
    "with a type tag": (b"F" + headers(deaths(count(6))), NONE),
    "truncated": (headers(deaths(count(6)))[:-1], NONE),
    "a key that isn't UTF-8": (headers(deaths(count(6)), b"\x01\xffV"), NONE),
    "32 levels": (headers(deaths(count(9)), b"\x01a" + nested("A", 31, b"")), 9),
    "33 levels": (headers(deaths(count(9)), b"\x01a" + nested("A", 32, b"")), NONE),
}
# (RabbitMQ counted these deaths)
COUNTED = {f"x-death-after-{it}": it for it in (1, 2, 3, 4)} | {
    "x-death-quorum-queue": 1,
    "x-death-int-1": 1,
    "x-death-int-2": 1,
}
CASES |= {name: (data[1:], COUNTED.get(name, NONE)) for name, data in captured().items()}
GIVEN = [data for data, _ in CASES.values()]
WANTED = {name: f"{wanted}" for name, (_, wanted) in CASES.items()}
# Python's `find` accepts keys that aren't UTF-8 where it doesn't look.
OF_PYTHON = {"a key that isn't UTF-8": "6"}


def literal(data: bytes) -> str:
    """Bytes as Rattle and Rust write them."""
    return 'b"' + "".join(f"\\x{it:02x}" for it in data) + '"'


class Made(NamedTuple):
    """The Rust crates, and a folder to work in."""

    copies: Path
    folder: Path


@pytest.fixture
def made(copies: Path, tmp_path: Path) -> Made:
    return Made(copies, tmp_path)


IN_RATTLE = """
#![tactic(auto)]
{code}
const GIVEN: &[&[u8]] = &[{given}];

fn main(rt: HostRuntime) -> anyhow::Result<()> {{
    for headers in GIVEN {{
        match deaths(headers) {{
            Ok(Some(count)) => println!(rt; "{{count}}")?,
            _ => println!(rt; "-1")?,
        }}
    }}
    Ok(())
}}
"""


def printed_by_rattle(code: str, made: Made) -> list[str]:
    """As a program of another repository, to which the crates are copied; nothing is proved."""
    crates = Crates()
    needed = crates.needed("amqp_in_place")
    for it in (crates.folder(name) / part for name in needed for part in ("src", "specs", "proofs")):
        shutil.copytree(it, made.folder / it.relative_to(TOP))
    lines = [*map(crates.lines.__getitem__, needed), "deaths: amq_protocol_types amqp_in_place anyhow"]
    (made.folder / "crates.txt").write_text("".join(f"{it}\n" for it in lines))
    source = made.folder / "crates/deaths/src/main.rt"
    source.parent.mkdir(parents=True)
    source.write_text(IN_RATTLE.format(code=code, given=", ".join(map(literal, GIVEN))))
    return assert_well(run(["rt", "try"], source.parent.parent)).splitlines()


IN_C = """
#include <inttypes.h>
#include <stdio.h>
#include "amqp_values.h"
{code}
int main(void) {{
    static const uint8_t given[] = {{{given}}};
    static const size_t lengths[] = {{{lengths}}};
    size_t at = 0;
    for (size_t i = 0; i < sizeof lengths / sizeof *lengths; i++) {{
        printf("%" PRId64 "\\n", deaths(given + at, lengths[i]));
        at += lengths[i];
    }}
    return 0;
}}
"""


def printed_by_c(code: str, made: Made) -> list[str]:
    source, program = made.folder / "deaths.c", made.folder / "deaths"
    given, lengths = (", ".join(map(str, it)) for it in (b"".join(GIVEN), map(len, GIVEN)))
    source.write_text(IN_C.format(code=code, given=given, lengths=lengths))
    words = ["cc", "-std=c11", "-Wall", "-Wextra", "-Werror", f"-I{TOP}/include"]
    assert_well(run([*words, "-o", program, source, static_library(made.folder)]))
    return assert_well(run([program])).splitlines()


IN_RUST = """
{code}
fn main() {{
    let given: &[&[u8]] = &[{given}];
    for headers in given {{
        println!("{{}}", deaths(headers).ok().flatten().unwrap_or(-1));
    }}
}}
"""


def printed_by_rust(code: str, made: Made) -> list[str]:
    source = made.folder / "deaths.rs"
    source.write_text(IN_RUST.format(code=code, given=", ".join(map(literal, GIVEN))))
    more = f'[[bin]]\nname = "deaths"\npath = "{source}"\n'
    folder = package("deaths", [f'amqp-values = {{ path = "{made.copies}/amqp-values" }}'], more)
    assert_well(cargo(folder, "build", "--quiet"))
    return assert_well(run([TARGET / "debug/deaths"])).splitlines()


IN_PYTHON = """
import amqp_values as av
for headers in {given!r}:
    try:
        count = {code}
    except av.Error:
        count = None
    print(-1 if count is None else count)
"""


def printed_by_python(code: str, made: Made) -> list[str]:
    assert not compile_package(made.folder)
    words = [PYTHON, "-B", "-c", IN_PYTHON.format(code=code, given=GIVEN)]
    return assert_well(run(words, env={"PYTHONPATH": str(made.folder)})).splitlines()


RUNNERS: dict[str, Callable[[str, Made], list[str]]] = {
    "Rattle": printed_by_rattle, "C": printed_by_c, "Rust": printed_by_rust, "Python": printed_by_python,
}  # fmt: skip
# The lines before the function that have to be there, and the function; of Python an expression.
CODE = {
    "Rattle": r"(?ms)^((?:use [^\n]*;\n)+)\n(?:///? [^\n]*\n)*(fn deaths\(.*?^}\n)",
    "C": r"(?ms)()^(static int64_t deaths\(.*?^}\n)",
    "Rust": r"(?ms)^((?:use [^\n]*;\n)*)\n?(?:/// [^\n]*\n)?(fn deaths\([^\n]*, Error>.*?^}\n)",
    "Python": r"(?m)()^>>> (av\.find\(.*\))$",
}
EXAMPLES = [
    ("README.md", "C"),
    ("README.md", "Python"),
    ("crates/examples/src/in_place.rt", "Rattle"),
    ("docs/C.md", "C"),
    ("examples/c/count_deaths.c", "C"),
    ("docs/RUST.md", "Rust"),
    ("bindings/rust/amqp-values/examples/count_deaths.rs", "Rust"),
    ("bindings/rust/amqp-values/src/lib.rs", "Rust"),
    ("docs/PYTHON.md", "Python"),
]


NEEDS = {"Rattle": [pytest.mark.needs("rt")]}


@pytest.mark.parametrize(("page", "language"), [pytest.param(*it, marks=NEEDS.get(it[1], [])) for it in EXAMPLES])
def test_example(page: str, language: str, made: Made) -> None:
    text = re.sub(r"(?m)^//! ?", "", (TOP / page).read_text())
    found = re.findall(CODE[language], text)
    assert len(found) == 1, f"{page} has {len(found)} examples in {language}"
    code = re.sub(r"use (std::io|crate::).*;\n", "", "".join(found[0]))
    printed = RUNNERS[language](code, made)
    wanted = WANTED | OF_PYTHON if language == "Python" else WANTED
    wrong = {name: it for name, it in zip(CASES, printed, strict=True) if it != wanted[name]}
    assert not wrong


def test_every_page_is_here() -> None:
    """The function is in no other page, and in no other source that is an example."""
    tracked = run(["git", "ls-files", "*.md", "examples", "bindings"], TOP).stdout.splitlines()
    having = [
        it
        for it in tracked
        if re.search(r"(?m)^(//! )?(static int64_t|fn) deaths\(", (TOP / it).read_text(errors="replace"))
    ]
    assert {*having} <= {page for page, _ in EXAMPLES}
