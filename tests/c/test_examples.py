"""The programs of examples/c print what their transcripts have (tests/transcripts.py), and the C of two pages runs.

They are compiled by both compilers, and run on an old processor too, as qemu has it, and for aarch64.
Standard error isn't compared, which sanitizers and processors of qemu write to.
"""

from collections.abc import Callable
from functools import cache
from pathlib import Path
from typing import NamedTuple

import pytest
from building import AARCH64, COMPILERS
from dependencies import TOP

from tests.c.compiling import EXAMPLES, FLAGS, OF_AARCH64, SANITIZERS, C, Words, compiled, printed
from tests.c.pages import PRINTED, program_of_page
from tests.c.running import assert_as_transcript
from tests.transcripts import Case, cases


class Way(NamedTuple):
    """A way to compile an example and to run it: by these words, and with what isn't left out."""

    words: Words = C
    run_by: Words = ()
    needs: tuple[str, ...] = ()


# One processor is as old as x86-64 itself except for SSE3.
OLD_PROCESSOR = ["qemu-x86_64", "-cpu", "Opteron_G1-v1"]
CC_OF_AARCH64 = [COMPILERS[AARCH64][0], *FLAGS]
SANITIZED, ON_AARCH64 = "sanitized", "on aarch64"
WAYS = {
    SANITIZED: Way(),
    "by clang": Way(["clang", *FLAGS], needs=("clang",)),
    "on an old processor": Way(run_by=OLD_PROCESSOR, needs=("old-processor",)),
    ON_AARCH64: Way(CC_OF_AARCH64, OF_AARCH64, ("aarch64",)),
}
FOUND = [(it.stem, case) for it in sorted(EXAMPLES.glob("*.c")) for case in cases(it.with_suffix(".t")).values()]
CASES = [
    pytest.param(way, name, case, id=f"{name}, {case.name}, {way}", marks=pytest.mark.needs(*WAYS[way].needs))
    for way in WAYS
    for name, case in FOUND
]
Build = Callable[[str, str], Path]


@pytest.fixture(scope="module")
def build(request: pytest.FixtureRequest, linked: Words, folder: Path) -> Build:
    """Compiles an example in a way."""

    @cache
    def built(way: str, name: str) -> Path:
        options = SANITIZERS if way == SANITIZED else []
        libraries = linked
        if way == ON_AARCH64:
            libraries = [request.getfixturevalue("made_for_aarch64") / "lib/libamqp_values.a"]
        return compiled(EXAMPLES / f"{name}.c", folder / f"{name} {way}", libraries, WAYS[way].words, options)

    return built


@pytest.mark.parametrize(("way", "name", "case"), CASES)
def test_case(build: Build, way: str, name: str, case: Case) -> None:
    assert_as_transcript(case, [*WAYS[way].run_by, build(way, name)])


def test_page(linked: Words, tmp_path: Path) -> None:
    """Every block of C in docs/C.md and docs/ADOPTING.md is compiled and run."""
    source = tmp_path / "page.c"
    source.write_text(program_of_page("".join((TOP / "docs" / it).read_text() for it in ("C.md", "ADOPTING.md"))))
    assert printed([compiled(source, tmp_path / "page", linked, options=SANITIZERS)]) == PRINTED


SHARED = "count_deaths"
CASES_OF_SHARED = cases(EXAMPLES / f"{SHARED}.t")


@pytest.fixture(scope="module")
def over_shared(made_for_aarch64: Path, folder: Path) -> Words:
    """An example over the shared object for aarch64, and what runs it."""
    lib = made_for_aarch64 / "lib"
    shared = [f"-L{lib}", "-lamqp_values"]
    program = compiled(EXAMPLES / f"{SHARED}.c", folder / "over shared", shared, CC_OF_AARCH64)
    return [*OF_AARCH64, "-E", f"LD_LIBRARY_PATH={lib}", program]


@pytest.mark.needs("aarch64")
@pytest.mark.parametrize("case", CASES_OF_SHARED.values(), ids=CASES_OF_SHARED)
def test_case_over_shared_object_on_aarch64(over_shared: Words, case: Case) -> None:
    assert_as_transcript(case, over_shared)
