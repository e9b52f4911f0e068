"""Compiles C over the libraries of the C API and runs it, for the tests in tests/c: `compiled`, `run`, `symbols`."""

import re
from pathlib import Path
from typing import Any

from building import C_API
from dependencies import TOP

from tests.checks import Done as Done
from tests.checks import Words as Words
from tests.checks import assert_well as assert_well
from tests.checks import run as run

HERE = Path(__file__).resolve().parent
HEADER, EXAMPLES = TOP / "include/amqp_values.h", TOP / "examples/c"
PLAIN, ALLOCATING = C_API
FLAGS = ["-std=c11", "-Wall", "-Wextra", "-Werror", f"-I{HEADER.parent}"]
C = ["cc", *FLAGS]
SANITIZERS = ["-fsanitize=address,undefined", "-fno-sanitize-recover=all"]
# What memory.c is linked with.
WRAPPED = [f"-Wl,--wrap={it}" for it in ("malloc", "realloc", "free")]
# The processor by which what is compiled for aarch64 is run, which has what each has.
OF_AARCH64 = ["qemu-aarch64", "-L", "/usr/aarch64-linux-gnu", "-cpu", "cortex-a53"]


def printed(words: Words, **others: Any) -> str:
    """What a command prints that ends well."""
    return assert_well(run(words, **others))


def compiled(source: Path, to: Path, libraries: Words, words: Words = C, options: Words = ()) -> Path:
    """Compiles and links a C program, and returns its path."""
    assert_well(run([*words, "-O1", *options, "-o", to, source, *libraries]))
    return to


def symbols(path: Path, *words: str, kinds: str = "A-Za-z") -> set[str]:
    """The symbols of a library that nm lists by these words, and that are of these kinds."""
    lines = printed(["nm", *words, path]).splitlines()
    return {line.split()[-1] for line in lines if re.search(f" [{kinds}] ", line)}


def version() -> str:
    """The header's version."""
    found = re.search(r'(?m)^#define AMQPV_VERSION "(.*)"$', HEADER.read_text())
    return found[1] if found else ""
