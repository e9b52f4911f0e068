"""The symbols that the two objects of the C API define, and those that they ask for, as gcc and clang assemble them.

The global symbols of each are its calls and no other, as include/amqp_values.h declares them: another library that Rattle made
can have functions of the same names. The first asks only for `memcpy`, `memmove` and `memset`, and for the division of 128 bits
that every compiler's own library has, so it can't allocate, print or end the process. The second asks for the three functions of
c/malloc.c too. None has a variable.
"""

from typing import Any

import pytest
from building import AARCH64, C_API, X86_64

from tests.c.conftest import Assemble
from tests.c.declared import CALLS
from tests.c.compiling import ALLOCATING, PLAIN, symbols

OF_MALLOC = {"malloc", "realloc", "free"}
OF_EACH = {"memcpy", "memmove", "memset", "__udivti3"}
BORROWED = {PLAIN: OF_EACH, ALLOCATING: OF_EACH | OF_MALLOC}


def ways() -> list[Any]:
    """Each target and assembler, and what isn't left out for it."""
    found = []
    for target in (X86_64, AARCH64):
        for assembler in ("", "clang"):
            needs = [*["aarch64"] * (target == AARCH64), *[assembler] * bool(assembler)]
            name = f"{target.partition('-')[0]} by {assembler or 'gcc'}"
            found.append(pytest.param(target, assembler, id=name, marks=pytest.mark.needs(*needs)))
    return found


@pytest.mark.parametrize("crate", C_API)
@pytest.mark.parametrize(("target", "assembler"), ways())
def test_symbols(assemble: Assemble, target: str, assembler: str, crate: str) -> None:
    object_file = dict(zip(C_API, assemble(target, assembler)))[crate]
    assert symbols(object_file, "-g", "--defined-only") == CALLS[crate]
    assert symbols(object_file, "-g", "--undefined-only") - BORROWED[crate] == set()
    # (none can be written to)
    assert symbols(object_file, kinds="bBdDC") == set()
