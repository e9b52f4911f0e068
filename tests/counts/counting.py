"""`taken` runs counts.c, by itself and under callgrind, and returns what each call takes over each input.

bench/measure.py counts those of other libraries by the same runs of callgrind.
"""

import re
import tempfile
from collections.abc import Iterator
from pathlib import Path
from typing import NamedTuple

from building import MALLOC, build_archive, objects
from dependencies import TOP, Crates

from tests.checks import Words, assert_well, run
from tests.counts.inputs import INPUTS

SOURCE = Path(__file__).with_name("counts.c")
# How counts.c is compiled. The libraries use no other function of the C library than these.
WRAPPED = [f"-Wl,--wrap={it}" for it in ("malloc", "realloc", "free", "memcpy", "memmove", "memset")]
C = ["cc", "-O1", "-g", "-std=c11", "-Wall", "-Wextra", "-Werror", f"-I{TOP}/include", *WRAPPED, "-Wl,-z,now"]
CALLGRIND = ["valgrind", "--tool=callgrind", "--compress-strings=no", "--compress-pos=no"]


class Taken(NamedTuple):
    """What a call takes over an input: what counts.c prints, and instructions."""

    result: int
    given: int
    values: int
    levels: int
    allocations: int
    held: int
    moved: int
    stack: int
    instructions: int


# By the name of the input.
OfCall = dict[str, Taken]


def build(program: Path) -> None:
    """Builds counts.c over the C API and crates/amqp_bench, which `rt ci` has proved here."""
    library = program.with_name("libamqp_bench.a")
    done = build_archive(Crates(), "amqp_bench", library)
    assert done.returncode == 0, f"{library.name}: {(done.stderr or done.stdout)[-1000:]}"
    words: Words = [*C, "-o", program, SOURCE, MALLOC, library, *objects(program.parent), "-lpthread"]
    assert_well(run(words))


def dumps(folder: Path, words: Words, asked: str = "") -> list[str]:
    """Runs a program under callgrind in a folder, and returns the dumps that it makes there, in order."""
    for it in folder.glob("dump*"):
        it.unlink()
    command = [*CALLGRIND, f"--callgrind-out-file={folder}/dump", *words]
    assert_well(run(command, cwd=folder, input=asked, env={"PATH": "/usr/bin"}))
    return [it.read_text() for it in sorted(folder.glob("dump.*"), key=lambda it: int(it.suffix[1:]))]


def instructions(dump: str, program: Path) -> tuple[str, int]:
    """The label of a dump of callgrind, and the instructions of the libraries, whose sources it can't name."""
    label, total, is_inclusive, of_program, is_unnamed = "", 0, False, False, False
    for line in dump.splitlines():
        if line.startswith("desc: Trigger: "):
            label = line.partition("Client Request: ")[2]
        elif line.startswith("ob="):
            of_program = line.endswith(f"/{program.name}")
        elif line.startswith("fl="):
            is_unnamed = line == "fl=???"
        elif line.startswith("calls="):
            is_inclusive = True
        elif found := re.match(r"\d+ (\d+)$", line):
            total += int(found[1]) if of_program and is_unnamed and not is_inclusive else 0
            is_inclusive = False
    return label, total


def taken() -> dict[str, OfCall]:
    """What each call takes over each input. A byte that is copied or filled counts as an instruction."""
    found: dict[str, OfCall] = {}
    with tempfile.TemporaryDirectory(prefix="counts-") as made:
        folder, program = Path(made), Path(made) / "program"
        build(program)
        for name, given in INPUTS.items():
            (folder / name).write_bytes(given.given)
        counted = [folder / name for name, it in INPUTS.items() if it.size]
        dumped = dict(instructions(it, program) for it in dumps(folder, [program, *counted]))
        assert_well(done := run([program, *(folder / it for it in INPUTS)], env={}))
        for line in done.stdout.splitlines():
            call, name, printed_counts = line.split(" | ")
            counts = [*map(int, printed_counts.split()), dumped.get(f"{call} | {name}", 0)]
            it = Taken._make(counts)
            found.setdefault(call, {})[name] = it._replace(instructions=it.instructions + it.moved)
    once, twice = found.pop("parse_value and gen_value"), found.pop("parse_value and gen_value twice")
    found["gen_value"] = {name: second(of_once, twice[name]) for name, of_once in once.items()}
    return dict(sorted(found.items(), key=lambda it: it[0].lower()))


def second(once: Taken, twice: Taken) -> Taken:
    """What the second writing takes."""
    return once._replace(**{it: getattr(twice, it) - getattr(once, it) for it in Taken._fields[4:]})


def grown(found: OfCall) -> Iterator[tuple[str, Taken, Taken]]:
    """Each input that is twice as large as another of its shape: its name, and what a call takes over that other and over it."""
    for name, now in found.items():
        half = found.get(INPUTS[name]._replace(size=INPUTS[name].size // 2).name())
        if half and INPUTS[name].size > 1:
            yield name, half, now
