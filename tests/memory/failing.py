"""`Preloaded` runs a program with fail_alloc.c preloaded, which makes allocations, reads or writes fail."""

import itertools
import os
import subprocess
from collections.abc import Iterator, Sequence
from functools import cache
from pathlib import Path
from typing import NamedTuple

from dependencies import TOP

from tests.checks import built
from tests.transcripts import Ending, cases

Words = Sequence[str | Path]

# When test_calls writes an answer it holds two blocks: the text of all requests, and the answer.
HELD = 2
# Allocating functions that fail_alloc.c doesn't wrap.
NOT_WRAPPED = [b"calloc", b"memalign", b"posix_memalign", b"valloc", b"reallocarray", b"mmap", b"sbrk"]


@cache
def program(name: str) -> Path:
    """The program of a crate, all of whose allocations fail_alloc.c sees."""
    path = built(name)
    names = path.read_bytes().split(b"\0")
    found = [it.decode() for it in NOT_WRAPPED if it in names]
    assert not found, f"{name} allocates by {', '.join(found)}, which fail_alloc.c doesn't wrap"
    return path


class Run(NamedTuple):
    """How a run ended, and the numbers of its allocations, reads and writes, of the bytes that it asked for, and of the blocks
    that it leaked."""

    ending: Ending
    allocations: int
    reads: int
    writes: int
    asked: int
    leaked: int


class Line(NamedTuple):
    """How a request is answered, the number of its allocations, the most bytes that one of its calls asked for, and the number
    of blocks that it leaked."""

    said: str
    allocations: int
    asked: int
    leaked: int


class Preloaded(NamedTuple):
    """What is preloaded, as it is built."""

    library: Path

    def run(self, words: Words, given: bytes = b"", **how: str) -> Run:
        """Runs a program, which frees all that it allocates."""
        run = self.counted(words, given, **how)
        assert run.leaked == 0, f"{Path(words[0]).name} leaks blocks: {run.leaked}"
        return run

    def counted(self, words: Words, given: bytes = b"", **how: str) -> Run:
        """Runs a program, which may leak."""
        reads, writes = os.pipe()
        env = {"LD_PRELOAD": str(self.library), "COUNTS_TO": str(writes), **how}
        done = subprocess.run(words, input=given, env=env, pass_fds=[writes], capture_output=True, timeout=300)
        os.close(writes)
        with os.fdopen(reads) as counts:
            numbers = counts.read().split() or ["-1"] * 5
        return Run(Ending(done.stdout, done.stderr, done.returncode), *map(int, numbers))

    def each_failed(self, words: Words, given: bytes = b"", **how: str) -> Iterator[tuple[int, Run]]:
        """Yields n, and the run in which allocation n fails; at last n, and the run that makes fewer."""
        for n in itertools.count(1):
            run = self.run(words, given, FAIL_ALLOC=str(n), **how)
            yield n, run
            if run.allocations < n:
                return

    def lines(self, words: Words, requests: list[str], failing: list[int] | None = None) -> list[Line]:
        """What a program answers to requests, a line each, in which one allocation of each fails, by its number."""
        if not requests:
            return []
        how = {"EACH_LINE": "1", "FAIL_ALLOC": " ".join(map(str, failing or []))}
        given = "".join(f"{it}\n" for it in requests).encode()
        out = self.counted(words, given, **how).ending.out.decode().splitlines()
        lines, before = [], HELD
        # (after its lines the program prints how many there were)
        for counts, said in zip(out[:-2:2], out[1:-2:2], strict=True):
            allocations, asked, held = map(int, counts.split())
            lines.append(Line(said.partition(" => ")[2], allocations, asked, held - before))
            before = held
        return lines


class Stored(NamedTuple):
    """A run of a program that is stored: its words, what comes in, and how it ends if nothing fails."""

    words: list[str]
    given: bytes
    wants: Ending

    def typed(self) -> Words:
        """The words, of which the first is the program's path."""
        return [program(self.words[0]), *self.words[1:]]


# The stored input and output of amqp_wire.
GIVEN, STORED = ((TOP / "crates/amqp_wire" / it).read_bytes() for it in ("stdin", "stdout"))
# A stream of three values, of which the last is cut, and the lines of examples.
STREAM = bytes.fromhex("56 4600000003016156 5300000005")
STREAM_LINES = b'stream: null\nstream: {"a":null}\nstream: truncated\n'
# Cases of tests/show: a tree, parts, JSON, encodings and a message, streams, a table without type tag, what RabbitMQ
# rejects, and its warnings.
SHOWN = """repeated_keys number_past_array_by_bytes json_follow encode_raw encode_number stream_malformed stream_malformed_json
    table_malformed check_cut check_warnings""".split()


def stored_runs() -> dict[str, Stored]:
    """Runs of the programs, by name."""
    runs = {
        "amqp_wire": Stored(["amqp_wire"], GIVEN, Ending(STORED, b"", 0)),
        "examples stream": Stored(["examples", "stream"], STREAM, Ending(STREAM_LINES, b"", 0)),
    }
    shown = cases(TOP / "tests/show")
    of_show = {name: shown[name] for name in SHOWN}
    return runs | {
        f"amqp_show {name}": Stored([case.program, *case.words], case.given, case.wants)
        for name, case in of_show.items()
    }


# The status and the message with which each program runs out of memory.
NO_MEMORY = {
    "amqp_wire": (1, b"amqp_wire: out of memory\n"),
    "examples": (1, b"Error: out of memory\n"),
    "amqp_show": (2, b"amqp_show: out of memory\n"),
}


def is_out_of_memory(name: str, ended: Ending, wants: Ending) -> bool:
    """Whether a program ended for want of memory, and until then wrote what it writes otherwise."""
    status, message = NO_MEMORY[name]
    said = ended.error.removesuffix(message)
    is_told = ended.status == status and said != ended.error
    return is_told and wants.out.startswith(ended.out) and wants.error.startswith(said)
