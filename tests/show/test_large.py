"""amqp_show on large and deep values: a MiB takes at most 3 seconds and 100 MB, and a stream of 46 MB at most 20 MB."""

import os
import resource
import subprocess
import tempfile
from functools import partial
from pathlib import Path

import pytest

from tests.model.encoding import field
from tests.model.inputs import nested
from tests.show.running import run

MOST_SECONDS, MOST_BYTES, MOST_BYTES_OF_STREAM = 3.0, 100_000_000, 20_000_000
SIZE = 2**20
# A MiB of Voids, of pairs with keys that come again and that don't ascend, and a string of control characters, and Voids in many arrays.
LARGE = {
    "Voids": field(b"A", b"V" * (SIZE - 5)),
    "pairs": field(b"F", b"".join(b"\4%04x" % (it * 7 % 65536) + b"t\7" for it in range((SIZE - 5) // 7))),
    "short pairs": field(b"F", b"\0V" * ((SIZE - 5) // 2)),
    "controls": field(b"S", b"\x1b" * (SIZE - 5)),
    "nested": nested("A", 60, b"V" * (SIZE - 300)),
}


def seconds_of(program: Path, words: str, data: bytes, most_bytes: int) -> float:
    """The seconds of the processor of a run that may have so much address space."""
    limit = partial(resource.setrlimit, resource.RLIMIT_AS, (most_bytes, most_bytes))
    with tempfile.TemporaryFile() as file:
        file.write(data)
        file.seek(0)
        process = subprocess.Popen([program, *words.split()], stdin=file, stdout=subprocess.DEVNULL, preexec_fn=limit)
        _, status, used = os.wait4(process.pid, 0)
        process.returncode = os.waitstatus_to_exitcode(status)
    # (no frame has room for a MiB)
    assert process.returncode == (4 if "--check" in words else 0)
    return float(used.ru_utime + used.ru_stime)


@pytest.mark.parametrize("words", ("", "--bytes --canonical", "--json", "--plain", "--check rabbitmq", "--stream"))
@pytest.mark.parametrize("name", LARGE)
def test_large(program: Path, name: str, words: str) -> None:
    # (others may run too)
    assert min(seconds_of(program, f"{words} --depth 60", LARGE[name], MOST_BYTES) for _ in range(3)) <= MOST_SECONDS


def test_stream_in_constant_memory(program: Path) -> None:
    """A stream of 46 MB."""
    value = field(b"F", b"\1a" + b"I\0\0\0\5" + b"\1bt\1")
    assert seconds_of(program, "--stream --json", value * 2_900_000, MOST_BYTES_OF_STREAM)


@pytest.mark.parametrize("words", ("--json", "--plain"))
@pytest.mark.parametrize("letter", "AF")
def test_stack_of_deep_values(program: Path, letter: str, words: str) -> None:
    """As many levels as --depth allows take less than 0.25 MB of the stack."""
    limit = partial(resource.setrlimit, resource.RLIMIT_STACK, (250_000, 250_000))
    ended = run([str(program), "--depth", "1000", words], nested(letter, 1000, b"V"), preexec_fn=limit)
    assert ended.status == 0 and ended.out.count(b"{" if letter == "F" else b"[") == 1000


def test_lines_that_take_several_reads(program: Path) -> None:
    """One of them has more bytes than --max-bytes allows: it is rejected, and the next is read."""
    most = 12 * 2**20
    counts = (3, 65_533, 65_534, 200_000, most - 1, 5)
    ended = run([str(program), "--encode", "--lines"], b"\n".join(b'"' + b"a" * it + b'"' for it in counts))
    assert ended.out.decode().split() == [field(b"S", b"a" * it).hex() for it in counts if it < most - 1]
    assert b"line 5: the text has more than 12582912 bytes" in ended.error and ended.status == 1


def lines_of(program: Path, words: str, data: bytes) -> list[str]:
    return run([str(program), *words.split()], data).out.decode().splitlines()


def test_at_most_64_levels_are_indented(program: Path) -> None:
    """By two spaces each, in a tree and after the bytes of each part."""
    levels, tree, parts = 67, [], []
    for level in range(levels):
        indented, at, length = "  " * min(level, 64), 5 * level, 5 * (levels - level - 1)
        tree.append(f"{indented}FieldArray")
        parts.append(f"{at:>6}  {'41':<20}{indented}type tag A, FieldArray")
        parts.append(f"{at + 1:>6}  {f'{length:08x}':<20}{indented}length {length}")
    data, outcome = nested("A", levels, b""), f"= a value of {5 * levels} bytes"
    assert lines_of(program, f"--depth {levels}", data) == [*tree, outcome]
    assert lines_of(program, f"--depth {levels} --bytes", data) == [*parts, outcome]


@pytest.mark.parametrize(("words", "begin"), (("", b"F"), ("--table", b"")))
def test_frame_max(program: Path, words: str, begin: bytes) -> None:
    """Headers of 131,058 bytes without their type tag fit the usual frame, and arguments of 131,064."""
    large = "closes the connection (501)"
    for size, verdict in (
        (131058, "accepts it"),
        (131059, f"{large} if these are headers"),
        (131064, f"{large} if these are headers"),
        (131065, large),
    ):
        data = begin + field(b"F", b"\1a" + field(b"S", bytes(size - 11)))[1:]
        why = f"! without its type tag the {'table' if words else 'value'} has {size} bytes; a frame of the usual 131072 takes"
        why += " 131058 as headers without other properties, and 131064 as arguments of a queue without a name"
        wants = [*([why] if size > 131058 else []), f"= RabbitMQ 4.0 {verdict}"]
        ended = run([str(program), "--check", "rabbitmq", *words.split()], data)
        assert (ended.out.decode().splitlines(), ended.status) == (wants, 4 if size > 131058 else 0)
