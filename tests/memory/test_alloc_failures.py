"""Makes each allocation, read and write of programs fail in turn (failing.py), and judges what they return (calls.py).

Each request of crates/test_calls is made with its first allocation failing, then with its second, and so on. Only allocations of its
calls count. The call whose allocation fails returns the error that calls.py has for it and leaves all unchanged, and all else is
answered as the row says. A call that calls.py has no error for allocates nothing. The others request at most so many bytes as calls.py
says for the bytes of their request, and those of JSON as docs/JSON.md says. Of all that a request allocated, whether it failed or
not, only its answer is left when that is printed, and each program frees everything before it ends.

amqp_wire runs so over its stored input, examples over a short stream, amqp_show on some cases; and all, amqp_show in each
of its forms, have too little address space for a long string. The reads and writes of a run of each program fail
in turn, the first of each with each of the system's errors, and the first write by taking nothing; and once they are of one byte
each. At last the programs get a length of 4 GiB and little of what it claims: they must allocate little then.
"""

import errno
import itertools
import os
import re
import resource
import subprocess
from collections import Counter
from collections.abc import Callable
from pathlib import Path
from typing import NamedTuple

import pytest
from dependencies import TOP, kit

from tests.checks import within
from tests.memory.calls import CALLS, Row, numbers, rows
from tests.memory.failing import NO_MEMORY, Line, Preloaded, Stored, is_out_of_memory, program, stored_runs
from tests.model.json_format import value_of_json
from tests.model.encoding import field, write
from tests.transcripts import Ending

# Failures that a program recovers from: a vector that can't be made smaller stays as it is.
RECOVERED = {"amqp_show": 1, "examples": 1}
# A program may allocate fewer bytes than these for a length that claims more, in all.
MOST_ALLOCATED = 1 << 20
Written = Callable[[bytes], bytes]
ROWS, RUNS = rows(), stored_runs()


# Allocations


@pytest.fixture(scope="session")
def lines(preloaded: Preloaded) -> dict[str, Line]:
    """What is printed of each row if nothing fails, by the row's place."""
    printed = preloaded.lines([program(CALLS)], [it.request for it in ROWS])
    return dict(zip((it.place for it in ROWS), printed))


@pytest.mark.parametrize("row", ROWS, ids=[it.place for it in ROWS])
def test_row(row: Row, lines: dict[str, Line], preloaded: Preloaded, failed: Counter[str]) -> None:
    """A request is answered as stored; and as it may be if its first allocation fails, or its second, and so on."""
    line = lines[row.place]
    assert line.said == row.answer
    assert row.error() or line.allocations == 0, "write in tests/memory/calls.py which error the call returns"
    assert line.asked <= row.most_asked()
    assert line.leaked == 0
    failing, over = numbers(line.allocations), 0
    for n, line in zip(failing, preloaded.lines([program(CALLS)], [row.request] * len(failing), failing)):
        how = f"allocation {n} of {row.request} fails: {line.said}"
        assert n <= line.allocations and line.asked <= row.most_asked(), how
        assert row.allows(line.said) or line.said == row.answer, how
        assert line.leaked == 0, how
        over += line.said == row.answer
    failed["allocations"] += len(failing)
    assert over <= row.most_over()


@pytest.mark.needs("valgrind")
def test_rows_under_valgrind() -> None:
    """By valgrind's count too nothing is left of all the requests, and no memory is used that isn't allocated."""
    words = ["valgrind", "--quiet", "--leak-check=full", "--show-leak-kinds=all", "--errors-for-leak-kinds=all"]
    given = "".join(f"{it.request}\n" for it in ROWS).encode()
    done = subprocess.run([*words, "--error-exitcode=9", program(CALLS)], input=given, capture_output=True)
    assert done.returncode == 0, "\n".join(re.findall(r"(?m)^==.*", done.stderr.decode()))


@pytest.mark.parametrize("stored", RUNS.values(), ids=RUNS)
def test_stored_run(stored: Stored, preloaded: Preloaded, failed: Counter[str]) -> None:
    name, recovered = stored.words[0], 0
    for n, run in preloaded.each_failed(stored.typed(), stored.given, FAIL_ANYWHERE="1"):
        has_failed = run.allocations >= n
        assert run.asked < MOST_ALLOCATED, f"run {n}"
        if not has_failed or run.ending == stored.wants:
            assert run.ending == stored.wants, f"run {n}"
            recovered += has_failed
        else:
            assert is_out_of_memory(name, run.ending, stored.wants), f"run {n}: {run.ending}"
        failed["allocations"] += has_failed
    assert recovered == RECOVERED.get(name, 0)


# JSON

# Arrays that make a call request most for each byte: numbers, short texts of long values, and tables of one entry.
ARRAYS = [
    ",".join("0" * 50_000),
    ",".join(['{"$ShortShortUInt":0}'] * 50_000),
    ",".join(['{"":0}'] * 14_000),
    ",".join(['{"":' * 100 + "true" + "}" * 100] * 200),
]
IN_ORDER = [f"[{it}]".encode() for it in ARRAYS]
# The same before a lower key, as texts and as encodings in that order.
FALLING = [f'{{"b":[{it}],"a":0}}'.encode() for it in ARRAYS]
ENCODED = [field(b"F", b"\1b" + write(value_of_json(it)) + b"\1al" + bytes(8)) for it in IN_ORDER]
# A call, its inputs, and how docs/JSON.md says what it requests of them.
REQUESTED = [
    ("to_json", [write(value_of_json(it)) for it in IN_ORDER], "`to_json` | {} for each byte"),
    ("encoding_of_json", IN_ORDER, "`encoding_of_json` | {} for each byte"),
    ("encoding_of_json", FALLING, "if the keys of each object ascend; otherwise {}"),
    ("from_json", [*IN_ORDER, *FALLING], "`from_json` | {} for each byte"),
]


@pytest.mark.parametrize(("call", "inputs", "words"), REQUESTED, ids=[words for _, _, words in REQUESTED])
def test_memory_of_json(call: str, inputs: list[bytes], words: str, preloaded: Preloaded) -> None:
    """A call requests no more than is said, and more than half of it for some input."""
    before, _, after = words.partition("{}")
    said = re.findall(f"{re.escape(before)}(\\d+){re.escape(after)}", (TOP / "docs/JSON.md").read_text())
    lines = preloaded.lines([program(CALLS)], [f"nest {call} 200 {it.hex()}" for it in inputs])
    asked = max(line.asked / len(it) for line, it in zip(lines, inputs, strict=True))
    assert {line.said for line in lines} == {"done"}
    assert asked <= int(said[0]) < 2 * asked


def test_memory_of_a_text(preloaded: Preloaded) -> None:
    """`json_of_encoding` requests as many bytes as the text has."""
    assert "`json_of_encoding` | those of the text |" in (TOP / "docs/JSON.md").read_text()
    inputs = [*(write(value_of_json(it)) for it in IN_ORDER), *ENCODED]
    lines = preloaded.lines([program(CALLS)], [f"nest json_of_encoding 200 {it.hex()}" for it in inputs])
    assert [(it.said, it.asked) for it in lines] == [("done", len(it)) for it in [*IN_ORDER, *FALLING]]


# Address space

# The forms of amqp_show, and what lets a value of any size through.
FORMS: list[list[str]] = [[], ["--json"], ["--bytes"], ["--stream"], ["--stream", "--json"], ["--stream", "--bytes"]]
ANY_SIZE = ["--max-bytes", "4294967295"]
# How much more address space each run has, which is how much comes in.
STEP = 8 << 20


def as_it_is(data: bytes) -> bytes:
    return data


def as_hexadecimal(data: bytes) -> bytes:
    return data.hex().encode()


def as_a_line(data: bytes) -> bytes:
    return as_hexadecimal(data) + b"\n"


def as_json(string: bytes) -> bytes:
    """A string's JSON, of its encoding."""
    return b'"%s"' % string[5:]


# The programs with their words, and how a value is written for them.
OF_WIRE: list[tuple[list[str], Written]] = [(["amqp_wire"], as_a_line), (["examples", "stream"], as_it_is)]
OF_SHOW: list[tuple[list[str], Written]] = [(["amqp_show", *form, *ANY_SIZE], as_it_is) for form in FORMS]
HEXADECIMAL: list[tuple[list[str], Written]] = [
    (["amqp_show", *form, "--hex", *ANY_SIZE], as_hexadecimal) for form in FORMS
]
TO_JSON: list[tuple[list[str], Written]] = [(["amqp_show", "--encode", *ANY_SIZE], as_json)]


def named(forms: list[tuple[list[str], Written]]) -> pytest.MarkDecorator:
    """A test of each of these."""
    names = [" ".join(it for it in words if it not in ANY_SIZE) for words, _ in forms]
    return pytest.mark.parametrize(("words", "written"), forms, ids=names)


@named([*OF_SHOW, HEXADECIMAL[0], *TO_JSON, *OF_WIRE])
def test_little_address_space(words: list[str], written: Written) -> None:
    """A long string, with ever more address space: at first it is too little, and in the end all is as with any."""
    name, given = words[0], written(b"S" + STEP.to_bytes(4, "big") + b"a" * STEP)
    typed: list[str | Path] = [program(name), *words[1:]]
    done = subprocess.run(typed, input=given, capture_output=True, timeout=60)
    wants = Ending(done.stdout, done.stderr, done.returncode)
    assert (wants.status, wants.error) == (0, b"")
    for count in itertools.count():
        done = within(resource.RLIMIT_AS, STEP * (count + 2), typed, given)
        ended = Ending(done.stdout, done.stderr, done.returncode)
        if not is_out_of_memory(name, ended, wants):
            break
    assert count > 0
    assert ended == wants, f"with {count + 2} times {STEP} bytes"


# Reads and writes


class Call(NamedTuple):
    """A call that fails: its name here, and the variable of fail_alloc.c that says which."""

    name: str
    variable: str


# A call and an error, in which the call then fails; or 0, if it moves nothing.
Failure = tuple[Call, int]
READ, WRITE = Call("reads", "FAIL_READ"), Call("writes", "FAIL_WRITE")
# With these each read and each write fails in turn, with the others the first.
EACH_CALL = (errno.EIO, errno.EPIPE, errno.ENOMEM)
NOTHING = 0
FAILURES: list[Failure] = [*((call, it) for call in (READ, WRITE) for it in errno.errorcode), (WRITE, NOTHING)]


def of_wire(call: Call, error: int) -> tuple[int, bytes] | None:
    """The status and the message with which amqp_wire ends if a call fails so; or None if it is made again."""
    if (call, error) == (READ, errno.EINTR):
        return None
    return NO_MEMORY["amqp_wire"] if error == errno.ENOMEM else (2, b"amqp_wire: input or output failed\n")


def of_show(call: Call, error: int) -> tuple[int, bytes] | None:
    """So for amqp_show: a closed pipe ends it silently, and too little memory for a write is an error like others."""
    if error == errno.EINTR:
        return None
    why = f"{os.strerror(error)} (os error {error})" if error else "failed to write whole buffer"
    if call == WRITE and error == errno.EPIPE:
        return 0, b""
    if call == WRITE:
        return 2, f"amqp_show: the output can't be written: {why}\n".encode()
    if error == errno.ENOMEM:
        return NO_MEMORY["amqp_show"]
    return 2, f'amqp_show: "-": can\'t be read: {why}\n'.encode()


def of_stream(call: Call, error: int) -> tuple[int, bytes] | None:
    """So for examples, which prints the error."""
    if error == errno.EINTR:
        return None
    why = f"{os.strerror(error)} (os error {error})" if error else "failed to write whole buffer"
    return 1, f"Error: {'read failed' if call == READ else why}\n".encode()


ON_DEVICES = {"amqp_wire": of_wire, "examples stream": of_stream, "amqp_show repeated_keys": of_show}
on_devices = pytest.mark.parametrize("name", ON_DEVICES)


def error_name(error: int) -> str:
    return errno.errorcode.get(error, "nothing is taken")


def assert_ended_by(ended: Ending, name: str, call: Call, error: int) -> None:
    """A run ended as it should if the call failed with the error before all was written."""
    wants, said = RUNS[name].wants, ON_DEVICES[name](call, error)
    if said is None:
        assert ended == wants
    else:
        assert (ended.status, ended.error) == said
        # (amqp_show shows a value before it reads what follows)
        is_after_value = name.startswith("amqp_show") and call == READ
        assert wants.out.startswith(ended.out) and (ended.out != wants.out or is_after_value)


@on_devices
@pytest.mark.parametrize(
    ("call", "error"), FAILURES, ids=[f"{call.name}, {error_name(error)}" for call, error in FAILURES]
)
def test_call_fails(name: str, call: Call, error: int, preloaded: Preloaded, failed: Counter[str]) -> None:
    """Each of these calls fails in turn, or the first."""
    stored = RUNS[name]
    for n in itertools.count(1):
        run = preloaded.run(stored.typed(), stored.given, **{call.variable: str(n), "FAIL_WITH": str(error)})
        if getattr(run, call.name) < n:
            assert run.ending == stored.wants
            break
        failed[call.name] += 1
        assert_ended_by(run.ending, name, call, error)
        if error not in EACH_CALL:
            return
    assert n > 1


@on_devices
@pytest.mark.parametrize("error", (*EACH_CALL, NOTHING), ids=error_name)
def test_last_byte_fails(name: str, error: int, preloaded: Preloaded, failed: Counter[str]) -> None:
    """All moves byte by byte, and the last fails."""
    stored = RUNS[name]
    how = {"ONE_BYTE": "1", "FAIL_WRITE": str(len(stored.wants.out)), "FAIL_WITH": str(error)}
    ended = preloaded.run(stored.typed(), stored.given, **how).ending
    failed[WRITE.name] += 1
    assert ended.out == stored.wants.out[:-1]
    assert_ended_by(ended, name, WRITE, error)


def kinds_of_the_kit() -> list[str]:
    """The names of all kinds of faults, in the kit's order."""
    found = re.search(r"pub enum ErrorKind \{(.*?)\}", (kit() / "rattle/std_io/src/io/kind.rt").read_text(), re.DOTALL)
    assert found, "the kit has no ErrorKind there"
    return re.findall(r"\w+", found[1])


def test_kinds_of_faults() -> None:
    """The devices of test_calls may fail with each of the kit's kinds, and in some row a generator and a reader return it."""
    kinds = kinds_of_the_kit()
    listed = re.findall(r"\(\"(\w+)\", ErrorKind::(\w+)\)", (TOP / f"crates/{CALLS}/src/words.rt").read_text())
    assert listed == [(it, it) for it in kinds]
    written = {found for it in ROWS for found in re.findall(r"^gen_long_uint each:(\w+) ", it.request)}
    assert written == {*kinds}
    read = {found for it in ROWS for found in re.findall(r"\bRead\((\w+)\)", it.answer)}
    assert read == {*kinds}


@on_devices
def test_byte_by_byte(name: str, preloaded: Preloaded) -> None:
    stored = RUNS[name]
    assert preloaded.run(stored.typed(), stored.given, ONE_BYTE="1").ending == stored.wants


# Claims

# Inputs: a type tag, the greatest length that fits any limit, and a few of the bytes that it claims; of a
# string also enough that a reader has to grow its buffer.
LENGTH = b"\xff\xff\xff\xfa"
CLAIMS = {f"4 GiB of {chr(tag)}": bytes([tag]) + LENGTH + b"VVV" for tag in b"SxAF"}
CLAIMS["4 GiB of S, some"] = b"S" + LENGTH + b"V" * 20_000
CLAIMING = named([*OF_SHOW, *HEXADECIMAL, *OF_WIRE])


def allocated(preloaded: Preloaded, words: list[str], given: bytes) -> int:
    """How many bytes a program allocates, in all."""
    return preloaded.run([program(words[0]), *words[1:]], given, FAIL_ANYWHERE="1").asked


@CLAIMING
@pytest.mark.parametrize("claim", CLAIMS.values(), ids=CLAIMS)
def test_claim(words: list[str], written: Written, claim: bytes, preloaded: Preloaded) -> None:
    """Little is allocated for a length of which little comes."""
    assert 0 < allocated(preloaded, words, written(claim)) < MOST_ALLOCATED


@CLAIMING
def test_what_comes_is_counted(words: list[str], written: Written, preloaded: Preloaded) -> None:
    """More is allocated if as much comes, which shows that the bytes are counted."""
    string = b"S" + MOST_ALLOCATED.to_bytes(4, "big") + b"V" * MOST_ALLOCATED
    assert allocated(preloaded, words, written(string)) >= MOST_ALLOCATED
