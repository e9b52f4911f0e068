"""amqp_wire and `examples stream`, as `rt ci` left them, when what they read from or write to fails.

tests/run memory/alloc-failures makes calls of the system fail; here the devices do. If a read or a write fails, the exit status
and standard error report it, and standard output has a part of what a run writes if nothing fails. If standard error fails too,
the status still reports it.
"""

import re
import subprocess
from contextlib import suppress
from pathlib import Path
from subprocess import PIPE
from typing import NamedTuple

import pytest

from tests.checks import built

# How often a value comes: what is written of it doesn't fit the buffer of a pipe.
TIMES = 20_000


class Form(NamedTuple):
    """A program and its words, what comes in, and what is written if nothing fails; then the status and the messages if it does."""

    words: list[str]
    given: bytes
    wants: bytes
    status: int
    unread: str
    unwritten: str

    def typed(self) -> list[str | Path]:
        """The words, of which the first is the program's path."""
        return [built(self.words[0]), *self.words[1:]]


OF_WIRE = "amqp_wire: input or output failed"
LINES = b"stream: true\n" * TIMES + b"stream: ended after a value\n"
FORMS = {
    "hexadecimal": Form(["amqp_wire"], b"7401\n" * TIMES, b"value 7401 rest 0\n" * TIMES, 2, OF_WIRE, OF_WIRE),
    "stream": Form(
        ["examples", "stream"], b"t\1" * TIMES, LINES, 1, "Error: read failed", r"Error: .* \(os error \d+\)"
    ),
}

# What fails, as the shell has it.
OUTPUTS = {"a full device": ">/dev/full", "closed": ">&-", "not open for writing": "1</dev/null"}
INPUTS = {"a folder": "</", "closed": "<&-", "not open for reading": "0>/dev/null"}
ERRORS = {"a full device": "2>/dev/full", "closed": "2>&-"}

# Each test is of both forms.
pytestmark = pytest.mark.parametrize("form", FORMS.values(), ids=FORMS)


def run(form: Form, elsewhere: str = "") -> subprocess.CompletedProcess[bytes]:
    """Runs the program, with these of its streams elsewhere."""
    words: list[str | Path] = ["sh", "-c", f'exec "$0" "$@" {elsewhere}', *form.typed()]
    return subprocess.run(words, input=form.given, capture_output=True, timeout=60)


def assert_failed(form: Form, message: str, status: int, out: bytes, err: bytes) -> None:
    """A read or a write failed: the status and standard error report it, and a part of the output was written."""
    assert status == form.status and re.fullmatch(f"{message}\n", err.decode()), err
    is_part = form.wants.startswith(out) and out != form.wants
    assert is_part, f"{len(out)} bytes were written, where {len(form.wants)} are all"


def test_nothing_fails(form: Form) -> None:
    done = run(form)
    assert (done.returncode, done.stderr) == (0, b"")
    assert done.stdout == form.wants


@pytest.mark.parametrize("elsewhere", INPUTS.values(), ids=INPUTS)
def test_input_fails(form: Form, elsewhere: str) -> None:
    done = run(form, elsewhere)
    assert_failed(form, form.unread, done.returncode, done.stdout, done.stderr)


@pytest.mark.parametrize("elsewhere", OUTPUTS.values(), ids=OUTPUTS)
def test_output_fails(form: Form, elsewhere: str) -> None:
    done = run(form, elsewhere)
    assert_failed(form, form.unwritten, done.returncode, done.stdout, done.stderr)


@pytest.mark.parametrize("count", (0, 10))
def test_pipe_is_closed(form: Form, count: int) -> None:
    """That many bytes of what the program writes are read, and then the pipe is closed."""
    with subprocess.Popen(form.typed(), stdin=PIPE, stdout=PIPE, stderr=PIPE) as process:
        assert process.stdin and process.stdout and process.stderr
        if count == 0:
            process.stdout.close()
        with suppress(BrokenPipeError), process.stdin:
            process.stdin.write(form.given)
        out = process.stdout.read(count) if count else b""
        process.stdout.close()
        err = process.stderr.read()
    assert_failed(form, form.unwritten, process.returncode, out, err)


@pytest.mark.parametrize("elsewhere", ERRORS.values(), ids=ERRORS)
def test_standard_error_fails_too(form: Form, elsewhere: str) -> None:
    assert run(form, f">/dev/full {elsewhere}").returncode == form.status
