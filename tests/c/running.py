"""`assert_as_transcript` runs a program of examples/c as a case has it, for test_examples.py and test_installed.py."""

from typing import Any

from tests.c.compiling import Words, run
from tests.transcripts import Case


def assert_as_transcript(case: Case, program: Words, **others: Any) -> None:
    """A case ends as its transcript has it, except standard error."""
    done: Any = run([*program, *case.words], text=False, input=case.given, **others)
    assert (done.stdout, done.returncode) == (case.wants.out, case.wants.status), done.stderr[-500:]
