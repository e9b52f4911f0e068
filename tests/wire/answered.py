"""`answers`: what the program test_calls, as `rt ci` left it, answers to requests; the tests in tests/wire use it."""

import subprocess
from collections.abc import Iterator

from tests.rows import rows
from tests.checks import built


def answers(requests: list[str]) -> Iterator[tuple[str, str]]:
    """The requests, each with what test_calls answers."""
    given = "".join(f"{it}\n" for it in requests).encode()
    done = subprocess.run([built("test_calls")], input=given, capture_output=True, timeout=600)
    # (a text may have what else ends a line for Python)
    *lines, last, _ = done.stdout.decode().split("\n")
    assert (done.returncode, last) == (0, f"{len(requests)} rows, 0 wrong")
    return zip(requests, (answer for _, answer in rows("\n".join(lines))), strict=True)
