"""amqp_wire and test_calls, as `rt ci` left them, on each case of vectors/."""

import re

import pytest

from tests.rows import bytes_of
from tests.checks import built, run
from tests.model.encoding import json_of_encoding
from tests.model.test_rows import JSON_OF_ENCODING, LONG
from tests.vectors.cases import CASES, none_of
from tests.wire.answered import answers

# The most bytes of an encoding whose JSON is tried, since test_calls also tries each small limit. tests/c has all.
MOST = 3_000
TOO_DEEP = re.compile(r" but read TooDeep\(\d+\)")


def test_amqp_wire() -> None:
    done = run([built("amqp_wire")], input="".join(f"{it.tagged.hex()}\n" for it in CASES))
    assert (done.returncode, done.stderr) == (0, "")
    said = zip(CASES, done.stdout.splitlines(), strict=True)
    assert none_of([f"{it.id}: {text}" for it, text in said if text != it.line]) == ""


@pytest.mark.usefixtures("deep")
def test_json_of_encoding() -> None:
    """The JSON that test_calls has for each value, and what is left after it; a text too deep to be read back is noted."""
    given, wrong = [it for it in CASES if it.json is not None and len(it.data) <= MOST], []
    for it, (_, answer) in zip(given, answers([f"json_of_encoding {it.tagged.hex()}" for it in given]), strict=True):
        found, text = JSON_OF_ENCODING.fullmatch(TOO_DEEP.sub("", answer)), json_of_encoding(it.tagged).encode()
        said = found and (bytes_of(found[1]) if len(text) > LONG else found[1].encode(), bytes_of(found[2] or "-"))
        wrong += [f"{it.id}: {answer:.200}"] if said != (text, it.data[len(it.encoding) :]) else []
    assert none_of(wrong) == ""
