"""The model against the rows of test_calls: it reads and writes what the Rust crate does, and JSON as this library does."""

import re

import pytest

from tests.rows import bytes_of, stored
from tests.model.json_format import Rejected, value_of_json
from tests.model.encoding import Unread, json_of_encoding, read, write

ROWS = [it for it in stored("rust.calls") if it[0].startswith(("wire ", "parse_value "))]
JSON_ROWS = [it for it in stored("json.calls") if it[0].startswith(("json ", "json_bytes ", "json_of_encoding "))]
# The answer of `json_of_encoding`: the text, what is left, and what is answered within limits.
JSON_OF_ENCODING = re.compile(
    r"ok (.*?)(?: rest (\w+))?; frame \d+ error TooLarge(?:; depth \d+ error Eof)?",
    re.DOTALL,
)
# A longer text is shown as bytes.
LONG = 256
# How reading ended, of a value also its encoding, if `wire` asks for it, and what is left.
Outcome = tuple[str, bytes, bytes]


def by_crate(is_written: bool, answer: str) -> Outcome:
    if not answer.startswith("ok "):
        return answer, b"", b""
    word, _, rest = answer.removeprefix("ok ").partition(" rest ")
    return "ok", bytes_of(word) if is_written else b"", bytes_of(rest or "-")


def by_model(is_written: bool, data: bytes) -> Outcome:
    try:
        value, rest = read(data)
        return "ok", write(value) if is_written else b"", rest
    except Unread as why:
        return str(why).replace("refused", "error"), b"", b""


def is_read(text: bytes, answer: str) -> bool:
    """Whether a text has this answer by the model: the value, whose encoding comes last, or the error."""
    try:
        encoding = write(value_of_json(text))
    except Rejected as why:
        # (what is wrong where a text isn't JSON is the library's word)
        wanted = (
            [f"Syntax({why.at}, "]
            if not why.mismatch
            else [f"NotAValue({why.at}, {why.mismatch})", f"{why.mismatch}({why.at})"]
        )
        return answer.startswith(tuple(wanted))
    return not answer.endswith(")") and bytes_of(answer.rpartition(" ")[2]) == encoding


def is_written(data: bytes, answer: str) -> bool:
    """Whether an encoding has this answer by the model: its JSON text, and what is left."""
    try:
        _, rest = read(data)
    except Unread as why:
        return answer.startswith(str(why).replace("refused", "error"))
    text, found = json_of_encoding(data).encode(), JSON_OF_ENCODING.fullmatch(answer)
    if not found:
        return False
    return (bytes_of(found[1]) if len(text) > LONG else found[1].encode(), bytes_of(found[2] or "-")) == (text, rest)


@pytest.mark.parametrize(("request_", "answer"), ROWS, ids=[it[0] for it in ROWS])
def test_model_is_right(request_: str, answer: str) -> None:
    call, word = request_.split(" ")
    assert by_model(call == "wire", bytes_of(word)) == by_crate(call == "wire", answer)


@pytest.mark.parametrize(("request_", "answer"), JSON_ROWS, ids=[it[0] for it in JSON_ROWS])
def test_model_has_the_json(request_: str, answer: str) -> None:
    call, _, word = request_.partition(" ")
    if call == "json_of_encoding":
        assert is_written(bytes_of(word), answer)
    else:
        assert is_read(word.encode() if call == "json" else bytes_of(word), answer)
