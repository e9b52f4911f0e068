"""`to_json` and `from_json` of the Python package against the reference implementation (tests/model/json_format.py)."""

import json
import subprocess
import sys
import threading
from collections import Counter
from collections.abc import Callable
from copy import copy
from pathlib import Path
from random import Random
from typing import Any

import amqp_values as own
import pytest

from tests import large_texts
from tests.model.json_format import LEVELS, SPACE, Rejected, json_of, large_values, some_value, text_for, texts
from tests.model.json_format import value_of_json
from tests.model.encoding import field, json_of_encoding, read, write
from tests.model.inputs import FRAME, damaged, nested, value_of
from tests.model.tables import first_problem, odd_table, random_table, raw
from tests.python.test_package import predicted_error
from tests.values import error_of, own_error

pytestmark = pytest.mark.usefixtures("deep")
MOST: dict[str, Any] = {"max_bytes": 2**32 - 1, "depth": own.MOST_DEPTH}
Problem = tuple[str, int, int]


def test_values_of_every_size(seed: int) -> None:
    """With up to 10,000 entries, and 30 levels; the text may be spelled otherwise, and be bytes."""
    make = Random(seed)
    for value in large_values(make, 2_000):
        data, text, wanted = raw(value), json_of(value), write(value)
        assert own.to_json(data, **MOST) == json_of_encoding(data)
        assert own.to_json(data, canonical=True, **MOST) == own.to_json(wanted, **MOST) == text
        assert own.from_json(text, **MOST) == own.from_json(text.encode(), **MOST) == wanted
        assert own.from_json(text_for(make, value), **MOST) == wanted
        if value[0] == "F":
            assert own.to_json(data[1:], table=True, canonical=True, **MOST) == text
            assert own.from_json(text, table=True, **MOST) == wanted[1:]


def test_bytes_that_may_be_no_value(seed: int) -> None:
    """The JSON of what is read, or the Error of `loads`."""
    make, read_ones, tried = Random(seed), 0, 0
    for _ in range(3_000):
        for data in (raw(random_table(make)), odd_table(make), value_of(make, 3)):
            data = damaged(make, data) if make.random() < 0.5 else data
            for is_table in (False, True) if data[:1] == b"F" else (False,):
                wanted, given = predicted_error(data[is_table:], is_table), data[is_table:]
                tried, read_ones = tried + 1, read_ones + (wanted is None)
                if wanted:
                    for how in (False, True):
                        found = own_error(lambda: own.to_json(given, table=is_table, canonical=how))
                        assert found == wanted, given.hex()
                else:
                    assert own.to_json(given, table=is_table) == json_of_encoding(data), given.hex()
                    text = own.to_json(given, table=is_table, canonical=True)
                    assert text == json_of(read(data)[0]), given.hex()
    assert tried / 5 < read_ones < tried * 4 / 5


def wrong_of(text: bytes, depth: int, is_table: bool) -> Problem | None:
    """What is wrong with a text by the model, at which byte."""
    try:
        text.decode()
        value = value_of_json(text, min(depth, LEVELS))
    except UnicodeDecodeError as why:
        return "text not UTF-8", why.start, 0
    except Rejected as why:
        return {"": "not JSON", "TooDeep": "too deep"}.get(why.mismatch, "not a value"), why.at, 0
    return ("not a table", len(text) - len(text.lstrip(SPACE)), 0) if is_table and value[0] != "F" else None


def test_texts_that_may_mean_none(seed: int) -> None:
    """At which byte, or at which character of a str."""
    make, kinds = Random(seed), Counter[str]()
    for text in texts(make, (some_value(make, 3) for _ in range(10_000))):
        if make.random() < 0.05:
            at = make.randrange(len(text) + 1)
            text = text[:at] + make.choice([b"\x80", b"\xff", b"\xc3", b"\xed\xa0\x80"]) + text[at + 1 :]
        depth, is_table = make.choice([*range(8), 32, LEVELS, LEVELS + 1, 512]), make.random() < 0.3
        wanted, how = wrong_of(text, depth, is_table), {"depth": depth, "table": is_table}
        assert own_error(lambda: own.from_json(text, **how)) == wanted, (text, how)
        kinds[wanted[0] if wanted else ""] += 1
        if wanted and wanted[0] != "text not UTF-8":
            in_characters = wanted[0], len(text[: wanted[1]].decode()), 0
            assert own_error(lambda: own.from_json(text.decode(), **how)) == in_characters, (text, how)
        elif not wanted:
            assert own.from_json(text, **how) == write(value_of_json(text))[is_table:]
    assert len(kinds) == 6 and min(kinds.values()) > 25, kinds


def test_large_texts_that_mean_none() -> None:
    kinds = {large_texts.NOT_UTF8: "text not UTF-8"}
    for text, wrong, at, _ in large_texts.wrong_texts():
        assert own_error(lambda: own.from_json(text, depth=1)) == (kinds.get(wrong, wrong), at, 0), (
            text[:9],
            len(text),
        )


def test_messages() -> None:
    rows = {
        "[1, 2": ("not JSON at 5: {}", "unexpected end"),
        "['é']": ("not JSON at 1: {}", "unexpected character"),
        '["é", -0]': ("not a value at 6: {}", "expected a number that the type holds"),
        '["\ud800"]': ("lone surrogate at 2: expected text without surrogates, which have no UTF-8", ""),
        "[[[]]]": ("too deep at 2: expected brackets nested at most 2 deep", ""),
    }
    for text, (message, reason) in rows.items():
        with pytest.raises(own.Error) as found:
            own.from_json(text, depth=2)
        for error in (found.value, copy(found.value)):
            assert (str(error), error.reason) == (message.format(reason), reason)
    with pytest.raises(own.Error) as found:
        own.from_json(" [1]", table=True)
    assert str(found.value) == "not a table at 1: expected an object that is a table"
    with pytest.raises(own.Error) as found:
        own.to_json(b"\0\0\0\0")
    assert str(found.value).endswith("not byte 0: is this a table without its type tag? loads_table, or table=True")
    assert own_error(lambda: own.to_json(b"VV")) == ("trailing bytes", 1, 0)


def test_it_is_json_of_others() -> None:
    """Python's own module reads and writes it."""
    table = {
        "x-death": [{"count": 3, "queue": "orders", "time": own.Timestamp(1_800_000_000)}],
        "é": None,
        "raw": b"\0",
    }
    text = own.to_json(own.dumps_table(table), table=True)
    time = {"$Timestamp": 1_800_000_000}
    assert json.loads(text) == {
        "raw": {"$ByteArray": "00"},
        "x-death": [{"count": 3, "queue": "orders", "time": time}],
        "é": None,
    }
    for it in (json.dumps(json.loads(text)), json.dumps(json.loads(text), indent=4, ensure_ascii=False)):
        assert own.loads_table(own.from_json(it, table=True)) == table
    assert own.dumps([own.Encoded(own.from_json(text))]) == own.dumps([own.loads(own.from_json(text))])


def test_equal_keys_and_their_order() -> None:
    data = field(b"F", b"\1bV" + b"\1at\1" + b"\1b" + field(b"A", b""))
    assert own.to_json(data) == own.to_json(data[1:], table=True) == '{"b":null,"a":true,"b":[]}'
    assert own.to_json(data, canonical=True) == own.to_json(data[1:], canonical=True, table=True) == '{"a":true,"b":[]}'
    assert own.from_json('{"b":null,"a":true,"b":[]}') == field(b"F", b"\1at\1" + b"\1b" + field(b"A", b""))


def test_data_and_text_of_every_type() -> None:
    data, text = own.dumps_table({"a": [1]}), b'{"a":[1]}'
    for it in (data, bytearray(data), memoryview(data), memoryview(b"." + data)[1:], memoryview(data[::-1])[::-1]):
        assert own.to_json(it, table=True) == text.decode()
    for it in (text, bytearray(text), memoryview(text), memoryview(b"." + text)[1:], memoryview(text[::-1])[::-1]):
        assert own.from_json(it, table=True) == data

    class Text(str):
        def encode(self, *_: Any) -> bytes:
            raise KeyError

    assert own.from_json(Text(text.decode()), table=True) == data
    released = memoryview(data)
    released.release()
    assert own_error(lambda: own.to_json(released)) == own_error(lambda: own.from_json(released)) == ("raised", 0, 0)
    mistakes: list[Callable[[], Any]] = [
        lambda: own.from_json(5), lambda: own.from_json(None), lambda: own.from_json(["[]"]), lambda: own.from_json(),  # type: ignore
        lambda: own.to_json("V"), lambda: own.to_json(None), lambda: own.to_json(b"V", keys="bytes"), lambda: own.to_json(),  # type: ignore
        lambda: own.from_json("[]", plain=True), lambda: own.from_json("[]", "[]"), lambda: own.from_json("[]", depth="1"),  # type: ignore
    ]  # fmt: skip
    for call in mistakes:
        assert error_of(call) is TypeError
    for options in ({"depth": -1}, {"depth": own.MOST_DEPTH + 1}, {"max_bytes": -1}, {"max_bytes": 2**32}):
        assert own_error(lambda: own.to_json(b"V", **options)) == ("bad option", 0, 0)  # type: ignore[arg-type]
        assert own_error(lambda: own.from_json("[]", **options)) == ("bad option", 0, 0)  # type: ignore[arg-type]


def test_limits() -> None:
    """On the value, of whose text brackets are counted: also that of a named value."""
    text, data = '["a",null,{"$ByteArray":"00"}]', field(b"A", b"S\0\0\0\1aV" + field(b"x", b"\0"))
    assert own.from_json(text, depth=2, max_bytes=len(data)) == data
    assert own.to_json(data, depth=1, max_bytes=len(data)) == text
    assert own_error(lambda: own.from_json(text, max_bytes=len(data) - 1)) == ("too large", 0, 0)
    assert own_error(lambda: own.to_json(data, max_bytes=len(data) - 1)) == ("too large", 0, 0)
    assert own_error(lambda: own.from_json(text, depth=1)) == ("too deep", 10, 0)
    assert own_error(lambda: own.to_json(data, depth=0)) == ("too deep", 0, 0)
    # (a table's type tag counts)
    table = own.from_json('{"a":null}', table=True, max_bytes=8)
    assert own.to_json(table, table=True, max_bytes=8) == '{"a":null}'
    assert own_error(lambda: own.from_json('{"a":null}', table=True, max_bytes=7)) == ("too large", 0, 0)
    assert own_error(lambda: own.to_json(table, table=True, max_bytes=7)) == ("too large", 0, 0)
    # (white space has a limit, and no value a longer text)
    assert own.from_json(" " * 8 + "null", max_bytes=1) == b"V"
    assert own_error(lambda: own.from_json(" " * 9 + "null", max_bytes=1)) == ("too large", 0, 0)
    longest = field(b"A", b"b\x80" * 1000)
    assert own.from_json(own.to_json(longest), max_bytes=len(longest)) == longest
    string = own.dumps("\0" * (FRAME - 5))
    assert own.from_json(own.to_json(string)) == string
    assert own_error(lambda: own.to_json(own.dumps("x" * FRAME))) == ("too large", 0, 0)


@pytest.mark.parametrize("form", ("A", "F", "AF"))
def test_depth(form: str) -> None:
    """Up to the largest depth in a thread of 512 KiB; brackets nest at most LEVELS deep, whatever the limit is."""
    rows: list[tuple[bytes, str, int, Problem | None, Problem | None]] = []
    for levels in (1, 32, 33, LEVELS - 1, LEVELS, LEVELS + 1, own.MOST_DEPTH, own.MOST_DEPTH + 1):
        data = nested(form, levels, b"V")
        text = json_of(read(data)[0])
        for depth in (32, LEVELS - 1, LEVELS, LEVELS + 1, own.MOST_DEPTH):
            problem, opened = first_problem(data, "read", depth), [at for at, it in enumerate(text) if it in "[{"]
            deeper = opened[min(depth, LEVELS) :]
            of_text = ("too deep", deeper[0], 0) if deeper else None
            rows.append((data, text, depth, ("too deep", problem[0], 0) if problem else None, of_text))
    wrong: list[Any] = []

    def run() -> None:
        for data, text, depth, of_bytes, of_text in rows:
            found = [
                own_error(lambda: own.to_json(data, depth=depth)),
                own_error(lambda: own.from_json(text, depth=depth)),
            ]
            is_right = of_bytes is not None or own.to_json(data, depth=depth) == text
            is_right &= of_text is not None or own.from_json(text, depth=depth) == data
            if found != [of_bytes, of_text] or not is_right:
                wrong.append((len(text), depth, found))

    before = threading.stack_size(512 << 10)
    thread = threading.Thread(target=run)
    thread.start()
    thread.join()
    threading.stack_size(before)
    assert rows and wrong == []


# What a process does that may have less memory than the C API asks for.
NO_MEMORY = """
import resource, sys
sys.path.insert(0, sys.argv[1])
import amqp_values as av
keys = [f"{it:07}" for it in range(300_000, 0, -1)]
text = "{" + ",".join(f'"{it}":null' for it in keys) + "}"
data = av.dumps_table(dict.fromkeys(keys))
most = 2**32 - 1
how = {"table": True, "max_bytes": most}
calls = [lambda: av.to_json(data, canonical=True, **how), lambda: av.from_json(text, **how)]
size = int(open("/proc/self/statm").read().split()[0]) * resource.getpagesize()
for call in calls:
    resource.setrlimit(resource.RLIMIT_AS, (size + (16 << 20), resource.RLIM_INFINITY))
    try:
        call()
        print("done")
    except MemoryError:
        print("MemoryError")
    resource.setrlimit(resource.RLIMIT_AS, (resource.RLIM_INFINITY,) * 2)
    print(len(call()) == len(text if call is calls[0] else data))
"""


def test_no_memory() -> None:
    """A MemoryError comes, and afterwards the same calls succeed."""
    package = str(Path(own.__file__).parents[1])
    done = subprocess.run([sys.executable, "-c", NO_MEMORY, package], capture_output=True, text=True)
    assert done.stdout.split() == ["MemoryError", "True"] * 2, done.stdout + done.stderr[-1500:]
