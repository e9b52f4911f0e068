"""`loads`, `dumps`, `find` and the classes of the Python package against the reference implementation (tests/model)."""

import ast
import copy
import doctest
import inspect
import pickle
import re
import sys
from collections import ChainMap, OrderedDict, deque
from collections.abc import Callable, Iterator
from datetime import datetime, timedelta, timezone
from decimal import Decimal
from enum import IntEnum
from random import Random
from types import MappingProxyType
from typing import Any, assert_type

import amqp_values as own
import pytest
from amqp_values._native import Codec
from amqp_values.adapters import Refused
from dependencies import TOP
from hypothesis import given
from hypothesis import strategies as st

from tests.model.encoding import Value, extent, field, lack, read
from tests.model.inputs import FRAME, damaged, inputs, nested, table_of, untagged, value_of
from tests.model.rules import doubtful
from tests.model.tables import first_problem, integer_of, odd_table, random_table, raw, width_of
from tests.model.test_properties import VALUES
from tests.values import UTC, error_of, form, own_error, problem_of, python_of, shape

# The kinds of problems in include/amqp_values.h, as the package calls them.
KINDS = {1: "unknown tag", 3: "cut", 4: "key cut", 5: "too deep", 7: "key not UTF-8"}
INPUTS = 12_000
# Values with their encodings, by docs/GRAMMAR.md.
ROWS: list[tuple[Any, str]] = [
    (False, "7400"), (True, "7401"), (None, "56"), (own.ShortShortInt(-128), "6280"), (own.ShortShortUInt(255), "42ff"),
    (own.ShortInt(-(2**15)), "738000"), (own.ShortUInt(2**16 - 1), "75ffff"), (own.LongInt(-(2**31)), "4980000000"),
    (own.LongInt(2**31 - 1), "497fffffff"), (own.LongUInt(2**32 - 1), "69ffffffff"), (-(2**63), "6c8000000000000000"),
    (2**63 - 1, "6c7fffffffffffffff"), (0, "6c0000000000000000"), (own.Timestamp(2**64 - 1), "54ffffffffffffffff"),
    (own.Float(1.5), "663fc00000"), (own.Float(-0.0), "6680000000"), (-2.5, "64c004000000000000"),
    (float("inf"), "647ff0000000000000"), (Decimal("3.14"), "44020000013a"), (Decimal(2**32 - 1), "4400ffffffff"),
    (Decimal("1E-255"), "44ff00000001"), (Decimal("0.00"), "440200000000"), ("", "5300000000"),
    ("ä\0", "5300000003c3a400"), (own.LongString(b"\xff"), "5300000001ff"), (b"\xff", "7800000001ff"), ([], "4100000000"),
    ({}, "4600000000"), ([[None], {}], "410000000b4100000001564600000000"),
    ({"ä": True, "": 0}, "460000000f02c3a47401006c0000000000000000"),
]  # fmt: skip
# What is written as one of these, and isn't read as it was.
LATE = datetime(2027, 1, 15, 9, 0, 0, 999999, timezone(timedelta(hours=1)))
ALSO: list[tuple[Any, str]] = [
    (LATE, "54000000006b49d200"), (Decimal("1E+3"), "4400000003e8"), ((None,), "410000000156"),
    (Decimal("0E+999999"), "440000000000"), (own.LongString(b"a"), "530000000161"), (bytearray(b"a"), "780000000161"),
    (memoryview(b"a"), "780000000161"), (own.Encoded(b"t\7"), "7407"), ({b"a": None}, "4600000003016156"),
]  # fmt: skip


def predicted_error(data: bytes, is_table: bool) -> tuple[str, int, int] | None:
    """What the package has to raise, by the model."""
    whole = b"F" * is_table + data
    if extent(whole) > FRAME:
        return "too large", 0, 0
    if missing := lack(whole):
        return "cut", 0, missing
    if problem := first_problem(whole, "read"):
        return KINDS[problem[1]], max(0, problem[0] - is_table), 0
    return ("trailing bytes", extent(whole) - is_table, 0) if extent(whole) < len(whole) else None


# Reading and writing


def many_inputs(make: Random) -> Iterator[tuple[bytes, bool]]:
    """Bytes, and whether they are a table without its type tag."""
    yield from ((it, False) for it in inputs())
    yield from ((it, True) for it in untagged())
    for _ in range(INPUTS // 4):
        data = raw(random_table(make))
        yield data, False
        yield damaged(make, data), False
        yield odd_table(make), False
        yield value_of(make, 3), False
        yield (data if make.random() < 0.5 else damaged(make, data))[1:], True


def wrong_of(data: bytes, is_table: bool) -> str:
    """What the package makes otherwise of an input than the model, or nothing."""
    options: dict[str, Any] = {"text": "bytes", "max_bytes": FRAME}
    load: Any = own.loads_table if is_table else own.loads
    wanted = predicted_error(data, is_table)
    try:
        found = load(data, **options)
    except own.Error as why:
        return "" if problem_of(why) == wanted else f"{why.args}, and not {wanted}"
    if wanted:
        return f"it is read, and not {wanted}"
    value, _ = read(b"F" * is_table + data)
    if form(found) != value or shape(found) != shape(python_of(value)):
        return f"it is read as {found!r}, and not {value}"
    again = own.dumps_table(found) if is_table else own.dumps(found)
    return "" if again == raw(value)[is_table:] else f"it is written as {again.hex()}"


def test_inputs_of_every_kind(seed: int) -> None:
    tried = read_ones = 0
    for data, is_table in many_inputs(Random(seed)):
        wrong = wrong_of(data, is_table)
        assert not wrong, f"{data[:300].hex()}, {is_table}: {wrong}"
        tried += 1
        read_ones += predicted_error(data, is_table) is None
    assert read_ones > tried / 3


def test_values_and_their_encodings() -> None:
    for value, digits in ROWS:
        data = bytes.fromhex(digits)
        assert shape(own.loads(data, text="bytes")) == shape(value)
        assert own.dumps_table({"k": value}) == field(b"", b"\1k" + data)
        assert own.decode_table(b"..." + field(b"", b"\1k" + data) + b"...", 3, text="bytes")[1] == 9 + len(data)
    for value, digits in [*ROWS, *ALSO]:
        assert own.dumps(value).hex() == own.dumps([value])[5:].hex() == digits, value


@given(VALUES)
def test_each_value_comes_back(value: Value) -> None:
    found = own.loads(raw(value), text="bytes")
    assert form(found) == value
    assert own.dumps(found) == own.dumps(python_of(value)) == raw(value)


class Colour(IntEnum):
    RED = 7


CONTAINERS: list[tuple[Any, Any]] = [
    (OrderedDict(b=1, a=2), {"b": 1, "a": 2}), (ChainMap({"a": 1}), {"a": 1}), (MappingProxyType({"a": 1}), {"a": 1}),
    (deque([1, 2]), [1, 2]), (range(2), [0, 1]), ((1, (2,)), [1, [2]]), (Colour.RED, 7), ({}, {}), (ChainMap(), {}),
]  # fmt: skip


@pytest.mark.parametrize("value, wanted", CONTAINERS)
def test_mappings_and_sequences(value: Any, wanted: Any) -> None:
    assert own.dumps(value) == own.dumps(wanted)
    assert own.dumps({"k": value}) == own.dumps({"k": wanted})


def test_tables_of_one_empty_key() -> None:
    """They have their keys in common, and nothing else."""
    value: list[Any] = [{"": 1}, {"": 2}, {"": {"": {}}}, {"": None, "a": 3}, {"": [{"": "x"}, {"": "y"}]}]
    data = own.dumps(value)
    found = own.loads(data)
    assert found == value
    found[0]["a"], found[0][""] = 5, 6
    del found[2][""]
    assert found == [{"": 6, "a": 5}, {"": 2}, {}, *value[3:]]
    assert own.loads(data) == value == own.loads(data, equal_keys="first")


def test_much_memory() -> None:
    """100,000 entries, and more than a mebibyte: no call gives up."""
    table: dict[str, Any] = {f"{it}": it for it in range(100_000)} | {"text": "x" * 2**20, "list": [[0]] * 999}
    data = own.dumps_table(table)
    least, most = len(data) + 1, 2**32 - 1
    for limit in (own.MAX_BYTES, least - 1):
        assert own_error(lambda: own.loads_table(data, max_bytes=limit)) == ("too large", 0, 0)
    assert own.dumps(table) == own.dumps(own.Encoded(b"F" + data)) == b"F" + data
    assert own.loads(b"F" + data, max_bytes=most) == own.loads_table(data, max_bytes=least) == table
    assert own.decode_table(data, max_bytes=most) == (table, len(data))
    assert own.find(data, "text", table=True, max_bytes=most) == table["text"]
    codec = Codec(None, type(None), None, max_bytes=most)
    assert codec.read(data, 0) == (table, len(data))
    assert codec.write(table) == data
    text = own.to_json(data, table=True, max_bytes=most)
    assert own.loads_table(own.from_json(text, table=True, max_bytes=most), max_bytes=most) == table
    for size in [*range(480, 530), *range(1000, 1100)]:
        assert own.loads(own.dumps(["x" * size, {"k" * 255: size}]))[1] == {"k" * 255: size}


def test_data_of_every_type() -> None:
    data = own.dumps_table({"a": [1]})
    for it in (data, bytearray(data), memoryview(data), memoryview(b"." + data)[1:], memoryview(data[::-1])[::-1]):
        assert own.loads_table(it) == {"a": [1]}
        assert own.decode_table(it) == ({"a": [1]}, len(data))
        assert own.find(it, "a", 0, table=True) == 1
    released = memoryview(data)
    released.release()
    assert own_error(lambda: own.loads(released)) == ("raised", 0, 0)
    for other in ("", 5, None, [70], object()):
        for call in (own.loads, own.loads_table, own.decode_table, own.find):
            assert error_of(lambda: call(other)) is TypeError  # type: ignore[operator]


# Options

HOW: list[Any] = ["strict", "bytes", "surrogateescape"]
WHICH: list[Any] = ["last", "first"]
LATIN = field(b"", b"\3k\xf6yt\1" + b"\1tS\0\0\0\1\xff" + b"\1aI\0\0\0\2")


def test_keys_and_text_that_are_not_utf8() -> None:
    assert own_error(lambda: own.loads_table(LATIN)) == ("key not UTF-8", 4, 0)
    assert own_error(lambda: own.loads_table(LATIN, text="bytes")) == ("key not UTF-8", 4, 0)
    assert own_error(lambda: own.loads_table(LATIN, keys="bytes")) == ("text not UTF-8", 12, 0)
    as_bytes = own.loads_table(LATIN, keys="bytes", text="bytes")
    assert shape(as_bytes) == shape({b"k\xf6y": True, "t": own.LongString(b"\xff"), "a": own.LongInt(2)})
    escaped = own.loads_table(LATIN, keys="surrogateescape", text="surrogateescape")
    assert shape(escaped) == shape({"k\udcf6y": True, "t": "\udcff", "a": own.LongInt(2)})
    assert own.dumps_table(as_bytes, keys="bytes") == LATIN
    assert own.dumps_table(escaped, keys="surrogateescape", text="surrogateescape") == LATIN
    assert own_error(lambda: own.dumps_table(as_bytes)) == ("key not UTF-8", 4, 0)
    assert own_error(lambda: own.dumps_table(escaped)) == ("lone surrogate", 4, 0)
    assert own_error(lambda: own.dumps_table(escaped, keys="surrogateescape")) == ("lone surrogate", 12, 0)
    assert own.loads_table(LATIN, keys="bytes", text="bytes", plain=True)["t"] == b"\xff"
    pairs: list[tuple[Any, Any]] = [("bytes", b"k\xf6y"), ("surrogateescape", "k\udcf6y")]
    for keys, key in pairs:
        assert own.find(LATIN, key, table=True, keys=keys) is True
        assert own.find(b"F" + LATIN, key, keys=keys) is True
        assert own.decode_table(b".." + LATIN + b"..", 2, keys=keys, text="bytes")[1] == 2 + len(LATIN)
    inside = own.Encoded(b"F" + LATIN)
    assert own_error(lambda: own.dumps([inside])) == ("key not UTF-8", 10, 0)
    for keys in HOW[1:]:
        assert own.dumps([inside], keys=keys) == field(b"A", inside)
    cut = LATIN[:-1]
    for keys in HOW:
        assert own_error(lambda: own.loads_table(cut, keys=keys)) == ("cut", 0, 1)


def test_surrogates_that_are_read_of_no_bytes() -> None:
    """Those that stand for bytes that are UTF-8, since two str would be one key; and those that stand for no bytes."""
    for text in ("\udcc3\udca4", "ä\udcc3\udca4\udcff", "\ud800", "\udcff\udfff"):
        values: list[Any] = [{text: 1}, {"k": text}]
        for value in values:
            how: Any = {"keys": "surrogateescape", "text": "surrogateescape"}
            assert (own_error(lambda: own.dumps_table(value, **how)) or "")[0] == "lone surrogate"
        found = own_error(lambda: own.find(field(b"F", b""), text, keys="surrogateescape"))
        assert found and found[0] == "lone surrogate"


@given(st.binary(max_size=255), st.binary(max_size=300))
def test_any_bytes_as_key_and_text_come_back(key: bytes, text: bytes) -> None:
    data = field(b"", bytes([len(key)]) + key + field(b"S", text))
    for how in HOW[1:]:
        found = own.loads_table(data, keys=how, text=how)
        assert own.dumps_table(found, keys=how, text=how) == data
        assert len(found) == 1


def test_equal_keys(seed: int) -> None:
    """Of `find` as of `loads`; they are refused wherever the first of them is, by the model, also where `find` isn't asked for it."""
    data = field(b"F", b"\1at\1" + b"\1aI\0\0\0\5" + b"\1bV" + b"\1at\0")
    assert own.loads(data) == own.loads(data, equal_keys="last") == {"a": False, "b": None}
    assert own.loads(data, equal_keys="first") == {"a": True, "b": None}
    make, refused = Random(seed), 0
    for _ in range(1000):
        tables = [table_of(make, [value_of(make, 1) for _ in range(make.randrange(4))]) for _ in range(2)]
        data = make.choice([tables[0], field(b"A", b"".join(tables)), table_of(make, tables)])
        for which in WHICH if data[:1] == b"F" else ():
            for key, it in own.loads(data, equal_keys=which, text="bytes").items():
                assert shape(own.find(data, key, equal_keys=which, text="bytes")) == shape(it)
        places = doubtful(data, own.DEPTH)["repeated_key"][:1]
        wanted = ("equal keys", places[0], 0) if places else None
        refused += bool(places)
        how: dict[str, Any] = {"equal_keys": "refuse", "keys": make.choice(HOW), "text": "bytes"}
        assert own_error(lambda: own.loads(data, **how)) == wanted, data.hex()
        assert own_error(lambda: own.find(data, "no such key", **how)) == wanted, data.hex()
        assert wanted or shape(own.loads(data, **how)) == shape(own.loads(data, text="bytes"))
        if data[:1] == b"F":
            shifted = wanted and (wanted[0], wanted[1] + 3, 0)
            assert own_error(lambda: own.decode_table(b"..." + data, 4, **how)) == shifted
    assert 200 < refused < 800
    latin = field(b"F", b"\2a\xffV" + b"\2a\xfet\1" + b"\2a\xffV")
    for keys in HOW[1:]:
        assert own_error(lambda: own.loads(latin, keys=keys, equal_keys="refuse")) == ("equal keys", 14, 0)
        assert len(own.loads(field(b"F", latin[5:14]), keys=keys, equal_keys="refuse")) == 2


def test_encoded_values(seed: int) -> None:
    """They are written as they were, so that a pair of a table can be changed, and no other byte."""
    data = field(b"", b"\1aU\0\5\0F\0\0\0\6\1at\7\0V\1bL" + bytes(8))
    found = assert_type(own.loads_table(data, encoded=True), dict[str, own.Encoded])
    assert {*map(type, found.values())} == {own.Encoded} and own.dumps_table(found) == data
    assert found.pop("b") == b"L" + bytes(8) and own.dumps_table(found) == field(b"", data[4:-11])
    of_bytes = own.decode_table(b".\0\0\0\2\0V.", 1, encoded=True, keys="bytes")
    assert assert_type(of_bytes, tuple[dict[str | bytes, own.Encoded], int]) == ({"": b"V"}, 7)
    make, how = Random(seed), dict[str, Any](keys="bytes", equal_keys="refuse")
    for _ in range(2000):
        data = make.choice([odd_table(make), table_of(make, [value_of(make, 2) for _ in range(3)])])[1:]
        wanted = own_error(lambda: own.loads_table(data, text="bytes", **how))
        assert own_error(lambda: own.loads_table(data, encoded=True, **how)) == wanted
        assert wanted or own.dumps_table(own.loads_table(data, encoded=True, **how), keys="bytes") == data


def test_paths() -> None:
    data = own.dumps({"a": [1, {"b": "c"}], "": None})
    assert own.find(data) == {"a": [1, {"b": "c"}], "": None}
    assert own.find(data, "a", 1, "b") == own.find(data, b"a", 1, b"b") == "c"
    assert own.find(data, "", default=5) is None
    none: list[Any] = [("a", 2), ("a", "b"), ("a", 0, 0), (0,), ("a", 2**63 - 1), ("x", "y"), ("a", 1, "b", 0)]
    for path in none:
        assert own.find(data, *path) is None
        assert own.find(data, *path, default=5) == 5
    wrong: list[Any] = [("a", -1), ("a", 2**63), (2**70,), ("x", -1)]
    for path in wrong:
        assert own_error(lambda: own.find(data, *path)) == ("bad option", 0, 0)
    others: list[Any] = [None, 1.0, [], bytearray(b"a")]
    for other in others:
        assert error_of(lambda: own.find(data, other)) is TypeError
        assert error_of(lambda: own.find(data, "no", other)) is TypeError
    assert own_error(lambda: own.find(data, "\ud800")) == ("lone surrogate", 0, 0)
    assert own_error(lambda: own.find(data + b"V", "a")) == ("trailing bytes", len(data), 0)


def test_what_find_checks() -> None:
    """Of all data the structure, and of what it returns the rest. (`test_offsets_count_from_the_start` tries random tables.)"""
    odd = b"\1\xffV" + b"\1sS\0\0\0\1\xff" + b"\1dd\x7f\xf0" + bytes(6) + b"\1tT" + b"\xff" * 8
    how: dict[str, Any] = {"table": True, "default": 5, "finite": True, "plain": True, "equal_keys": "refuse"}
    table = field(b"", odd + b"\1aV")
    assert own.find(table, "a", **how) is None and own.find(table, "x", **how) == 5
    of_paths: list[Any] = [("s", "text not UTF-8", 9), ("d", "not finite", 17), ("t", "out of range", 28)]
    for key, kind, offset in [*of_paths, (b"\xff", "key not UTF-8", 0)]:
        assert own_error(lambda: own.find(table, key, **how)) == (kind, offset, 0)
    assert own_error(lambda: own.find(table, **how)) == ("key not UTF-8", 4, 0)
    for _, kind, offset in of_paths:
        data = b"..." + field(b"", odd[offset - 6 :])
        assert own_error(lambda: own.decode_table(data, 3, finite=True, plain=True)) == (kind, 3 + 6, 0)
    assert own_error(lambda: own.find(field(b"", odd + b"\1aV\1aV"), "x", **how)) == ("equal keys", 40, 0)
    for limit, kind in (("depth", "too deep"), ("max_bytes", "too large")):
        how[limit] = 0
        assert own_error(lambda: own.find(table, "x", **how)) == (kind, 0, 0)


def test_a_default_keeps_its_references() -> None:
    default = object()
    # (more references than are lost here, so that they are counted before the object is freed)
    kept, data = [default] * 9, own.dumps({"a": 1})
    before = sys.getrefcount(default)
    assert own.find(data, "x", default=default) is default
    assert own.find(data, "a", 0, default=default) is default
    assert sys.getrefcount(default) == before and len(kept) == 9


def test_plain_types() -> None:
    value = [own.ShortShortInt(-1), own.Timestamp(1_800_000_000), own.Float(1.5), own.LongString(b"\xff")]
    value.append(Decimal("1.50"))
    plain = [-1, datetime(2027, 1, 15, 8, tzinfo=UTC), 1.5, b"\xff", Decimal("1.50")]
    for more in ([own.LongUInt(2), {"a": own.LongInt(2)}], [2, {"a": 2}]), (b"\xff", b"\xff"), (True, True):
        value, plain = [*value, more[0]], [*plain, more[1]]
    assert shape(own.loads(own.dumps(value), plain=True, text="bytes")) == shape(plain)


def test_times() -> None:
    late, naive = datetime(9999, 12, 31, 23, 59, 59, 999999, UTC), datetime(2027, 1, 15, 8)
    data, refused = own.dumps(late), ("out of range", 0, 0)
    assert own.loads(data, plain=True) == late.replace(microsecond=0) and own.Timestamp.of(late) == own.loads(data)
    assert own_error(lambda: own.loads(own.dumps(own.Timestamp(own.loads(data) + 1)), plain=True)) == refused
    west = datetime(2027, 1, 15, 3, tzinfo=timezone(timedelta(hours=-5)))
    assert own.loads(own.dumps(west), plain=True) == naive.replace(tzinfo=UTC)
    assert own_error(lambda: own.dumps_table({"t": naive})) == ("naive datetime", 6, 0)
    assert own.loads_table(own.dumps_table({"t": naive}, naive_datetimes=True)) == {"t": 1_800_000_000}
    for before in (datetime(1969, 12, 31), datetime(1969, 12, 31, 23, 59, 59, 999999)):
        assert own_error(lambda: own.dumps(before.replace(tzinfo=UTC))) == refused
        assert own_error(lambda: own.dumps(before, naive_datetimes=True)) == refused
    assert own_error(lambda: own.Timestamp.of(naive)) == ("naive datetime", 0, 0)
    assert own_error(lambda: own.Timestamp(2**63).as_datetime()) == refused


DECIMALS = ["-1", "-0.01", "-2147483648", "2147483647", "-1E-255", "0", "0.00", "1E+3"]


def test_signed_decimals() -> None:
    for text in DECIMALS:
        data = own.dumps(Decimal(text), signed_decimals=True)
        assert own.loads(data, signed_decimals=True) == Decimal(text)
        scaled = int(Decimal(text).scaleb(data[1]))
        assert data[2:] == scaled.to_bytes(4, "big", signed=True)
        if text[0] == "-":
            assert own_error(lambda: own.dumps(Decimal(text))) == ("out of range", 0, 0)
    assert own.loads(b"D\1\xff\xff\xff\xff") == Decimal("429496729.5")
    assert own.loads(b"D\1\xff\xff\xff\xff", signed_decimals=True) == Decimal("-0.1")
    for text in ("2147483648", "-2147483649", "1E+10", "-1E+999999"):
        assert own_error(lambda: own.dumps(Decimal(text), signed_decimals=True)) == ("out of range", 0, 0)
    for text in ("4294967296", "NaN", "sNaN", "Infinity", "-Infinity", "1E-256", "1E+999999", "0E-256", "1" * 5000):
        assert own_error(lambda: own.dumps(Decimal(text))) == ("out of range", 0, 0)
    assert own.dumps(Decimal("0E+999999")).hex() == "440000000000"


def test_finite_numbers() -> None:
    odd = [float("inf"), -float("inf"), float("nan"), *map(own.Float, (float("inf"), float("nan")))]
    for it in odd:
        data = own.dumps({"k": [it]})
        assert own_error(lambda: own.dumps({"k": [it]}, finite=True)) == ("not finite", 12, 0)
        assert own_error(lambda: own.loads(data, finite=True)) == ("not finite", 12, 0)
        assert shape(own.loads(data)) == shape({"k": [it]})
    assert own.loads(own.dumps(1.5, finite=True), finite=True) == 1.5


def test_depth() -> None:
    value: Any = None
    for levels in range(1, own.MOST_DEPTH + 2):
        value = [value] if levels % 2 else {"k": value}
        assert own_error(lambda: own.dumps(value, depth=levels - 1)) is not None
        if levels <= own.MOST_DEPTH:
            data = own.dumps(value, depth=levels)
            assert own_error(lambda: own.loads(data, depth=levels - 1)) is not None
            assert own.dumps(own.loads(data, depth=levels), depth=levels) == data
    assert own.DEPTH == 32 and own_error(lambda: own.dumps(nest(33))) == ("too deep", 5 * 32, 0)
    assert own.loads(own.dumps(nest(32))) == nest(32)
    for keys in HOW:
        assert own_error(lambda: own.loads(nested("A", 33, b""), keys=keys)) == ("too deep", 5 * 32, 0)
        assert own_error(lambda: own.loads_table(nested("F", 33, b"V")[1:], keys=keys)) == ("too deep", 7 * 32 - 1, 0)
    for call in (own.loads, own.dumps, own.loads_table, own.dumps_table):
        for depth in (-1, own.MOST_DEPTH + 1, 2**100):
            assert own_error(lambda: call(b"", depth=depth)) == ("bad option", 0, 0)  # type: ignore[operator]
    cycle: list[Any] = []
    cycle.append({"a": cycle})
    assert own_error(lambda: own.dumps(cycle)) == ("too deep", 16 * 12, 0)


def nest(levels: int) -> list[Any]:
    return [nest(levels - 1)] if levels > 1 else []


BAD_OPTIONS: list[dict[str, Any]] = [
    {"keys": "ignore"}, {"text": ""}, {"equal_keys": "any"}, {"max_bytes": -1}, {"max_bytes": 2**32}, {"depth": -1},
]  # fmt: skip
MISTAKES: list[Callable[[], Any]] = [
    lambda: own.loads(b"V", keys=5), lambda: own.loads(b"V", max_bytes="x"), lambda: own.loads(b"V", depth=1.5),  # type: ignore
    lambda: own.loads(b"V", table=True), lambda: own.loads(b"V", offset=0), lambda: own.loads(b"V", no=1),  # type: ignore
    lambda: own.loads(), lambda: own.loads(b"V", b"V"), lambda: own.decode_table(b"", 0, 0),  # type: ignore
    lambda: own.dumps(), lambda: own.dumps_table([]), lambda: own.dumps_table(None), lambda: own.find(),  # type: ignore
    lambda: own.dumps(object()), lambda: own.dumps({1: 2}), lambda: own.decode_table(b"", 0, offset=0),  # type: ignore
    lambda: own.loads(b"V", encoded=True), lambda: own.dumps(5, plain=True), lambda: own.decode_table(b"", "0"), lambda: own.dumps({None}),  # type: ignore
]  # fmt: skip


def test_options_that_are_none() -> None:
    for options in BAD_OPTIONS:
        assert own_error(lambda: own.loads(b"V", **options)) == ("bad option", 0, 0)
    for call in MISTAKES:
        assert issubclass(error_of(call) or int, TypeError)
    data = field(b"", b"")
    for offset in (-1, 5, 2**70):
        assert own_error(lambda: own.decode_table(data, offset)) == ("bad option", 0, 0)
    assert own_error(lambda: own.decode_table(data, 4)) == ("cut", 4, 4)
    assert own.decode_table(data, offset=0) == ({}, 4)


def test_offsets_count_from_the_start(seed: int) -> None:
    make, rejected = Random(seed), 0
    for _ in range(1000):
        data, before = odd_table(make)[1:], make.randbytes(make.randrange(9))
        at = own_error(lambda: own.loads_table(data, text="bytes"))
        found = own_error(lambda: own.decode_table(before + data, len(before), text="bytes"))
        is_read = at is None or at[0] == "trailing bytes"
        assert found == (None if at is None or is_read else (at[0], at[1] + len(before), at[2]))
        rejected += not is_read
        problem = first_problem(b"F" + data, "any keys")
        by_any = own_error(lambda: own.loads(b"F" + data, text="bytes", keys="bytes"))
        assert (by_any and by_any[:2]) == (problem and (KINDS[problem[1]], problem[0]))
        assert own_error(lambda: own.find(b"F" + data, "no such key")) == by_any
    assert rejected > 200


# Errors

WRITES: list[tuple[Any, tuple[str, int, int], tuple[Any, ...]]] = [
    ({"a": [1, "b\ud800"]}, ("lone surrogate", 21, 0), ("a", 1)),
    ({"a": {"\ud800": 1}}, ("lone surrogate", 12, 0), ("a", "\ud800")),
    ({"k" * 256: 1}, ("key too long", 5, 0), ("k" * 256,)),
    ({"a": 1, b"a": 2}, ("equal keys", 16, 0), (b"a",)),
    ({b"\xff": 1}, ("key not UTF-8", 5, 0), (b"\xff",)),
    ({"x": [2**63]}, ("out of range", 12, 0), ("x", 0)),
    ([-(2**63) - 1], ("out of range", 5, 0), (0,)),
    ([10**4000], ("out of range", 5, 0), (0,)),
    ([Decimal(-1)], ("out of range", 5, 0), (0,)),
    ([own.Encoded(b"z")], ("unknown tag", 5, 0), (0,)),
    ({"k": own.Encoded(b"S\0\0\0\5ab")}, ("cut", 7, 3), ("k",)),
    ([own.Encoded(b"VV")], ("trailing bytes", 6, 0), (0,)),
    ([own.Encoded(nested("A", 32, b""))], ("too deep", 5 + 5 * 31, 0), (0,)),
    ({"a": [1, {"b": {5}}]}, ("unsupported type", 28, 0), ("a", 1, "b")),
    ({"a": {5: 1}}, ("unsupported type", 12, 0), ("a", 5)),
]


def test_what_can_not_be_written() -> None:
    for value, problem, path in WRITES:
        with pytest.raises(own.Error) as found:
            own.dumps(value)
        assert problem_of(found.value) == problem and found.value.path == path and repr([*path]) in str(found.value)
        assert type(found.value) is (own.UnsupportedType if problem[0] == "unsupported type" else own.Error)
        if isinstance(value, dict):
            assert own_error(lambda: own.dumps_table(value)) == (problem[0], problem[1] - 1, problem[2])


def test_a_long_path_is_shortened_in_the_message() -> None:
    deep: Any = own.Encoded(b"z")
    for at in range(60):
        deep = {f"key {at}": deep} if at % 2 else [deep]
    with pytest.raises(own.Error) as found:
        own.dumps(deep, depth=60)
    assert len(found.value.path) == 60
    assert str(found.value).endswith("(in ['key 59', 0, 'key 57', 0, .. 52 more .., 'key 3', 0, 'key 1', 0])")
    with pytest.raises(own.Error) as found:
        own.dumps([[[[[[[[own.Encoded(b"z")]]]]]]]])
    assert str(found.value).endswith("(in [0, 0, 0, 0, 0, 0, 0, 0])")


def test_the_error_is_copied_with_what_it_has() -> None:
    with pytest.raises(own.Error) as found:
        own.loads(b"S\0\0\0\5abc")
    assert str(found.value) == "cut at 0: expected 2 more bytes"
    for again in (pickle.loads(pickle.dumps(found.value)), copy.deepcopy(found.value)):
        assert problem_of(again) == ("cut", 0, 2) and str(again) == str(found.value)
    assert issubclass(own.Error, ValueError)


def test_other_forms_are_recognized() -> None:
    """Where the bytes begin the error says what they may be, and what reads that; also what it read as a length."""
    table, digits, untagged = own.dumps_table({"a": 1}), b"0000000b0161", "0: is this a table without its type tag?"
    of_calls: list[tuple[Callable[[], Any], str]] = [
        (lambda: own.loads(table), f"not byte {untagged} loads_table, or table=True"),
        (lambda: own.find(b"\0", "a"), f"not byte {untagged} loads_table, or table=True"),
        (lambda: own.dumps([own.Encoded(table)]), f"not byte {untagged} Encoded(b'F' + table)"),
        (lambda: own.loads(digits), "not byte 48: is this hexadecimal text? bytes.fromhex reads it"),
        (lambda: own.loads(b'["a"]'), "not byte 91: is this JSON? from_json reads it"),
        (lambda: own.loads(field(b"A", b"\0")), "not byte 0"),
        (lambda: own.loads_table(digits), "length 808464432: is this hexadecimal text? bytes.fromhex reads it"),
        (lambda: own.loads_table(b'{"a": 1}'), "length 2065850658: is this JSON? from_json reads it"),
        (lambda: own.loads_table(b"F\0\0\0\0"), "1174405120: is this a table with its type tag? loads, or table=False"),
        (lambda: own.decode_table(b"." + b"\xff" * 4, 1), "counted, but the first four are the length 4294967295"),
    ]
    for call, hint in of_calls:
        with pytest.raises(own.Error) as found:
            call()
        assert found.value.expected.endswith(hint)


KIND = re.compile(r"(?ms)^_Kind: TypeAlias = Literal\[\n(.*?)^\]")


def test_every_kind_is_raised_and_typed() -> None:
    """The kinds in the sources are those of the typed interface, and of the page."""
    text = "".join(it.read_text() for it in sorted((TOP / "bindings/python/src").glob("*.c")))
    raised = {*re.findall(r'raise_(?:error|of|reason)\([\w>, -]+, "([^"]+)"', text)}
    raised |= {*re.findall(r'\? "(out of range)" : "(too large)"', text)[0]}
    found = KIND.search((TOP / "bindings/python/amqp_values/__init__.pyi").read_text())
    assert found and raised == {*re.findall(r'"(.*?)"', found[1])}
    assert not [it for it in raised if f"`{it}`" not in (TOP / "docs/PYTHON.md").read_text()]


# The classes


def test_classes() -> None:
    for name in ("ShortShortInt", "ShortShortUInt", "ShortInt", "ShortUInt", "LongInt", "LongUInt", "Timestamp"):
        kind = getattr(own, name)
        for number in (kind.least, kind.most):
            assert repr(kind(number)) == f"{name}({number})" and str(kind(number)) == str(number)
            assert own.loads(own.dumps(kind(number))) == number and not hasattr(kind(number), "__dict__")
            again = pickle.loads(pickle.dumps(kind(number)))
            assert type(again) is kind and again == number
        for number in (kind.least - 1, kind.most + 1):
            assert own_error(lambda: kind(number)) == ("out of range", 0, 0)
            outside = int.__new__(kind, number)
            assert own_error(lambda: own.dumps(outside)) == ("out of range", 0, 0)
        assert error_of(lambda: kind("5")) is TypeError
    assert own.Float(0.1) == 0.10000000149011612 and repr(own.Float(1.5)) == "Float(1.5)"
    for number in (1e300, -1e300, 10**400, Decimal("1E+999")):
        assert own_error(lambda: own.Float(number)) == ("out of range", 0, 0)
    for bits in (0, 1 << 31, 0x7F800001, 0xFFFFFFFF, 0x7FC00000, 0xFF800000):
        assert own.Float.of_bits(bits).bits == bits
        assert own.dumps(own.Float.of_bits(bits)) == b"f" + bits.to_bytes(4, "big")
    assert own.dumps(float.__new__(own.Float, 1e-300)).hex() == "6600000000"
    assert own_error(lambda: own.dumps(float.__new__(own.Float, 1e300))) == ("out of range", 0, 0)
    middle, largest = float.fromhex("0x1.ffffffp+127"), float.fromhex("0x1.fffffefffffffp+127")
    assert own_error(lambda: own.dumps(float.__new__(own.Float, middle))) == ("out of range", 0, 0)
    assert own.dumps(float.__new__(own.Float, largest)).hex() == "667f7fffff"
    assert repr(own.LongString(b"a")) == "LongString(b'a')" and own.dumps(own.LongString(b"a")) == own.dumps("a")
    for value in (own.Float(1), own.LongString(b""), own.Encoded(b"")):
        assert not hasattr(value, "__dict__") and shape(pickle.loads(pickle.dumps(value))) == shape(value)


def test_adding_in_place_keeps_the_type() -> None:
    """If it has the number; otherwise it is an int, which is written as LongLongInt. What isn't in place is an int too."""
    for name in ("ShortShortInt", "ShortShortUInt", "ShortInt", "ShortUInt", "LongInt", "LongUInt", "Timestamp"):
        kind = getattr(own, name)
        table = own.loads(own.dumps({"n": kind(5)}))
        table["n"] += 3
        table["n"] -= own.LongInt(2)
        assert shape(table["n"]) == shape(kind(6))
        most, least = kind(kind.most), kind(kind.least)
        most += 1
        least -= 1
        assert (type(most), most, type(least), least) == (int, kind.most + 1, int, kind.least - 1)
        assert type(kind(5) + 1) is int and type(kind(5) - 1) is int
        number: Any = kind(5)
        number += 1.5
        assert shape(number) == shape(6.5)
        number = kind(5)
        with pytest.raises(TypeError):
            number += "1"

    class Priority(own.ShortShortUInt):
        def __new__(cls) -> Any:
            return super().__new__(cls, 5)

    priority: Any = Priority()
    priority += 1
    assert type(priority) is Priority and priority == 6


# Pages and types


def test_signatures_are_those_of_the_types() -> None:
    text = (TOP / "bindings/python/amqp_values/__init__.pyi").read_text()
    for name in ("loads", "loads_table", "decode_table", "find", "dumps", "dumps_table", "to_json", "from_json"):
        typed = max(re.findall(rf"(?s)def {name}\((.*?)\) -> ", text), key=lambda it: str(it).count(" = "))
        names = [it.strip().partition(":")[0] for it in re.sub(r"\[.*?\]", "", typed).split(",") if it.strip()]
        signature = inspect.signature(getattr(own, name))
        assert [it.partition("=")[0] for it in str(signature)[1:-1].split(", ")] == names, name
        for option, default in re.findall(r"(\w+): [^,=]+ = ([^,]+)", typed):
            assert repr(signature.parameters[option].default) == default.strip().replace('"', "'")


def test_docstrings_are_those_of_the_types() -> None:
    """What an editor shows of a function, of which it sees only the types, is what `help` prints."""
    tree = ast.parse((TOP / "bindings/python/amqp_values/__init__.pyi").read_text())
    # (of several types of a function the first one has it)
    functions = [it for it in reversed(tree.body) if isinstance(it, ast.FunctionDef)]
    shown = {it.name: ast.get_docstring(it) for it in functions}
    assert shown == {it: inspect.getdoc(getattr(own, it)) for it in own.__all__ if inspect.isroutine(getattr(own, it))}


@pytest.mark.parametrize(("name", "has_other"), (("loads", ""), ("dumps", ""), ("to_json", ""), ("find", "loads")))
def test_help_has_each_option(name: str, has_other: str) -> None:
    """With its default, and an example."""
    text = str(getattr(own, name).__doc__)
    others = [*inspect.signature(getattr(own, has_other)).parameters] if has_other else []
    options = [it for it in inspect.signature(getattr(own, name)).parameters.values() if it.kind is it.KEYWORD_ONLY]
    assert options and not [it for it in options if it.name not in others and f"\n    {it} " not in text]
    assert f"\n>>> {name}(" in text or "\n>>> data = dumps_table(" in text


@pytest.mark.parametrize("name", ("docs/PYTHON.md", "README.md"))
def test_examples_of_a_page(name: str) -> None:
    """The examples of a page run in their order. (Its lines for consumers are run by tests/rabbitmq.)"""
    page = TOP / name
    blocks = re.findall(r"(?ms)^```python\n(.*?)^```", page.read_text())
    test = doctest.DocTestParser().get_doctest("".join(blocks), {}, page.name, None, 0)
    failed, tried = doctest.DocTestRunner().run(test)
    assert tried and not failed


def test_what_the_guide_sends_and_logs() -> None:
    """A table that is refused goes into a header that fits a frame with room to spare, and any headers are shown as text."""
    page = (TOP / "docs/PYTHON.md").read_text()
    recipe, function = re.findall(r'send `(\{"problem".*?\})`', page), re.findall(
        r"(?m)^>>> (def as_text.*\n(?:\.\.\. .*\n)+)", page
    )
    it = Refused(own.Error("cut"), bytes(2**20))
    assert len(own.dumps_table(eval(recipe[0], {"it": it}))) < 131_072 - 32_768
    names: dict[str, Any] = {"av": own}
    exec(re.sub(r"(?m)^\.\.\. ", "", function[0]), names)
    for raw, text in (
        (b"\0\0\0\3\1aV", '{"a":null}'),
        (b"\0\0\0\3\1\xffV", "0000000301ff56"),
        (b"\0\0\0\3\1a", "000000030161"),
    ):
        assert names["as_text"](Refused(own.Error("cut"), raw)) == text
    assert [names["as_text"](it) for it in (None, {"a": 1})] == ["None", "{'a': 1}"]
