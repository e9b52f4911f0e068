"""The codecs of adapters, without a broker: what applications get and send by each client (tests/rabbitmq/seen.py)."""

import pickle
from calendar import timegm
from datetime import datetime, timedelta, timezone
from decimal import Decimal
from enum import IntEnum
from random import Random
from time import gmtime, tzset
from typing import Any

import pytest
from amqp_values import Encoded, LongInt, LongString, LongUInt, ShortInt, ShortShortInt, Timestamp, dumps_table
from amqp_values.adapters import Headers, Refused, pika
from hypothesis import given
from hypothesis import strategies as st
from pika.compat import long

from tests.model.encoding import field
from tests.model.inputs import FRAME, damaged, nested
from tests.model.tables import decimal, first_problem, number, odd_table, parts, random_table, raw
from tests.python.codecs import ADAPTERS, CLIENTS, codec, unread, unwritten
from tests.values import error_of
from tests.rabbitmq.seen import Client, meant, parsed, seen

EDGES = sorted({sign * 2**bits + by for bits in (7, 8, 15, 16, 31, 32, 63) for sign in (-1, 1) for by in (-1, 0, 1)})
INTEGERS = [it for it in EDGES if -(2**63) <= it < 2**63]
TWICE = b"\0\0\0\x08\1at\1\1at\0"
each_version = pytest.mark.parametrize("client", CLIENTS.values(), ids=CLIENTS)


class Colour(IntEnum):
    RED = 7
    LARGE = 2**40


class Counted(int):
    """An integer of a class that says nothing."""


def table_of(make: Random) -> bytes:
    """A table without its type tag, or bytes that are none."""
    data = raw(random_table(make)) if make.random() < 0.5 else odd_table(make)
    data = (damaged(make, data) if make.random() < 0.4 else data)[1:]
    # (some damaged tables get a length that fits again)
    return len(data[4:]).to_bytes(4, "big") + data[4:] if make.random() < 0.5 else data


# Reading


@each_version
def test_what_is_read(client: Client, seed: int) -> None:
    """At any offset, with its bytes; what is refused ends where its length says, or raises if it is cut."""
    make, exact, plain = Random(seed), codec(client), codec(client, exact=False)
    counts = {"read": 0, "refused": 0, "raised": 0}
    for _ in range(2000):
        data, before, after = table_of(make), make.randbytes(make.randrange(5)), make.randbytes(make.randrange(5))
        whole = before + data + after
        problem = first_problem(b"F" + data + after, "any keys")
        end = len(before) + 4 + int.from_bytes((data + after)[:4], "big")
        if len(data + after) < 4 or end > len(whole):
            counts["raised"] += 1
            assert error_of(lambda: exact.read(whole, len(before))) is unread(client)
            continue
        found, stop = exact.read(whole, len(before))
        assert isinstance(found, Headers) and found.raw == whole[len(before) : end] and stop == end
        if problem:
            counts["refused"] += 1
            # (clients replace headers that are false by an empty dict)
            assert isinstance(found, Refused) and found and not len(found)
            # (of its own bytes, wherever these are in the frame)
            assert found.problem.offset == max(problem[0] - 1, 0)
            continue
        counts["read"] += 1
        wanted = repr(seen(client, parsed(b"F" + whole[len(before) : end])[0]))
        assert type(found) is Headers and repr(found) == wanted
        by_plain, stop = plain.read(bytearray(whole), len(before))
        assert type(by_plain) is dict and repr(by_plain) == wanted and stop == end
    assert min(counts.values()) > 100, counts


@each_version
def test_options(client: Client) -> None:
    assert codec(client).read(TWICE, 0)[0] == {"a": False}
    first = codec(client, equal_keys="first")
    came = first.read(TWICE, 0)[0]
    assert came == {"a": True}
    came["b"] = None
    assert first.write(came) == field(b"", b"\1at\1\1bV")
    refused, end = codec(client, equal_keys="refuse").read(TWICE + b"..", 0)
    assert isinstance(refused, Refused) and (refused.problem.kind, refused.problem.offset) == ("equal keys", 8)
    assert refused.raw == TWICE == codec(client, equal_keys="refuse").write(refused) and end == len(TWICE)
    nested_twice = field(b"", b"\1k" + field(b"A", b"F" + TWICE))
    assert codec(client).read(nested_twice, 0)[0] == {"k": [{"a": False}]}
    assert isinstance(codec(client, equal_keys="refuse", exact=False).read(nested_twice, 0)[0], Refused)
    assert error_of(lambda: codec(client, equal_keys="refuse", raises=True).read(TWICE, 0)) is unread(client)
    deep = nested("F", 32, b"V")[1:]
    assert type(codec(client).read(deep, 0)[0]) is Headers
    assert isinstance(codec(client, depth=31).read(deep, 0)[0], Refused)
    assert isinstance(codec(client, max_bytes=len(TWICE)).read(TWICE, 0)[0], Refused)
    assert type(codec(client, max_bytes=len(TWICE) + 1).read(TWICE, 0)[0]) is Headers
    # (a connection may have larger frames than RabbitMQ's usual one)
    large = raw(("F", {b"k": ("S", b"a" * (FRAME - 12))}))[1:]
    assert len(large) == FRAME - 1 and codec(client).write(codec(client).read(large, 0)[0]) == large
    assert isinstance(codec(client).read(raw(("F", {b"k": ("S", b"a" * (FRAME - 11))}))[1:], 0)[0], Refused)
    table: dict[str, Any] = {}
    for _ in range(31):
        table = {"k": table}
    assert codec(client, depth=32).write(table)
    assert error_of(lambda: codec(client, depth=31).write(table)) in unwritten(client)
    assert error_of(lambda: codec(client, raises=True).read(deep + b"z", 1)) is unread(client)
    assert error_of(lambda: codec(client, raises=True, depth=9).read(deep, 0)) is unread(client)
    call: Any = codec(client).read
    for arguments in ((), (b"\0\0\0\0",), (b"\0\0\0\0", 0, 0), ("x", 0), (b"\0\0\0\0", "0"), (None, 0)):
        assert error_of(lambda: call(*arguments)) is TypeError
    # (what is before a table may be cut, and its end be after the data's)
    for offset in (-1, -4, 1, 5, 2**70):
        assert error_of(lambda: call(b"\0\0\0\0", offset)) is unread(client)


# Writing

# A zone whose midnight of 1970, and five hours after it, is a second before that of UTC.
EAST = timezone(timedelta(hours=5, seconds=1))
TIMES = st.datetimes(datetime(1970, 1, 1), datetime(9999, 12, 31)) | st.integers(0, 2**33).map(
    lambda it: datetime(1970, 1, 1) + timedelta(seconds=it)
)
DECIMALS = st.tuples(st.integers(-(2**31), 2**31 - 1), st.integers(0, 255)).map(
    lambda it: Decimal(it[0]).scaleb(-it[1])
)
SIMPLE = (
    st.none() | st.booleans() | st.integers(-(2**63), 2**63 - 1) | st.sampled_from(INTEGERS) | st.text(max_size=9)
    | st.floats(allow_nan=False, allow_infinity=False) | st.binary(max_size=9) | st.binary(max_size=9).map(bytearray) | TIMES | DECIMALS
)  # fmt: skip
TABLES = st.dictionaries(
    st.text(max_size=9),
    st.recursive(
        SIMPLE,
        lambda it: st.lists(it, max_size=4)
        | st.lists(it, max_size=3).map(tuple)
        | st.dictionaries(st.text(max_size=9), it, max_size=4),
        max_leaves=12,
    ),
    max_size=5,
)


@each_version
def test_what_is_written(client: Client) -> None:
    """What a client means by a table."""
    write = codec(client).write
    for it in INTEGERS:
        assert b"F" + write({"n": it}) == raw(meant(client, {"n": it})), it

    @given(TABLES)
    def each(table: dict[str, Any]) -> None:
        assert b"F" + write(table) == raw(meant(client, table))

    each()


# Values of classes, and what clients send for them: each another, or all the same.
CLASSES: list[tuple[Any, dict[str, Any]]] = [
    (Colour.RED, {"pika": number("I", 7), "pyamqp": number("I", 7), "aiormq": number("b", 7)}),
    (Colour.LARGE, {"pika": number("l", 2**40), "pyamqp": number("L", 2**40), "aiormq": number("l", 2**40)}),
    (Counted(300), {"pika": number("I", 300), "pyamqp": number("I", 300), "aiormq": number("s", 300)}),
    (LongString(b"\xff"), {it: ("S", b"\xff") for it in ADAPTERS}),
    (gmtime(5), {"aiormq": number("T", 5)}),
    *((it, {name: value for name in ADAPTERS}) for it, value in (
        (LongInt(7), number("I", 7)), (ShortInt(-7), number("s", -7)), (LongUInt(2**32 - 1), number("i", 2**32 - 1)),
        (Timestamp(2**40), number("T", 2**40)), (Encoded(b"t\1"), number("t", 1)), (memoryview(b"a"), ("x", b"a")),
    )),
]  # fmt: skip


@pytest.mark.parametrize("value, wanted", CLASSES, ids=[type(it).__name__ for it, _ in CLASSES])
def test_classes(value: Any, wanted: dict[str, Any]) -> None:
    for client in CLIENTS.values():
        if it := wanted.get(client.name):
            write = codec(client).write
            assert b"F" + write({"v": [value]}) == raw(("F", {b"v": ("A", [it])})), client
            assert b"F" + write({"v": {"w": value}}) == raw(("F", {b"v": ("F", {b"w": it})})), client


def test_what_is_of_one_client(monkeypatch: pytest.MonkeyPatch) -> None:
    of_pika, of_pyamqp, of_pamqp = (codec(CLIENTS[it]).write for it in ("pika 1.2.0", "amqp 5.1.1", "pamqp 3.2.1"))
    assert of_pika({"v": long(5)}) == dumps_table({"v": 5}) and of_pika({"v": long(-5)}) == dumps_table({"v": -5})
    monkeypatch.setattr(pika.client, "negative", b"L")
    assert of_pika({"v": long(-5)})[6:] == b"L" + b"\xff" * 7 + b"\xfb" and of_pika({"v": long(5)})[6:7] == b"l"
    assert of_pika({"v": Decimal("1.50")})[-6:] == raw(decimal(1, 15))
    assert of_pyamqp({"v": Decimal("1.50")})[-6:] == raw(decimal(2, 150))
    table, ascending = {"z": 1, "a": {"y": 2, "b": 3}, "": 4}, {"": 4, "a": {"b": 3, "y": 2}, "z": 1}
    assert of_pamqp(table) == of_pamqp(ascending) != of_pika(ascending)
    assert error_of(lambda: of_pamqp({"a": 1, b"b": 2})) is TypeError


# What came is relayed


@each_version
def test_what_came_is_written_as_it_came(client: Client, seed: int) -> None:
    make, one, relayed, changed = Random(seed), codec(client), 0, 0
    for _ in range(700):
        data = table_of(make)
        try:
            found, end = one.read(data, 0)
        except unread(client):
            continue
        relayed += 1
        assert one.write(found) == one.write(found.copy()) == data[:end]
        found["another"] = True
        if isinstance(found, Refused):
            assert error_of(lambda: one.write(found)) in unwritten(client)
            continue
        # (of equal keys the last counts)
        others = dict(parts(b"F" + data[:end]))
        assert dict(parts(b"F" + one.write(found))) == {**others, b"\7another": b"t\1"}
        changed += 1
    assert relayed > 200 and changed > 150
    changed_raw, _ = one.read(b"\0\0\0\3\1aV", 0)
    for it in (b"", b"\0\0\0\3\1az", b"\0\0\0\0", b"\0\0\0\3\1aV\0"):
        changed_raw.raw = it  # type: ignore[attr-defined]
        assert one.write(changed_raw) == b"\0\0\0\3\1aV"
    again = pickle.loads(pickle.dumps(one.read(b"\0\0\0\3\1az", 0)[0]))
    assert isinstance(again, Refused) and one.write(again) == b"\0\0\0\3\1az"
    assert type(pickle.loads(pickle.dumps(one.read(TWICE, 0)[0]))) is dict


def test_bytes_of_another_type_are_a_change() -> None:
    """By pamqp a string that isn't UTF-8 is `bytes`, and a byte array a `bytearray`: in place of each other they are sent."""
    one = codec(CLIENTS["pamqp 3.2.1"])
    for at, other in ((0, bytearray(b"\xff")), (1, b"\xff")):
        came, _ = one.read(raw(("F", {b"a": ("S", b"\xff"), b"b": ("x", b"\xff")}))[1:], 0)
        assert one.write(came) == raw(("F", {b"a": ("S", b"\xff"), b"b": ("x", b"\xff")}))[1:]
        came["ab"[at]] = other
        tag = "Sx"[1 - at]
        assert b"F" + one.write(came) == raw(("F", {b"a": (tag, b"\xff"), b"b": (tag, b"\xff")}))


@each_version
def test_a_type_that_is_asked_for_is_a_change(client: Client) -> None:
    """What a client sends for the number too, in place of one that came by another type."""
    one, another = codec(client), ShortShortInt(5) if client.name == "aiormq" else LongInt(5)
    came, _ = one.read(raw(("F", {b"k": number("u", 5)}))[1:], 0)
    assert one.write(dict(came)) == one.write({"k": 5}) != one.write(came)
    came["k"] = another
    assert one.write(came) == one.write({"k": 5}) == dumps_table({"k": another})


@each_version
def test_times(client: Client, monkeypatch: pytest.MonkeyPatch) -> None:
    """In UTC, naive or aware as by the version, whatever zone the process has."""
    monkeypatch.setenv("TZ", "EAST-5")
    tzset()
    try:
        naive, zone = datetime(2027, 7, 15, 8, 0, 7), timezone.utc if client.is_aware else None
        values: list[Any] = [naive, datetime(2027, 7, 15, 10, 0, 7, tzinfo=timezone(timedelta(hours=2)))]
        values += [gmtime(timegm(naive.timetuple()))] if client.name == "aiormq" else []
        for it in values:
            data = codec(client).write({"t": it})
            assert b"F" + data == raw(("F", {b"t": number("T", 1_815_638_407)}))
            found = codec(client).read(data, 0)[0]["t"]
            assert found == naive.replace(tzinfo=zone) and found.tzinfo is zone
        for it in (datetime(1969, 12, 31, 23, 59, 59, 999999), datetime(1970, 1, 1, 5, tzinfo=EAST)):
            assert error_of(lambda: codec(client).write({"t": it})) in unwritten(client)
        assert codec(client).write({"t": datetime(1970, 1, 1, 5, 0, 2, tzinfo=EAST)})[-8:] == b"\0" * 7 + b"\1"
        seconds = (2**32 - 1, 2**32, 253402300799, 253402300800)
        for it in (*seconds, 1_800_000_000_123, 253402300799_999, 253402300800_000):
            data = raw(("F", {b"t": number("T", it)}))[1:]
            assert repr(codec(client).read(data, 0)[0]) == repr(seen(client, parsed(b"F" + data)[0]))
    finally:
        monkeypatch.undo()
        tzset()
