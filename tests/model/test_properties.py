"""Properties of the model, by hypothesis: what it writes it reads back, also as JSON, and prefixes need more bytes.

Problems, and the places of values in an encoding, agree with what is read.
"""

import json
from random import Random

import pytest
from hypothesis import given
from hypothesis import strategies as st

from tests.model.json_format import json_of, text_for, value_of_json
from tests.model.encoding import TYPES, Unread, Value, read, write
from tests.model.tables import first_problem, places_of, raw, width_of

PLAIN = sorted({*TYPES} - set("ULtSxAF"))
KEYS = (st.text(max_size=5) | st.text("$a", max_size=5)).map(str.encode)


def contained(values: st.SearchStrategy[Value]) -> st.SearchStrategy[Value]:
    """Arrays and tables of values."""
    arrays = st.tuples(st.just("A"), st.lists(values, max_size=4))
    return arrays | st.tuples(st.just("F"), st.dictionaries(KEYS, values, max_size=4))


NUMBERS = st.sampled_from(PLAIN).flatmap(
    lambda tag: st.tuples(st.just(tag), st.binary(min_size=width_of(tag), max_size=width_of(tag)))
)
BOOLEANS = st.tuples(st.just("t"), st.sampled_from([b"\0", b"\1"]))
STRINGS = st.tuples(st.sampled_from("Sx"), st.binary(max_size=9) | KEYS)
VALUES = st.recursive(NUMBERS | BOOLEANS | STRINGS, contained, max_leaves=12)


def is_read_at_start(data: bytes) -> bool:
    try:
        read(data)
    except Unread:
        return False
    return True


@given(VALUES, st.binary(max_size=3))
def test_what_is_written_is_read_back(value: Value, rest: bytes) -> None:
    assert read(write(value) + rest) == (value, rest)


@given(VALUES)
def test_the_order_of_keys_means_nothing(value: Value) -> None:
    assert read(raw(value)) == (value, b"")
    assert write(read(raw(value))[0]) == write(value)


@given(VALUES)
def test_a_proper_prefix_needs_bytes(value: Value) -> None:
    data = write(value)
    for length in range(len(data)):
        with pytest.raises(Unread, match="^more ") as found:
            read(data[:length])
        assert 0 < int(str(found.value).removeprefix("more ")) <= len(data) - length


@given(VALUES, st.integers(0))
def test_json_means_its_value(value: Value, seed: int) -> None:
    for text in (json_of(value), text_for(Random(seed), value)):
        json.loads(text)
        assert value_of_json(text.encode()) == value


@given(VALUES)
def test_what_is_read_has_no_problem(value: Value) -> None:
    assert first_problem(write(value), "read") is None


@given(VALUES, st.data())
def test_rules_reject_what_is_not_read(value: Value, data: st.DataObject) -> None:
    changed = bytearray(write(value))
    at = data.draw(st.integers(0, len(changed) - 1))
    changed[at : at + data.draw(st.integers(0, 1))] = data.draw(st.binary(max_size=1))
    assert (first_problem(bytes(changed), "read", 2**32) is None) == is_read_at_start(bytes(changed))


@given(VALUES)
def test_places_are_the_bytes(value: Value) -> None:
    places = [at for _, place in places_of(write(value)) for at in place]
    assert places == [*range(len(write(value)))]
