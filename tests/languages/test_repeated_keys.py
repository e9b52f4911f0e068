"""The Python package and the C library find the same repeated key: the package's own search is in C and isn't proved."""

from pathlib import Path
from random import Random

import amqp_values as own
from building import shared_object
from tests.c import c_api
from tests.model.encoding import extent, field
from tests.model.inputs import damaged, table_of, value_of
from tests.model.tables import odd_table, random_table, raw
from tests.values import own_error

COUNT = 100_000


def table(make: Random) -> bytes:
    """A table with its type tag. Many have equal keys, and some have keys of up to 255 bytes that differ only in the last one."""
    kind = make.randrange(5)
    if kind == 0:
        return raw(random_table(make))
    if kind == 1:
        return odd_table(make)
    if kind == 2:
        keys = (
            make.choice([b"k", b"l"]) * make.choice([30, 63, 254]) + make.choice([b"a", b"b", b"c"]) for _ in range(3)
        )
        return field(b"F", b"".join(bytes([len(key)]) + key + value_of(make, 1) for key in keys))
    inner = [table_of(make, [value_of(make, 1) for _ in range(make.randrange(4))]) for _ in range(3)]
    return table_of(make, inner if kind == 3 else [*inner, *(value_of(make, 2) for _ in range(3))])


def test_the_same_key_is_repeated(seed: int, tmp_path: Path) -> None:
    c_api.load(str(shared_object(tmp_path)))
    make, repeated, rejected = Random(seed), 0, 0
    for _ in range(COUNT):
        data = table(make)
        data = damaged(make, data) if make.random() < 0.2 else data
        data = data[: extent(data)]
        found = own_error(lambda: own.loads(data, keys="bytes", text="bytes", equal_keys="refuse"))
        if c_api.read(data, c_api.ANY_KEYS)[0] != c_api.OK:
            rejected += 1
            assert found and found[0] != "equal keys", data.hex()
            continue
        result, warned = c_api.warn(data, c_api.ANY_KEYS, c_api.MAX_DEPTH, 0, own.DEPTH)
        assert result == c_api.OK and warned
        at = warned["repeated_key"]
        repeated += at is not None
        assert found == (None if at is None else ("equal keys", at, 0)), data.hex()
    assert min(repeated, rejected) > COUNT // 20 and repeated + rejected < COUNT * 3 // 4
