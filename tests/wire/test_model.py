"""amqp_wire, as `rt ci` left it, against the model (tests/model), on damaged and random encodings."""

from collections import Counter
from collections.abc import Iterator
from random import Random

from tests.rows import bytes_of
from tests.rows import stored as rows_of
from tests.checks import built, run
from tests.model.encoding import write
from tests.model.stored_output import line
from tests.model.tables import EVERY_TYPE, odd_table, random_value
from tests.wire.answered import answers

# What takes the place of a byte: bounds, type tags, and bytes that are none and no UTF-8.
BYTES = b"\x00\x01\x04AFStxz\x7f\x80\xff"
COUNT = 2_000


def table_of_every_type() -> bytes:
    return write(EVERY_TYPE)


def damaged(data: bytes) -> Iterator[bytes]:
    """Yields each front of some bytes, and these with a byte replaced, at each place."""
    yield from (data[:n] for n in range(len(data) + 1))
    yield from (data[:at] + bytes([it]) + data[at + 1 :] for at in range(len(data)) for it in BYTES)


def mutated(make: Random, data: bytes) -> bytes:
    """Some bytes of which one is replaced, left out or doubled."""
    at = make.randrange(len(data))
    return data[:at] + make.choice([b"", data[at : at + 1] * 2, make.randbytes(1)]) + data[at + 1 :]


def random_encodings(make: Random) -> Iterator[bytes]:
    """Yields encodings of random values and of odd tables, each also mutated and with bytes behind it."""
    for _ in range(COUNT):
        for data in (write(random_value(make, 4)), odd_table(make)):
            yield from (data, mutated(make, data), data + make.randbytes(2))


def assert_lines(given: list[bytes]) -> None:
    """The program prints of each the line that the model does."""
    done = run([built("amqp_wire")], input="".join(f"{it.hex()}\n" for it in given))
    assert (done.returncode, done.stderr) == (0, "")
    printed = zip(given, done.stdout.splitlines(), strict=True)
    others = [(it.hex(), said, line(it.hex())) for it, said in printed if said != line(it.hex())]
    assert not others, f"{len(others)} lines; the first is of, is, and is predicted: {others[0]}"


def test_fronts_and_replaced_bytes() -> None:
    assert_lines([*damaged(table_of_every_type())])


def test_replaced_bytes_of_a_stored_table() -> None:
    """What is a value then is written into as many bytes as were read, and read back: if not, test_calls answers `ok not ..`."""
    (stored,) = [it for it, _ in rows_of("canonical.calls") if it.startswith("wire_sizes 46000000c2")]
    data = bytes_of(stored.partition(" ")[2])
    given = [data[:at] + bytes([it]) + data[at + 1 :] for at in range(len(data)) for it in b"\x00z\xff"]
    said = [answer for _, answer in answers([f"wire {it.hex()}" for it in given])]
    assert not [it for it in said if it.startswith("ok not")]
    assert Counter(it.split(" ")[0] for it in said) == {"ok": 344, "more": 7, "error": 246}
    assert_lines(given)


def test_random_encodings(seed: int) -> None:
    assert_lines([*random_encodings(Random(seed))])
