"""The verdicts of `amqp_show --check` are what the broker does: with the connection, and with the channel.

Random tables are published as headers, some with CC or BCC, and tables near the largest that a frame has room for.
"""

import re
import subprocess
from collections import Counter
from collections.abc import Iterator
from pathlib import Path
from random import Random

import pytest

from tests.model.encoding import extent, field
from tests.model.tables import CHANGES, mutated_table, odd_table, random_value, raw
from tests.rabbitmq.broker import ROOTS, Broker
from tests.rabbitmq.wire import Closed

pytestmark = [pytest.mark.needs("broker"), pytest.mark.whole]
COUNT = 1500
# The most bytes of headers, without other properties, and how many more and fewer are tried.
MOST, AROUND = 131_058, range(-3, 4)
LINE = re.compile(rb"(?ms)(.*?)^= line (\d+): ([^\n]*)\n")


def table(make: Random) -> bytes:
    """A table with its type tag, in every fifth one of which a first pair is a route."""
    data = odd_table(make) if make.random() < 0.5 else mutated_table(make, make.choice(CHANGES))
    # (the page and the program say of bytes that follow that they do)
    data = data[: extent(data)]
    if make.random() < 0.2 and len(data) >= 5:
        route = make.choice([b"\2CC", b"\3BCC"]) + raw(random_value(make, 2))
        data = data[:1] + (int.from_bytes(data[1:5], "big") + len(route)).to_bytes(4, "big") + route + data[5:]
    return data


def tables(make: Random) -> Iterator[bytes]:
    # (a line that is empty has no table)
    yield from (it for it in (table(make) for _ in range(COUNT)) if len(it) > 1)
    for more in AROUND:
        yield field(b"F", b"\1kx" + (MOST + more - 11).to_bytes(4, "big") + bytes(MOST + more - 11))


def verdicts(program: Path, version: str, given: list[bytes]) -> Iterator[str]:
    """What amqp_show says of each table, without its type tag."""
    words: list[str | Path] = [program, "--lines", "--table", "--max-bytes", "4294967295", "--depth", "1000"]
    words += ["--check", f"rabbitmq-{version.rpartition('.')[0]}"]
    text = b"".join(it[1:].hex().encode() + b"\n" for it in given)
    said = LINE.findall(subprocess.run(words, input=text, capture_output=True).stdout)
    assert [int(number) for _, number, _ in said] == [*range(1, len(given) + 1)]
    for before, _, verdict in said:
        if b"closes the connection" in verdict:
            yield "connection"
        else:
            assert b"accepts it" in verdict, verdict
            yield "channel" if b"closes the channel (406)" in before else "accepted"


def closed_by(broker: Broker, headers: bytes) -> str:
    """What the broker closes when a message with these headers is published."""
    try:
        connection = broker.connection()
        connection.publish("", "none", headers)
        connection.close()
    except Closed as why:
        return why.what
    return "accepted"


@pytest.mark.parametrize("version", ROOTS)
def test_verdicts(version: str, program: Path, tmp_path: Path, seed: int) -> None:
    given = [*tables(Random(seed))]
    with Broker(tmp_path, version, None) as broker:
        closed = [closed_by(broker, it) for it in given]
    found, wrong = Counter[str](), list[str]()
    for data, verdict, by_broker in zip(given, verdicts(program, version, given), closed, strict=True):
        found[verdict] += 1
        wrong += [f"{data.hex():.200}: {verdict}, {by_broker}"] if verdict != by_broker else []
    assert not wrong, f"{len(wrong)}, as {wrong[:3]}"
    assert min(found[it] for it in ("connection", "channel", "accepted")) > COUNT // 20, found
