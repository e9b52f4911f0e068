"""Compares the Python package and the model with a running RabbitMQ and its clients.

RabbitMQ runs in a fresh folder, on free ports of 127.0.0.1, in each version that --rabbitmq names. make setup installs the
brokers and the clients.

- Random tables come back equal, by the package and by the reader of the model: untouched, and read and written by the broker's
  own codec, which a header BCC and dead-lettering have it do. --tables sets their number.
- What the broker and its clients write is read as meant: x-death, a quorum queue, a trace, a shovel, a federation link,
  amqp-publish. What the package writes the broker sees as meant: client-properties, and the arguments of queues, bindings and
  consumers.
- The broker closes the connection for the tables in which the package and the model find something, and for no others.
  What it does with the others is as docs/INTEROP.md states for each version, predicted by VERSIONS of the model's tables.py.
"""

import subprocess
import time
from collections import Counter
from collections.abc import Callable, Sequence
from concurrent.futures import ThreadPoolExecutor
from random import Random
from typing import Any

import amqp_values as own
import pytest

from tests.model.encoding import Unread, Value, extent, field, read, write
from tests.model.inputs import nested
from tests.model.tables import CHANGES, EVERY_TYPE, INFINITY, INTEGERS, NAN, NO_TAG, PLAIN, ROWS, VERSIONS
from tests.model.tables import Problem, Version
from tests.model.tables import container_of, decimal, delivered, erlang, first_problem, float_of, integer_of, is_read
from tests.model.tables import matches, mutated_table, number, odd_table, parts, random_key, random_table, random_value
from tests.model.tables import raw, rewritten, row_of, sorted_by_key, streamed, table, text, types_in
from tests.rabbitmq.broker import TRACED, Broker
from tests.rabbitmq.found import PATIENCE, arguments, awaited, built, closed_by, dead_lettered, dying
from tests.rabbitmq.found import is_now, loaded, of, value_at, without
from tests.rabbitmq.wire import EMPTY, FRAME_MAX, Closed, Connection, Message, Property
from tests.values import form

BATCH, ODD, ROUTED, STREAMED, ELSEWHERE = 200, 2000, 300, 500, 200
EMPTY_TEXT, VOID, EVERY = text(""), ("V", b""), built(EVERY_TYPE)
# Notes a row of what a version does.
Saw = Callable[[str, object], None]


def none_of(wrong: Sequence[Any]) -> str:
    """How many are wrong, and the first of them; nothing if none is."""
    return f"{len(wrong)}, of which the first is {str(wrong[0])[:600]}" if wrong else ""


# Random tables


# How a table is sent: the queue to which it goes, and those to which it comes.
WAYS = {
    "as built": ("as built", ["as built"]),
    "with BCC": ("as built", ["as built", "copied"]),
    "dead-lettered": ("dead", ["back"]),
}


def with_copy(make: Random, value: Value) -> bytes:
    """The table, and in it a header that has the broker send a copy to a queue."""
    entries = [*value[1].items()]
    entries.insert(make.randrange(len(entries) + 1), (b"BCC", ("A", [text("copied")])))
    return built(("F", dict(entries)))


@pytest.fixture(scope="session")
def tables(request: pytest.FixtureRequest, seed: int) -> list[tuple[Value, bytes]]:
    """Tables, the first of every type, each with its encoding as the package writes it."""
    make = Random(seed)
    values = [EVERY_TYPE, *(random_table(make) for _ in range(request.config.getoption("--tables") - 1))]
    return [(value, built(value)) for value in values]


@pytest.fixture
def consumers(connection: Connection) -> dict[bytes, str]:
    """The queues to which tables come back, by their consumers."""
    for it in ("as built", "copied", "back"):
        connection.queue(it)
    connection.queue("dead", arguments(**dying("back")))
    return {connection.consume(it): it for it in ("as built", "copied", "back")}


@pytest.mark.parametrize("name", WAYS)
def test_tables_come_back_equal(
    name: str, broker: Broker, connection: Connection, consumers: dict[bytes, str], tables: list[tuple[Value, bytes]],
    make: Random, notes: list[str],
) -> None:  # fmt: skip
    (queue, back), tried, wrong = WAYS[name], 0, list[str]()
    for begin in range(0, len(tables), BATCH):
        batch = tables[begin : begin + BATCH]
        sent = [with_copy(make, value) if name == "with BCC" else data for value, data in batch]
        frames = [connection.message("", queue, it, {"message_id": f"{at}"}) for at, it in enumerate(sent)]
        connection.write(b"".join(frames))
        came: dict[str, list[Message]] = {it: [] for it in back}
        for _ in range(len(batch) * len(back)):
            message = connection.delivery()
            came[consumers[message.consumer]].append(message)
        for messages in came.values():
            tried += len(messages)
            for at, ((value, data), message) in enumerate(zip(batch, messages, strict=True)):
                is_mine = message.properties["message_id"] == b"%d" % at
                wrongly = differs(broker.version, name, value, data, message.headers) if is_mine else "another message"
                wrong += [f"{data.hex()}: {wrongly}"] if wrongly else []
    notes.append(f"tables {name} come back equal: {tried - len(wrong)} of {tried}")
    assert tried and none_of(wrong) == ""


def differs(version: str, name: str, value: Value, data: bytes, back: bytes) -> str:
    """What differs in a table that came back, by the package and by the reader of the model."""
    if name == "as built" and back != delivered(version, data):
        return back.hex()
    try:
        if name == "dead-lettered":
            if value_at(back, b"x-death", 0, b"reason") != text("expired"):
                return f"{back.hex()}, without x-death"
            back = without(back, *VERSIONS[version].deaths)
        return "" if form(loaded(back)) == value and read(back) == (value, b"") else back.hex()
    except (own.Error, Unread) as why:
        return f"{back.hex()}, {why}"


def test_every_type_is_sent(tables: list[tuple[Value, bytes]], notes: list[str]) -> None:
    types = Counter(it for value, _ in tables for it in types_in(value))
    notes.append("values sent by type: " + ", ".join(f"{tag} {types[tag]}" for tag in sorted(types, key=str.lower)))
    assert {*PLAIN, "A", "F"} <= types.keys()


# What the broker writes


def test_deaths(connection: Connection) -> None:
    """A message that expires in one queue and is rejected from another, four times."""
    connection.exchange("again", "direct")
    connection.queue("first", arguments(**dying("work", after=1)))
    connection.queue("work", arguments(**dead_lettered("first", exchange="again")))
    connection.bind("first", "again", "first")
    connection.publish("", "first", arguments(mine=number("s", 5)))
    for count in range(1, 5):
        message = awaited(connection, "work", keeps=True)
        data, at = message.headers, (b"x-death", 0)
        assert value_at(data, *at, b"count") == number("l", count)
        found = [value_at(data, *at, it) for it in (b"queue", b"reason", b"exchange")]
        assert found == [text("first"), text("expired"), EMPTY_TEXT]
        assert value_at(data, *at, b"routing-keys", 0) == text("first")
        assert is_now(value_at(data, *at, b"time"))
        if count == 1:
            assert value_at(data, b"x-death", 1) is None
        else:
            found = [value_at(data, b"x-death", 1, it) for it in (b"queue", b"reason", b"count")]
            assert found == [text("work"), text("rejected"), number("l", count - 1)]
        assert value_at(data, b"mine") == number("s", 5)
        connection.reject(message)


def test_quorum_queue(connection: Connection, rules: Version, saw: Saw) -> None:
    """A quorum queue counts how often it delivered a message."""
    limit = arguments(x_queue_type=text("quorum"), x_delivery_limit=number("I", 2), **dead_lettered("limited"))
    connection.queue("limited")
    connection.queue("quorum", limit, is_durable=True)
    connection.publish("", "quorum", arguments(mine=VOID))
    counts = []
    for count in range(3):
        message = awaited(connection, "quorum", keeps=True)
        found = value_at(message.headers, b"x-delivery-count")
        assert found == (number("l", count) if count else rules.first_delivery)
        counts.append("none" if found is None else integer_of(found))
        connection.reject(message, goes_back=True)
    saw("x-delivery-count of the first deliveries from a quorum queue", counts)
    data = awaited(connection, "limited").headers
    deaths = [value_at(data, b"x-death", 0, it) for it in (b"reason", b"queue", b"count")]
    assert deaths == [text("delivery_limit"), text("quorum"), number("l", 1)]
    assert value_at(data, b"mine") == VOID


# What has been delivered as often as this is delivered for ever.
FOR_EVER = 30


@pytest.mark.parametrize("way", ["reject", "nack", "connection lost"])
@pytest.mark.parametrize("kind", ["classic", "quorum", "quorum -1", "quorum 2"])
def test_redelivery(kind: str, way: str, broker: Broker, rules: Version) -> None:
    """How often a message is delivered to consumers that put it back, or lose their connection over it."""
    queue, dead, connection = f"{kind} {way}", f"dead {kind} {way}", broker.connection()
    connection.queue(dead)
    name, _, limit = kind.partition(" ")
    limited = {"x_delivery_limit": number("I", int(limit))} if limit else {}
    connection.queue(queue, arguments(x_queue_type=text(name), **limited, **dead_lettered(dead)), is_durable=True)
    connection.publish("", queue)
    count, until = 0, time.time() + PATIENCE
    while count < FOR_EVER and not connection.get(dead) and time.time() < until:
        if message := connection.get(queue, keeps=True):
            assert message.is_again == (count > 0)
            count += 1
            if way == "connection lost":
                connection.drop()
                connection = broker.connection()
            else:
                connection.reject(message, goes_back=True, by_nack=way == "nack")
    assert count == (rules.deliveries[kind] or FOR_EVER)
    connection.close()


def test_trace(broker: Broker) -> None:
    """What the broker reports of a message that is published and delivered."""
    connection = broker.connection(vhost=TRACED)
    connection.queue("plain")
    connection.queue("reports")
    for key in ("publish.#", "deliver.plain"):
        connection.bind("reports", "amq.rabbitmq.trace", key)
    connection.publish("", "plain", EVERY, {"priority": 3, "content_type": "text/plain"})
    connection.get("plain")
    for wanted in ("publish.", "deliver.plain"):
        message = awaited(connection, "reports")
        report = message.headers
        assert message.key.decode() == wanted
        assert value_at(report, b"exchange_name") == EMPTY_TEXT
        assert value_at(report, b"routing_keys", 0) == text("plain")
        assert value_at(report, b"properties", b"content_type") == text("text/plain")
        assert value_at(report, b"properties", b"headers") == EVERY_TYPE
        priority = value_at(report, b"properties", b"priority")
        assert priority and integer_of(priority) == 3
    connection.close()


def test_shovel(connection: Connection) -> None:
    for name in ("shovel from", "shovel to"):
        connection.queue(name, is_durable=True)
    connection.publish("", "shovel from", EVERY)
    moved = awaited(connection, "shovel to").headers
    names = (b"src-queue", b"dest-queue", b"shovel-type", b"shovel-name")
    found = [value_at(moved, b"x-shovelled", 0, it) for it in names]
    assert found == [text(it) for it in ("shovel from", "shovel to", "dynamic", "moving")]
    assert is_now(value_at(moved, b"x-shovelled-timestamp"), "l")
    assert form(loaded(without(moved, b"x-shovelled", b"x-shovelled-timestamp"))) == EVERY_TYPE


def test_federation(connection: Connection) -> None:
    for name in ("upstream", "downstream"):
        connection.exchange(name, "fanout")
    connection.queue("federated")
    connection.bind("federated", "downstream")
    again = lambda: connection.publish("upstream", "", EVERY)
    moved = awaited(connection, "federated", repeats=again).headers
    found = [value_at(moved, b"x-received-from", 0, it) for it in (b"exchange", b"redelivered", b"vhost")]
    assert found == [text("downstream"), number("t", 0), text("/")]
    assert form(loaded(without(moved, b"x-received-from"))) == EVERY_TYPE


# What the broker reads

# What it has, in Erlang: properties of clients, and arguments of queues, bindings and consumers.
SEEN = """
    P = [P || [{client_properties, P}] <- R(rabbit_networking, connection_info_all, [[client_properties]]),
         lists:keymember(<<"boolean">>, 1, P)],
    Q = [{N, A} || [{name, {_, _, _, <<"seen", _/binary>> = N}}, {arguments, A}]
         <- R(rabbit_amqqueue, info_all, [<<"/">>, [name, arguments]])],
    B = [A || {binding, {_, _, _, <<"seen">>}, _, _, A} <- R(rabbit_binding, list, [<<"/">>])],
    C = [V || C <- R(rabbit_amqqueue, consumers_all, [<<"/">>]),
         lists:member({consumer_tag, <<"seen">>}, C), {arguments, V} <- C],
    io:format("~w~n~w~n~w~n~w~n", [P, lists:sort(Q), B, C])"""


def test_what_is_built_is_seen(broker: Broker, rules: Version) -> None:
    """The properties of both sides, and the arguments of queues, bindings and consumers, as the broker sees them."""
    connection = broker.connection(client_properties=EVERY)
    queues: dict[str, Value] = {}
    for tag in INTEGERS:
        for at, key in enumerate((b"x-max-length", b"x-max-length-bytes", b"x-message-ttl", b"x-max-priority")):
            given = {key: number(tag, 100 + at)}
            queues[connection.queue(f"seen {tag} {key.decode()}", built(("F", given)))] = "F", given | rules.queue
    connection.exchange("seen", "headers")
    connection.queue("bound")
    connection.bind("bound", "seen", "", EVERY)
    connection.consume("bound", EVERY, "seen")
    of_clients, of_queues, of_bindings, of_consumers = broker.asked(" ".join(SEEN.split())).split("\n")
    assert of_clients == f"[{erlang(EVERY_TYPE)}]"
    named = [f"{{{erlang(text(name))},{erlang(value)}}}" for name, value in sorted(queues.items())]
    assert of_queues == f"[{','.join(named)}]"
    assert of_bindings == f"[{erlang(('F', dict(sorted(EVERY_TYPE[1].items()))))}]"
    assert of_consumers == f"[{erlang(EVERY_TYPE)}]"
    connection.close()


def test_arguments_of_every_integer_type(connection: Connection) -> None:
    """The broker acts by them."""
    connection.exchange("by number", "headers")
    connection.queue("in turn")
    connection.consume("in turn", consumer="none")
    for tag in INTEGERS:
        name = f"at most 3, by {tag}"
        connection.queue(name, arguments(x_max_length=number(tag, 3)))
        connection.bind(name, "by number", "", arguments(k=number(tag, 5)))
    for count in range(5):
        connection.publish("by number", "", arguments(k=number("I", 5), count=number("I", count)))
    for tag in INTEGERS:
        left = []
        while message := connection.get(f"at most 3, by {tag}"):
            left.append(loaded(message.headers)["count"])
        assert left == [2, 3, 4], tag
        consumer = connection.consume("in turn", arguments(x_priority=number(tag, 5)), f"by {tag}")
        connection.publish("", "in turn")
        assert connection.delivery().consumer == consumer, tag
        connection.cancel(consumer)


NO_LENGTHS = {
    "T": number("T", 3), "d": float_of("d", 3), "D": decimal(0, 3), "S": text("3"), "t": number("t", 1), "V": VOID,
}  # fmt: skip


@pytest.mark.parametrize("tag", NO_LENGTHS)
def test_other_types_are_no_length(tag: str, broker: Broker) -> None:
    length = arguments(x_max_length=NO_LENGTHS[tag])
    assert closed_by(broker, lambda it: it.queue("", length)) == ("channel", 406)


# What it closes the connection for


class Publisher:
    """Publishes tables as headers, over a new connection if the broker has closed the one before."""

    def __init__(self, broker: Broker, queue: str, exchange: str = "", is_stream: bool = False) -> None:
        self.broker, self.queue, self.exchange, self.is_stream = broker, queue, exchange, is_stream
        self.connection: Connection | None = None

    def opened(self) -> Connection:
        connection = self.broker.connection()
        if self.is_stream:
            connection.consume(self.queue, arguments(x_stream_offset=text("next")), at_once=1)
        return connection

    def outcome(self, data: bytes) -> tuple[str, int] | bytes:
        """What the broker closes, and why, when a table is published; or else the headers that it delivers."""
        self.connection = self.connection or self.opened()
        try:
            self.connection.publish(self.exchange, self.queue, data)
        except Closed as why:
            self.connection.drop()
            self.connection = None
            return why.what, why.code
        if not self.is_stream:
            return awaited(self.connection, self.queue).headers
        message = self.connection.delivery()
        self.connection.acknowledge(message)
        return without(message.headers, b"x-stream-offset")

    def close(self) -> None:
        if self.connection:
            self.connection.close()


def row_in(data: bytes, problem: Problem | None) -> str:
    """What kind of table it is, by its first problem, and the container of that."""
    if problem:
        return f"{row_of(data, problem)} in {container_of(data)}"
    return "none" if is_read(data) else "none, unread here"


def is_loaded(data: bytes, **options: Any) -> bool:
    """Whether the package reads it."""
    try:
        loaded(data, **options)
    except own.Error:
        return False
    return True


def wrong_reading(data: bytes, problem: Problem | None) -> bool:
    """Whether the package reads what the model doesn't, or the other way round; also with keys of any bytes, as RabbitMQ does."""
    is_taken = not problem and extent(data[:5]) == len(data)
    # (the package knows the tag U)
    is_alike = problem is not None and chr(problem[2]) == "U" or is_taken == is_loaded(data, keys="bytes", finite=True)
    return is_read(data) != is_loaded(data) or not is_alike


def mutated(make: Random) -> bytes:
    return mutated_table(make, make.choice(CHANGES))


# What makes tables, and what kinds of them there are at least, by row_in.
IN_ODD = [f"{row} in {tag}" for row in ROWS for tag in "AF" if (row, tag) != ("key cut", "A")]
MADE = {
    "random": (odd_table, [*IN_ODD, "none", "none, unread here"]),
    "mutated": (mutated, ["value cut in ", "value cut in F", "key cut in F", "none, but bytes follow", "none"]),
}


@pytest.mark.parametrize("name", MADE)
def test_odd_headers(name: str, broker: Broker, connection: Connection, make: Random, notes: list[str]) -> None:
    """What the package and the model call a problem closes the connection. What they pass is delivered as the model predicts.
    The connection is also closed for a table that bytes follow, which is no problem of the table's.
    """
    connection.exchange(name, "fanout")
    for queue in (f"{name} delivered", f"{name} kept"):
        connection.bind(connection.queue(queue), name)
    made, kinds = MADE[name]
    publisher, rows = Publisher(broker, f"{name} delivered", name), Counter[str]()
    of_broker, of_package = list[str](), list[str]()
    for _ in range(ODD):
        data = made(make)
        problem, follows = first_problem(data), extent(data[:5]) < len(data)
        wanted = ("connection", 541) if problem or follows else delivered(broker.version, data)
        found = publisher.outcome(data)
        of_broker += [f"{data.hex()}: {found!r}, not {wanted!r}"] if found != wanted else []
        of_package += [data.hex()] if wrong_reading(data, problem) else []
        rows["none, but bytes follow" if follows and not problem else row_in(data, problem)] += 1
    publisher.close()
    notes.append(f"{name} tables by their first problem: " + ", ".join(f"{it} {rows[it]}" for it in sorted(rows)))
    assert (none_of(of_broker), none_of(of_package)) == ("", "")
    assert not [it for it in kinds if rows[it] < ODD / 200]
    # as many as the broker took
    assert connection.count(f"{name} kept") == rows["none"] + rows["none, unread here"]


# What is done with a table, except headers.
ACTS: dict[str, Callable[[Connection, bytes], object]] = {
    "queue.declare": lambda connection, data: connection.queue("", data),
    "queue.bind": lambda connection, data: connection.bind("closing", "closing", "", data),
    "basic.consume": lambda connection, data: connection.consume("closing", data),
}
# Tables with something wrong in them; and one with L, another true and a key that isn't UTF-8, which the broker takes.
WRONG = [field(b"F", b"\1a" + it) for it in (*NAN, *INFINITY, b"U\0\1", *NO_TAG, b"I\0", b"")]
TAKEN = field(b"F", b"\1aL" + b"\xff" * 8 + b"\1bt\7\1\xffV")


@pytest.mark.parametrize("name", ACTS)
def test_odd_tables_in_methods(name: str, broker: Broker, connection: Connection, make: Random) -> None:
    """The socket is closed with no reason. If a table's length counts other bytes than are there, the method is cut or too
    long, which closes the connection.
    """
    connection.queue("closing")
    connection.exchange("closing", "headers")
    assert all(map(first_problem, WRONG)) and not first_problem(TAKEN)
    wrong = []
    for data in (*WRONG, TAKEN, *(mutated(make) for _ in range(ELSEWHERE))):
        is_cut = extent(data[:5]) != len(data)
        wanted = ("connection", 501) if is_cut else ("socket", 0) if first_problem(data) else None
        found = closed_by(broker, lambda it: ACTS[name](it, data))
        wrong += [f"{data.hex()}: {found}, not {wanted}"] if found != wanted else []
    assert none_of(wrong) == ""


def test_wrong_client_properties(broker: Broker) -> None:
    """The socket is closed with no reason, three seconds later."""
    with ThreadPoolExecutor(len(WRONG)) as pool:
        found = pool.map(lambda it: closed_by(broker, lambda _: None, client_properties=it), WRONG)
        assert [*found] == [("socket", 0)] * len(WRONG)


# What it does otherwise


def received(connection: Connection, queue: str) -> list[int]:
    """The numbers of the messages that are in a queue."""
    found = []
    while message := connection.get(queue):
        found.append(int(message.properties["message_id"]))
    return found


def test_repeated_headers_are_routed(connection: Connection, rules: Version, make: Random, saw: Saw) -> None:
    """By the first one, or by the last."""
    numbers, repeated = range(5), 0
    connection.exchange("first", "headers")
    for it in numbers:
        connection.queue(f"first {it}")
        connection.bind(f"first {it}", "first", "", arguments(k=number("I", it)))
    wanted: dict[int, list[int]] = {it: [] for it in numbers}
    for at in range(ROUTED):
        pairs = [(make.choice([b"k", b"k", b"a", b"z"]), make.randrange(5)) for _ in range(make.randrange(1, 6))]
        data = of(*((key, number("I", it)) for key, it in pairs))
        if "k" in loaded(data):
            found = own.find(data, "k", equal_keys="first"), own.find(data, "k")
            wanted[found[rules.routes_by]].append(at)
            repeated += found[0] != found[1]
        connection.publish("first", "", data, {"message_id": f"{at}"})
    for it in numbers:
        assert sorted(received(connection, f"first {it}")) == wanted[it]
    assert repeated >= ROUTED / 5
    saw("a repeated header, by which a headers exchange routes", "the last" if rules.routes_by else "the first")


def test_repeated_arguments_of_a_binding(connection: Connection, rules: Version, saw: Saw) -> None:
    """By x-match: any only the first can match, or each."""
    connection.exchange("any", "headers")
    connection.queue("bound by any")
    numbers = [1, 2, 3]
    given = [*((b"k", number("I", it)) for it in numbers), (b"x-match", text("any"))]
    connection.bind("bound by any", "any", "", of(*given))
    for it in numbers:
        connection.publish("any", "", arguments(k=number("I", it)), {"message_id": f"{it}"})
    found = received(connection, "bound by any")
    saw("k: 1, k: 2, k: 3 in a binding, x-match any, matches", found)
    assert found == numbers[rules.compares]


def test_the_first_of_equal_arguments(connection: Connection, saw: Saw) -> None:
    connection.queue("two", of(*((b"x-max-length", number("I", it)) for it in (2, 3))))
    for _ in range(5):
        connection.publish("", "two")
    saw("x-max-length 2 and 3 of a queue with 5 messages leaves", connection.count("two"))
    assert connection.count("two") == 2


def test_the_first_of_equal_headers(connection: Connection, saw: Saw) -> None:
    queues = ("sent to", "copied first", "copied last")
    for it in queues:
        connection.queue(it)
    connection.publish("", "sent to", of(*((b"BCC", ("A", [text(it)])) for it in queues[1:])))
    found = [connection.count(it) for it in queues]
    saw("BCC twice, messages in the queue and in both copies", found)
    assert found == [1, 1, 0]


# An argument and a header, by what is said of them.
PAIRED = {
    "an integer and a float of its value": (number("I", 5), float_of("d", 5.0)),
    "an integer and a Timestamp of its value": (number("I", 5), number("T", 5)),
    "0.0 and -0.0": (float_of("d", 0.0), float_of("d", -0.0)),
    "Void and a Timestamp": (VOID, number("T", 5)),
}


def compared() -> list[Value]:
    """Values of which some are equal to a headers exchange."""
    numbers = [number(tag, it) for tag in INTEGERS for it in (0, 5)] + [number(tag, -1) for tag in "bsIl"]
    numbers += [float_of(tag, it) for tag in "fd" for it in (0.0, -0.0, 5.0, 1.5)]
    numbers += [number("T", 5), decimal(0, 5), number("t", 0), number("t", 1), VOID]
    strings = [text("5"), ("x", b"5"), EMPTY_TEXT, ("x", b"")]
    nested = [number("I", 5), number("l", 5), number("T", 5), float_of("d", 0.0), float_of("d", -0.0)]
    arrays: list[Value] = [("A", []), *(("A", [it]) for it in nested)]
    five, empty = number("I", 5), EMPTY_TEXT
    tables = [table(), table(a=five), table(a=number("l", 5)), table(a=five, b=empty), table(b=empty, a=five)]
    return [*numbers, *strings, *arrays, *tables]


def test_equality(broker: Broker, connection: Connection, notes: list[str], saw: Saw) -> None:
    """Which values a headers exchange takes for equal."""
    values, wrong, equal_here, seen = compared(), [], 0, set()
    connection.exchange("equal", "headers")
    for at, value in enumerate(values):
        connection.queue(f"equal {at}")
        connection.bind(f"equal {at}", "equal", "", arguments(k=value))
    for at, value in enumerate(values):
        connection.publish("equal", "", arguments(k=value), {"message_id": f"{at}"})
    for at, argument in enumerate(values):
        found = {*received(connection, f"equal {at}")}
        wanted = {it for it, header in enumerate(values) if matches(broker.version, argument, header)}
        wrong += [f"{argument} and {values[it]}" for it in found ^ wanted]
        seen |= {(raw(argument), raw(values[it])) for it in found}
        equal_here += sum((it in found) == (write(argument) == write(header)) for it, header in enumerate(values))
    for what, (argument, header) in PAIRED.items():
        saw(f"a headers exchange matches {what}", (raw(argument), raw(header)) in seen)
    notes.append(f"of {len(values) ** 2} pairs equal there exactly if equal here: {equal_here}")
    assert none_of(wrong) == ""


# Entries that the broker writes otherwise: another true, L, an empty key, a key twice.
PAIRS = b"\1bt\7" + b"\1aL" + b"\xff" * 8 + b"\0V" + b"\1a" + write(float_of("d", -0.0))


def test_headers_of_a_delivery(broker: Broker, connection: Connection, saw: Saw) -> None:
    """The published bytes, or keys in order, each of them once, with L and another true as l and 1."""
    connection.queue("plain headers")
    given = {"b, a": b"\1bV\1aV", "L, true as 7": b"\1aL" + bytes(8) + b"\1bt\7", "k twice": b"\1kt\0\1kV"}
    given["k twice in k"] = b"\1k" + field(b"F", given["k twice"])
    for name, body in given.items():
        data = field(b"F", body)
        connection.publish("", "plain headers", data)
        found = awaited(connection, "plain headers").headers
        saw(f"headers {name}", "byte for byte" if found == data else found.hex())
        assert found == delivered(broker.version, data)


def test_what_is_rewritten(broker: Broker, connection: Connection) -> None:
    """Where a header BCC is removed, L and another true are written l and 1."""
    for it in ("to", "copy"):
        connection.queue(it)
    connection.publish("", "to", field(b"F", PAIRS + b"\3BCC" + write(("A", [text("copy")]))))
    wanted = delivered(broker.version, rewritten(field(b"F", PAIRS)))
    assert [awaited(connection, it).headers for it in ("copy", "to")] == [wanted] * 2


def test_dead_lettering_puts_keys_in_order(broker: Broker, connection: Connection, rules: Version, saw: Saw) -> None:
    connection.queue("in order")
    connection.queue("disordered", arguments(**dying("in order")))
    data = field(b"F", b"\1zV" + PAIRS)
    connection.publish("", "disordered", data)
    found = [*parts(awaited(connection, "in order").headers)]
    keys = [key[1:] for key, _ in found]
    deaths = [it.decode() for it in keys if b"death" in it]
    saw("dead-lettering adds", ", ".join(deaths))
    assert keys == sorted(keys) and {*rules.deaths} == {it.encode() for it in deaths}
    kept = b"".join(key + it for key, it in found if key[1:] not in rules.deaths)
    assert field(b"F", kept) == sorted_by_key(broker.version, data)


def test_deaths_of_a_client(connection: Connection, rules: Version, saw: Saw) -> None:
    """Whether dead-lettering counts on from the x-death of a message that a client publishes, as one that retries does."""
    connection.queue("dead again")
    connection.queue("retried", arguments(**dying("dead again")))
    headers, counts = arguments(mine=VOID), []
    for count in (1, 2, 3):
        connection.publish("", "retried", headers)
        headers = awaited(connection, "dead again").headers
        found = value_at(headers, b"x-death", 0, b"count")
        assert found == number("l", count if rules.counts_on else 1)
        counts.append(integer_of(found))
    saw("counts in x-death of a message that is published again", counts)
    connection.publish("", "dead again", headers)
    assert awaited(connection, "dead again").headers == headers


FILTER = b"x-stream-filter-value"
# Of Timestamps, the last that 64 bits have in milliseconds, and others at edges.
MOST = 2**63 // 1000
TIMES = (0, MOST, MOST + 1, (2**64 - 1) // 1000, 2**63 - 1, 2**63, 2**64 - MOST, 2**64 - 1)


def for_streams() -> list[bytes]:
    """Tables with what streams treat otherwise."""
    values = [raw(it) for it in (*EVERY_TYPE[1].values(), number("t", 7), ("S", b"\xff"), ("x", b""))]
    values += [b"L" + b"\xff" * 8, *(raw(number("T", it)) for it in TIMES)]
    tried = [of((key, it)) for it in values for key in (b"k", b"x-k", FILTER)]
    values += [raw(("A", [decimal(2, 314)])), raw(table(k=decimal(0, 0), t=number("T", 2**63 - 1)))]
    tried += [of((key, field(b"A", it))) for it in values for key in (b"x-k", b"x-death", b"CC")]
    tried += [of((key, field(b"F", b"\1k" + it))) for it in values for key in (b"k", b"x-k")]
    tried += [of((b"z", it), (b"a", VOID), (b"z", number("I", 1))) for it in values]
    tried += [of((FILTER, it)) for it in (text("a\0"), text("ä" * 2048), text("ä" * 2048 + "a"))]
    tried += [of((FILTER, a), (FILTER, b)) for a, b in [(text("a"), VOID), (VOID, text("a"))]]
    return [*tried, field(b"F", PAIRS + b"\1\xffV\3x-aV"), of((b"x-death", VOID))]


# Headers of one or two pairs, by what is said of them.
NAMED = {
    "a decimal": of((b"k", decimal(2, 314))),
    "an array": of((b"k", ("A", [VOID]))),
    "a table": of((b"k", table(a=VOID))),
    "an array of x-k": of((b"x-k", ("A", [VOID]))),
    "an array of CC": of((b"CC", ("A", [VOID]))),
    "an array of x-death": of((b"x-death", ("A", [VOID]))),
    "a decimal in an array of x-k": of((b"x-k", ("A", [decimal(2, 314)]))),
    "a decimal in an array of k": of((b"k", ("A", [decimal(2, 314)]))),
    "a Byte Array": of((b"k", ("x", b"a"))),
    "a key twice": of((b"k", text("a")), (b"k", text("b"))),
    "a Timestamp": of((b"k", number("T", TIMES[1]))),
    "a later Timestamp": of((b"k", number("T", TIMES[2]))),
    "x-stream-filter-value that is text": of((FILTER, text("a"))),
    "x-stream-filter-value that isn't": of((FILTER, number("I", 1))),
}


def annotated_table(make: Random) -> bytes:
    """A table of which some keys begin with x-, or are those that streams know."""
    known = (b"x-death", b"CC", FILTER)
    keys = [make.choice([b"", b"x-"]) + random_key(make)[:253] for _ in range(make.randrange(6))]
    pairs = [(key, raw(random_value(make, 2))) for key in keys]
    if make.random() < 0.2:
        value: Value = ("A", [random_value(make, 1)]) if (key := make.choice(known)) == b"CC" else random_value(make, 1)
        pairs.insert(make.randrange(len(pairs) + 1), (key, raw(value)))
    return of(*pairs)


def test_streams(broker: Broker, connection: Connection, make: Random, notes: list[str], saw: Saw) -> None:
    """What a stream drops and rewrites, and closes the connection for."""
    queue = connection.queue("stream", arguments(x_queue_type=text("stream")), is_durable=True)
    publisher = Publisher(broker, queue, is_stream=True)
    tried, wrong, closes = [*NAMED.values(), *for_streams(), *(annotated_table(make) for _ in range(STREAMED))], [], 0
    names = {data: name for name, data in NAMED.items()}
    for data in tried:
        found, wanted = publisher.outcome(data), streamed(broker.version, data) or ("connection", 541)
        closes += found == ("connection", 541)
        wrong += [f"{data.hex()}: {found!r}, not {wanted!r}"] if found != wanted else []
        if name := names.pop(data, ""):
            seen = found.hex() if isinstance(found, bytes) else f"{found[0]} closed, {found[1]}"
            saw(f"stream, {name}", "kept" if found == data else "dropped" if found == EMPTY else seen)
    publisher.close()
    notes.append(f"tables for which a stream closed the connection: {closes} of {len(tried)}")
    assert none_of(wrong) == "" and len(tried) / 20 < closes < len(tried) / 2


def test_streams_keep_messages(broker: Broker, connection: Connection) -> None:
    """A consumer from the first message on gets it each time."""
    queue = connection.queue("kept", arguments(x_queue_type=text("stream")), is_durable=True)
    connection.publish("", queue)
    for _ in range(3):
        again = broker.connection()
        again.consume(queue, arguments(x_stream_offset=text("first")), at_once=1)
        assert value_at(again.delivery().headers, b"x-stream-offset") == number("l", 0)
        again.drop()


@pytest.mark.parametrize("tag, count", [("A", 20000), ("F", 18000)])
def test_deep_tables_pass(tag: str, count: int, connection: Connection, saw: Saw) -> None:
    connection.queue("deep")
    data = field(b"F", b"\1k" + nested(tag, count - 1, field(tag.encode(), b"")))
    begun = time.time()
    connection.publish("", "deep", data)
    assert awaited(connection, "deep").headers == data
    saw(f"a delivery of {count} nested {tag}", f"{time.time() - begun:.1f} s")
    with pytest.raises(own.Error, match="too deep"):
        own.loads(data)


def test_a_key_that_is_not_utf8_passes(connection: Connection) -> None:
    connection.queue("latin")
    connection.queue("latin dies", arguments(**dying("latin")))
    data = field(b"F", b"\2\xf6\xdfI\0\0\0\5")
    connection.publish("", "latin dies", data)
    back = awaited(connection, "latin").headers
    assert data[5:] in back
    with pytest.raises(own.Error, match="key not UTF-8"):
        own.loads(back)


def test_frames(connection: Connection, rules: Version, notes: list[str]) -> None:
    """The broker sends larger frames than it agreed to, and so larger tables than its clients may send."""
    connection.queue("large")
    connection.queue("ends", arguments(**dying("large")))
    data = arguments(k=("x", bytes(FRAME_MAX - 8 - 14 - 11)))
    connection.publish("", "ends", data)
    message = awaited(connection, "large")
    back = message.headers
    came = f"a table of {len(data)} bytes came back with {len(back)}, in a frame of {message.frame}"
    notes.append(f"{came}, where {FRAME_MAX} were agreed")
    assert message.frame > FRAME_MAX
    with pytest.raises(own.Error, match="too large"):
        own.loads(back, max_bytes=FRAME_MAX)
    assert own.dumps(loaded(without(back, *rules.deaths))) == data


def sized(size: int) -> bytes:
    """A table that has so many bytes without its type tag."""
    return arguments(k=("x", bytes(size - 11)))


def test_largest_payload_of_a_frame(broker: Broker) -> None:
    """It has as many bytes as were agreed: 14 and the headers, 2 more for two other properties, 8 and a queue's arguments."""
    properties: dict[str, Property] = {"delivery_mode": 2, "priority": 1}
    for more, wanted in ((0, None), (1, ("connection", 501))):
        most = FRAME_MAX + more
        acts: list[Callable[[Connection], object]] = [
            lambda it: it.publish("", "none", sized(most - 14)),
            lambda it: it.publish("", "none", sized(most - 16), properties),
            lambda it: it.queue("", sized(most - 8)),
        ]
        assert [closed_by(broker, it) for it in acts] == [wanted] * len(acts)


@pytest.mark.parametrize("key", (b"CC", b"BCC"))
def test_routes_are_arrays(key: bytes, broker: Broker, make: Random) -> None:
    """The first header CC or BCC is an array, whatever is in it; for another type the channel is closed."""
    array, other = field(b"A", b"I\0\0\0\1V"), field(b"S", b"none")
    values = [(array,), (array, other), (other, array), *((raw(random_value(make, 2)),) for _ in range(60))]
    for given in values:
        headers = field(b"F", b"".join(bytes([len(key)]) + key + it for it in given))
        wanted = None if given[0][:1] == b"A" else ("channel", 406)
        assert closed_by(broker, lambda it: it.publish("", "none", headers)) == wanted, headers.hex()


# A client of it


def published(connection: Connection, broker: Broker, *headers: bytes) -> bytes:
    """What amqp-publish writes of headers."""
    words = ["amqp-publish", "--server", "127.0.0.1", "--port", f"{broker.port}", "-r", "from a command", "-b", ""]
    subprocess.run([*words, *(word for it in headers for word in (b"-H", it))], check=True, timeout=60)
    return awaited(connection, "from a command").headers


def test_amqp_publish(connection: Connection, broker: Broker) -> None:
    """It writes strings, a key twice, and a key in Latin-1."""
    connection.queue("from a command")
    data = published(connection, broker, b"k: 1", "other: ä".encode(), b"k: 2")
    sent = of((b"k", text("1")), (b"other", text("ä")), (b"k", text("2")))
    assert data == delivered(broker.version, sent)
    with pytest.raises(own.Error, match="key not UTF-8"):
        own.loads(published(connection, broker, b"gr\xf6\xdfe: 5"))


def test_the_broker_runs_to_the_end(broker: Broker) -> None:
    assert not broker.has_ended(), broker.printed()
