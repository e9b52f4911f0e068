"""RabbitMQ on each case of vectors/ as a message's headers, if the case says what it does."""

import pytest

from tests.model.encoding import field
from tests.model.tables import parts
from tests.rabbitmq.broker import Broker
from tests.rabbitmq.test_broker import Publisher
from tests.rabbitmq.wire import Connection
from tests.vectors.cases import CASES, none_of

CLOSED, VOID = ("connection", 541), b"V"
GIVEN = [it for it in CASES if "rabbitmq" in it.case]
pytestmark = pytest.mark.usefixtures("deep")


def test_vectors(broker: Broker, connection: Connection) -> None:
    """The broker delivers each table as the case says, or closes the connection."""
    publisher = Publisher(broker, connection.queue("vectors"))
    found = {it.id: publisher.outcome(it.headers) for it in GIVEN}
    publisher.close()
    wrong = [it for it in GIVEN if found[it.id] != (it.headers_from(broker.version) or CLOSED)]
    assert none_of([f"{it.id}: {found[it.id]!r:.200}" for it in wrong]) == ""


def test_repeated_keys(broker: Broker, connection: Connection) -> None:
    """A headers exchange routes by the entry of a repeated key that the case names; a Void in a binding matches all."""
    wrong, tried = [], 0
    for it in GIVEN:
        routes_by = it.case["rabbitmq"][broker.version].get("routes_by")
        pairs = [*parts(it.headers)] if routes_by else []
        for key in {key for key, _ in pairs if [other for other, _ in pairs].count(key) > 1}:
            exchange, values = f"{it.id} {key.hex()}", [value for each, value in pairs if each == key]
            connection.exchange(exchange, "headers")
            queues = {value: f"{exchange} {value.hex()}" for value in values if value != VOID}
            for value, queue in queues.items():
                connection.bind(connection.queue(queue), exchange, "", field(b"F", key + value))
            connection.publish(exchange, "", it.headers)
            routed = [value for value, queue in queues.items() if connection.get(queue)]
            wanted = values[0 if routes_by == "first" else -1]
            wrong += [f"{it.id}: {routed}"] if routed != [wanted][: wanted != VOID] else []
            tried += 1
    assert tried and none_of(wrong) == ""
