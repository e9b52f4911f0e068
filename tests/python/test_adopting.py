"""The examples of README.md and docs/ADOPTING.md for pika, in pika's own frames, without a broker."""

import re
from random import Random
from typing import Any

import pika.data
import pytest
from amqp_values import Timestamp
from amqp_values.adapters import pika as adapter
from dependencies import TOP
from pika import frame, spec
from pika.exceptions import InvalidFieldTypeException

from tests.model.encoding import field
from tests.model.inputs import captured, nested
from tests.model.tables import odd_table
from tests.python.codecs import codec
from tests.rabbitmq.seen import LAST_SECOND, VERSIONS


@pytest.fixture
def example(monkeypatch: pytest.MonkeyPatch) -> dict[str, Any]:
    """What the example defines, with its function in pika."""
    (code,) = re.findall(r"```python\n(.*?)```", (TOP / "docs/ADOPTING.md").read_text(), re.DOTALL)
    names: dict[str, Any] = {}
    exec(code, names)  # pylint: disable=exec-used
    monkeypatch.setattr(pika.data, "decode_table", names["decode_table"])
    return names


def properties_of(table: bytes) -> Any:
    """What pika reads of a content header with these headers, and a property after them."""
    flags = spec.BasicProperties.FLAG_HEADERS | spec.BasicProperties.FLAG_DELIVERY_MODE
    body = b"\0\x3c\0\0" + bytes(8) + flags.to_bytes(2, "big") + table + b"\x02"
    _, header = frame.decode_frame(b"\x02\0\x01" + len(body).to_bytes(4, "big") + body + b"\xce")
    assert header.properties.delivery_mode == 2
    return header.properties


def shown(value: Any) -> Any:
    """A value as pika's adapter has it, by texts."""
    if isinstance(value, (dict, list)):
        return [(key, shown(it)) for key, it in (value.items() if isinstance(value, dict) else enumerate(value))]
    if isinstance(value, Timestamp) and value <= LAST_SECOND:
        value = value.as_datetime().replace(tzinfo=None)
    return repr(value) if isinstance(value, str) else str(bytes(value) if isinstance(value, bytes) else value)


def outcome(read: Any, data: bytes, at: int) -> Any:
    try:
        headers, end = read(data, at)
    except InvalidFieldTypeException:
        return "cut"
    problem = getattr(headers, "problem", None)
    return end, bool(headers), problem and problem.kind, shown({**headers})


def test_headers_are_read_as_by_the_adapter(example: dict[str, Any], seed: int) -> None:
    """What is captured, and odd tables, whole and cut: the same values, refusals, ends and exceptions."""
    make, by_adapter, refusals = Random(seed), codec(VERSIONS["pika 1.2.0"], equal_keys="refuse").read, 0
    tables = [it[1:] for it in captured().values()] + [odd_table(make)[1:] for _ in range(1000)]
    for table in (*tables, *(it[: make.randrange(len(it) + 1)] for it in tables)):
        before = make.randbytes(make.randrange(5))
        found, wanted = (
            outcome(it, before + table + b"..", len(before)) for it in (example["decode_table"], by_adapter)
        )
        assert found == wanted, table
        refusals += found != "cut" and found[2] is not None
    assert refusals > 100


class Channel:
    """What the handler of README.md calls, in order."""

    def __init__(self) -> None:
        self.calls: list[str] = []

    def basic_reject(self, tag: int, requeue: bool) -> None:
        self.calls.append(f"reject {tag} {requeue}")

    def basic_ack(self, tag: int) -> None:
        self.calls.append(f"ack {tag}")


def test_handler_of_the_readme(capsys: pytest.CaptureFixture[str], caplog: pytest.LogCaptureFixture) -> None:
    """It rejects a message of 500 levels of headers, takes the next one, and prints what the page shows."""
    page = (TOP / "README.md").read_text()
    ((code, shown),) = re.findall(r"```python\n(from .*?)```.*?```console\n(.*?)```", page, re.DOTALL)
    names: dict[str, Any] = {}
    channel = Channel()
    try:
        exec(code, names)
        for tag, value, body in ((1, nested("F", 499, b"", b"\1a"), b"deep"), (2, b"V", b"next")):
            properties = properties_of(field(b"", b"\1a" + value))
            names["on_message"](channel, spec.Basic.Deliver(delivery_tag=tag), properties, body)
    finally:
        adapter.uninstall()
    printed = "".join(f"{it}\n" for it in caplog.messages) + capsys.readouterr().out
    assert (channel.calls, printed) == (["reject 1 False", "ack 2"], shown)
