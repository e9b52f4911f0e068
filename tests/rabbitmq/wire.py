"""`Connection`, a small client of AMQP 0-9-1: frames, methods, headers. Field tables stay bytes, with their type tag F.

On the wire a table has no type tag: `bare` removes it, and `Arguments.table` adds it.
"""

import socket
import struct
from collections.abc import Callable, Mapping
from contextlib import suppress
from typing import Any

# The properties of a message in the order of their bits, from the highest.
PROPERTIES = {
    "content_type": "s", "content_encoding": "s", "headers": "F", "delivery_mode": "o", "priority": "o",
    "correlation_id": "s", "reply_to": "s", "expiration": "s", "message_id": "s", "timestamp": "T",
    "type": "s", "user_id": "s", "app_id": "s", "cluster_id": "s",
}  # fmt: skip
# A property: a string, a table, or a number.
Property = str | bytes | int
Method = tuple[int, int]
EMPTY = b"F\0\0\0\0"
FRAME_MAX, SECONDS = 131072, 60
METHOD, HEADER, BODY, HEARTBEAT, END = 1, 2, 3, 8, b"\xce"
# Methods by class and number. The reply to most has the number after.
START, START_OK, TUNE, TUNE_OK, OPEN, CLOSE = (10, 10), (10, 11), (10, 30), (10, 31), (10, 40), (10, 50)
CHANNEL_OPEN, CHANNEL_CLOSE, EXCHANGE_DECLARE, QUEUE_DECLARE, BIND = (20, 10), (20, 40), (40, 10), (50, 10), (50, 20)
QOS, CONSUME, CANCEL, PUBLISH, DELIVER = (60, 10), (60, 20), (60, 30), (60, 40), (60, 60)
GET, GET_OK, GET_EMPTY, ACK, REJECT, NACK = (60, 70), (60, 71), (60, 72), (60, 80), (60, 90), (60, 120)
CONFIRM = (85, 10)


class Closed(Exception):
    """The broker closed the socket (code 0), or by a method the connection or the channel."""

    def __init__(self, what: str, code: int = 0, text: str = "") -> None:
        super().__init__(f"the {what} was closed: {code} {text}")
        self.what, self.code, self.text = what, code, text


def short(text: str | bytes) -> bytes:
    data = text.encode() if isinstance(text, str) else text
    return bytes([len(data)]) + data


def long(data: bytes) -> bytes:
    return struct.pack(">I", len(data)) + data


def bare(table: bytes) -> bytes:
    assert table[:1] == b"F", table[:5]
    return table[1:]


class Arguments:
    """The fields of a method or of a content header, taken from the start."""

    def __init__(self, data: bytes) -> None:
        self.data, self.at = data, 0

    def take(self, count: int) -> bytes:
        piece = self.data[self.at : self.at + count]
        assert len(piece) == count, "a field is cut"
        self.at += count
        return piece

    def number(self, form: str) -> int:
        return int(struct.unpack(f">{form}", self.take(struct.calcsize(f">{form}")))[0])

    def short(self) -> bytes:
        return self.take(self.number("B"))

    def long(self) -> bytes:
        return self.take(self.number("I"))

    def table(self) -> bytes:
        return b"F" + long(self.long())

    def property(self, form: str) -> bytes | int:
        if form in "sF":
            return self.short() if form == "s" else self.table()
        return self.number("B" if form == "o" else "Q")

    def properties(self) -> tuple[int, dict[str, bytes | int]]:
        """The size of a body, and a message's properties."""
        _, _, size, flags = self.number("H"), self.number("H"), self.number("Q"), self.number("H")
        names = [it for at, it in enumerate(PROPERTIES) if flags >> 15 - at & 1]
        return size, {it: self.property(PROPERTIES[it]) for it in names}


def header_of(size: int, properties: Mapping[str, Property]) -> bytes:
    """The content header of a message."""
    put: dict[str, Callable[[Any], bytes]] = {
        "s": short, "F": bare, "o": lambda it: bytes([it]), "T": lambda it: struct.pack(">Q", it),
    }  # fmt: skip
    flags = sum(1 << 15 - at for at, name in enumerate(PROPERTIES) if name in properties)
    fields = (put[form](properties[name]) for name, form in PROPERTIES.items() if name in properties)
    return struct.pack(">HHQH", 60, 0, size, flags) + b"".join(fields)


class Message:
    """A message as it came, to a consumer or since it was asked for. `frame` is the size of its content header's frame."""

    def __init__(self, method: Method, fields: Arguments, header: bytes, body: bytes) -> None:
        self.consumer = fields.short() if method == DELIVER else b""
        self.tag, self.is_again = fields.number("Q"), fields.number("B")
        self.exchange, self.key, self.body = fields.short(), fields.short(), body
        self.properties, self.frame = Arguments(header).properties()[1], len(header) + 8

    @property
    def headers(self) -> bytes:
        found = self.properties.get("headers", EMPTY)
        assert isinstance(found, bytes)
        return found


class Connection:
    """A connection with one channel. What comes while something else is waited for is kept."""

    def __init__(self, port: int, client_properties: bytes = EMPTY, vhost: str = "/") -> None:
        self.socket = socket.create_connection(("127.0.0.1", port), SECONDS)
        self.socket.setsockopt(socket.IPPROTO_TCP, socket.TCP_NODELAY, 1)
        self.file = self.socket.makefile("rb")
        self.inbox: list[tuple[Method, Any]] = []
        self.has_confirms = False
        self.socket.sendall(b"AMQP\0\0\x09\x01")
        start = Arguments(self.wait(START))
        start.take(2)
        self.server_properties = start.table()
        log_in = short("PLAIN") + long(b"\0guest\0guest") + short("en_US")
        self.call(START_OK, bare(client_properties) + log_in, TUNE, channel=0)
        self.send(TUNE_OK, struct.pack(">HIH", 8, FRAME_MAX, 0), channel=0)
        self.call(OPEN, short(vhost) + short("") + b"\0", channel=0)
        self.call(CHANNEL_OPEN, short(""))

    # Frames

    def frame(self, kind: int, payload: bytes, channel: int = 1) -> bytes:
        return struct.pack(">BHI", kind, channel, len(payload)) + payload + END

    def send(self, method: Method, arguments: bytes, channel: int = 1) -> None:
        self.write(self.frame(METHOD, struct.pack(">HH", *method) + arguments, channel))

    def write(self, data: bytes) -> None:
        # (what the broker sent before it closed is still to be read)
        with suppress(BrokenPipeError, ConnectionResetError):
            self.socket.sendall(data)

    def read(self, count: int) -> bytes:
        try:
            data = self.file.read(count)
        except ConnectionResetError:
            data = b""
        if len(data) < count:
            raise Closed("socket")
        return data

    def read_frame(self) -> tuple[int, bytes]:
        kind, _, size = struct.unpack(">BHI", self.read(7))
        payload = self.read(size)
        assert self.read(1) == END
        return (kind, payload) if kind != HEARTBEAT else self.read_frame()

    def event(self) -> tuple[Method, Any]:
        """The next method and its arguments, or the message that it begins."""
        kind, payload = self.read_frame()
        assert kind == METHOD, kind
        fields = Arguments(payload)
        method = fields.number("H"), fields.number("H")
        if method in (CLOSE, CHANNEL_CLOSE):
            what = "connection" if method == CLOSE else "channel"
            raise Closed(what, fields.number("H"), fields.short().decode(errors="replace"))
        if method not in (DELIVER, GET_OK):
            return method, payload[4:]
        header, body = self.read_frame()[1], b""
        size, _ = Arguments(header).properties()
        while len(body) < size:
            body += self.read_frame()[1]
        return method, Message(method, fields, header, body)

    def wait(self, *methods: Method) -> Any:
        """The arguments of the next of these methods, or its message."""
        for at, (method, rest) in enumerate(self.inbox):
            if method in methods:
                del self.inbox[at]
                return rest
        while True:
            method, rest = self.event()
            if method in methods:
                return rest
            self.inbox.append((method, rest))

    def call(self, method: Method, arguments: bytes, *replies: Method, channel: int = 1) -> Any:
        """Sends a method, and returns what comes with its reply."""
        self.send(method, arguments, channel)
        return self.wait(*(replies or [(method[0], method[1] + 1)]))

    def close(self) -> None:
        with suppress(Closed, OSError):
            self.call(CLOSE, struct.pack(">H", 200) + short("") + struct.pack(">HH", 0, 0), channel=0)
        self.drop()

    def drop(self) -> None:
        """Closes the socket, and nothing more."""
        self.file.close()
        self.socket.close()

    # Methods

    def exchange(self, name: str, kind: str, arguments: bytes = EMPTY) -> None:
        fields = b"\0\0" + short(name) + short(kind) + b"\0" + bare(arguments)
        self.call(EXCHANGE_DECLARE, fields)

    def queue(self, name: str = "", arguments: bytes = EMPTY, is_durable: bool = False) -> str:
        """Declares a queue that goes with the broker, and returns its name."""
        fields = b"\0\0" + short(name) + bytes([2 * is_durable]) + bare(arguments)
        return Arguments(self.call(QUEUE_DECLARE, fields)).short().decode()

    def count(self, queue: str) -> int:
        """How many messages are ready in a queue (which has to be there)."""
        fields = Arguments(self.call(QUEUE_DECLARE, b"\0\0" + short(queue) + b"\1" + bare(EMPTY)))
        fields.short()
        return fields.number("I")

    def bind(self, queue: str, exchange: str, key: str = "", arguments: bytes = EMPTY) -> None:
        fields = b"\0\0" + short(queue) + short(exchange) + short(key) + b"\0" + bare(arguments)
        self.call(BIND, fields)

    def message(
        self,
        exchange: str,
        key: str,
        headers: bytes = EMPTY,
        properties: Mapping[str, Property] | None = None,
        body: bytes = b"",
    ) -> bytes:
        """The frames of a message to publish."""
        header = header_of(len(body), {"headers": headers, **(properties or {})})
        method = struct.pack(">HH", *PUBLISH) + b"\0\0" + short(exchange) + short(key) + b"\0"
        return self.frame(METHOD, method) + self.frame(HEADER, header) + (self.frame(BODY, body) if body else b"")

    def publish(self, *message: Any, **more: Any) -> None:
        """Publishes a message, and waits until the broker confirms it."""
        if not self.has_confirms:
            self.call(CONFIRM, b"\0")
            self.has_confirms = True
        self.write(self.message(*message, **more))
        self.wait(ACK)

    def get(self, queue: str, keeps: bool = False) -> Message | None:
        """A message, or None; if it is kept, it has to be acknowledged or rejected."""
        found = self.call(GET, b"\0\0" + short(queue) + bytes([not keeps]), GET_OK, GET_EMPTY)
        return found if isinstance(found, Message) else None

    def consume(self, queue: str, arguments: bytes = EMPTY, consumer: str = "", at_once: int = 0) -> bytes:
        """Has the messages of a queue delivered: so many before one is acknowledged, or all, without that."""
        if at_once:
            self.call(QOS, struct.pack(">IHB", 0, at_once, 0))
        fields = b"\0\0" + short(queue) + short(consumer) + (b"\0" if at_once else b"\2") + bare(arguments)
        return Arguments(self.call(CONSUME, fields)).short()

    def cancel(self, consumer: bytes) -> None:
        self.call(CANCEL, short(consumer) + b"\0")

    def delivery(self) -> Message:
        found = self.wait(DELIVER)
        assert isinstance(found, Message)
        return found

    def acknowledge(self, message: Message) -> None:
        self.send(ACK, struct.pack(">QB", message.tag, 0))

    def reject(self, message: Message, goes_back: bool = False, by_nack: bool = False) -> None:
        bits = 2 * goes_back if by_nack else goes_back
        self.send(NACK if by_nack else REJECT, struct.pack(">QB", message.tag, bits))
