"""Puts this package's codec in place of pamqp's, and so of aiormq's and aio-pika's: `install()` and `uninstall()`.

If a message has no encoding, aiormq waits for ever, or from 6.8 on counts confirms wrongly afterwards. With this adapter it raises
what pamqp does, before it sends anything.
"""

from calendar import timegm
from collections.abc import Callable, Mapping, Sequence
from datetime import datetime
from decimal import Decimal
from importlib import import_module
from importlib.util import find_spec
from time import struct_time
from typing import Any

from amqp_values import Encoded, Error, LongString, Timestamp
from amqp_values.adapters.frames import Frame, header_frame, start_frame, table_in
from amqp_values.adapters.headers import Headers
from amqp_values.adapters.shared import Client, Codec, Places, client_named

with client_named("pamqp"):
    import pamqp.decode
    import pamqp.encode
    from pamqp import commands, frame
    from pamqp.header import ContentHeader


class Undecoded(bytearray):
    """A string that isn't UTF-8, as aio-pika has it."""


class Pamqp(Client):
    tested = {
        "pamqp": ("3.2.1", "3.3.0", "4.0.0"),
        "aiormq": ("6.4.2", "6.8.1"),
        "aio-pika": ("8.2.5", "9.5.5", "9.5.6"),
    }
    otherwise = ("U",)
    modules = ("pamqp.decode", "pamqp.encode", "pamqp.base", "pamqp.frame")
    keys = "surrogateescape"
    how = {"integers": "smallest", "ascending": True, "bytes_are_text": True, "bytearrays": True}

    def sent(self, value: Any) -> Any:
        if isinstance(value, struct_time):
            return Timestamp(timegm(value))
        return LongString(value) if type(value) is Undecoded else value

    def unread(self, problem: Error) -> Exception:
        return ValueError(str(problem))

    def unwritten(self, problem: Exception, table: Any) -> Exception:
        return TypeError(str(problem))

    def put(self, codec: Codec) -> None:
        read, write = codec.read, codec.write

        def decode_table(value: bytes) -> tuple[int, dict[Any, Any]]:
            table, end = read(value, 0)
            return end, table

        def encode_table(value: Any) -> bytes:
            if value and not isinstance(value, dict):
                raise TypeError(f"dict required, received {type(value)}")
            return write(value or {})

        self.places.put_everywhere(pamqp.decode, "field_table", decode_table)
        self.places.put(pamqp.decode.METHODS, "table", decode_table)
        self.places.put(pamqp.decode.TABLE_MAPPING, b"F", decode_table)
        self.places.put_everywhere(pamqp.encode, "field_table", encode_table)
        self.places.put(pamqp.encode.METHODS, "table", encode_table)
        take_any_properties(self.places)
        for name, change in {"aiormq": check_before_sending, "aio_pika": keep_types}.items():
            if find_spec(name):
                change(self.places)

    def frames(self) -> dict[str, Frame]:
        def read(data: bytes) -> Any:
            return frame.unmarshal(data)[2]

        def write_method(arguments: Any) -> bytes:
            return table_in(frame.marshal(commands.Queue.Declare(arguments=arguments), 1), 8)

        return {
            "header": Frame(lambda it: read(header_frame(it)).properties.headers, write_header),
            "method": Frame(lambda it: read(start_frame(it)).server_properties, write_method),
        }

    def relays(self) -> dict[str, Callable[[Any], bytes]]:
        if not find_spec("aio_pika"):
            return {}
        message = import_module("aio_pika").Message

        def write(headers: Any) -> bytes:
            # (as an application does it that has the headers of another message)
            return write_header(message(b"", headers=message(b"", headers=headers).headers).properties.headers)

        return {"message of aio-pika": write}


def write_header(headers: Any) -> bytes:
    """The table in the frame of a content header that pamqp writes."""
    return table_in(frame.marshal(ContentHeader(properties=commands.Basic.Properties(headers=headers)), 1), 14)


def take_any_properties(places: Places) -> None:
    """Has pamqp take what the broker delivers next to headers: strings that aren't UTF-8, and times after the year 9999."""
    read_string, write_string = pamqp.decode.short_str, pamqp.encode.short_string
    read_time: Any = pamqp.decode.METHODS["timestamp"]
    last_second = datetime.max.replace(microsecond=0, tzinfo=read_time(bytes(8))[1].tzinfo)

    def short_str(value: bytes) -> tuple[int, str]:
        try:
            return read_string(value)
        except UnicodeDecodeError:
            end = 1 + value[0]
            return end, value[1:end].decode(errors="surrogateescape")

    def short_string(value: str) -> bytes:
        try:
            return write_string(value)
        except UnicodeEncodeError:
            content = value.encode(errors="surrogateescape")
            return bytes([len(content)]) + content

    def timestamp(value: bytes) -> Any:
        try:
            return read_time(value)
        except (ValueError, OverflowError, OSError):
            return 8, last_second

    places.put_everywhere(pamqp.decode, "short_str", short_str)
    places.put(pamqp.decode.METHODS, "shortstr", short_str)
    places.put(pamqp.decode.METHODS, "timestamp", timestamp)
    places.put_everywhere(pamqp.encode, "short_string", short_string)
    places.put(pamqp.encode.METHODS, "shortstr", short_string)


def check_before_sending(places: Places) -> None:
    """Has aiormq encode what it is to send before it gives that to the task that writes."""
    channel = import_module("aiormq.channel").Channel
    publish, call = channel.basic_publish, channel.rpc

    def basic_publish(self: Any, body: bytes, **how: Any) -> Any:
        for name in ("exchange", "routing_key"):
            pamqp.encode.short_string(how.get(name, ""))
        if how.get("properties"):
            how["properties"].marshal()
        return publish(self, body, **how)

    def rpc(self: Any, frame: Any, *others: Any, **how: Any) -> Any:
        frame.marshal()
        return call(self, frame, *others, **how)

    places.put(channel, "basic_publish", basic_publish)
    places.put(channel, "rpc", rpc)


def is_written(value: Any) -> bool:
    """Whether the package writes a value that aio-pika before 9 would make a text of JSON or a byte array."""
    if isinstance(value, bytes):
        return isinstance(value, (Encoded, LongString))
    return isinstance(value, (float, Decimal, memoryview, Mapping, Sequence))


def keep_types(places: Places) -> None:
    """Has aio-pika send each value by its type, and keep headers that came: `headers_raw` of a message, and what `headers` shows."""
    message = import_module("aio_pika.message")
    if not hasattr(message, "format_headers"):
        # (from 9 on aio-pika keeps headers as they are)
        return
    convert, format_others, proxy = message.header_converter, message.format_headers, message.HeaderProxy

    def header_converter(value: Any) -> Any:
        value = value._headers if type(value) is proxy else value
        return value if is_written(value) else convert(value)

    def format_headers(headers: Any) -> Any:
        headers = headers._headers if type(headers) is proxy else headers
        if not isinstance(headers, Headers):
            return format_others(headers)
        found = headers.copy()
        for key, value in found.items():
            # (bytes it decodes when they are asked for)
            found[key] = Undecoded(value) if type(value) is bytes else value
        return found

    places.put_everywhere(message, "header_converter", header_converter)
    places.put_everywhere(message, "format_headers", format_headers)


client = Pamqp()
install, uninstall = client.install, client.uninstall
