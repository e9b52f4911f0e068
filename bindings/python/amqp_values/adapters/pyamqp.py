"""Puts this package's codec in place of py-amqp's, and so of kombu's and Celery's: `install()` and `uninstall()`."""

import re
from collections.abc import Callable, Iterable
from contextlib import suppress
from functools import lru_cache
from typing import Any

from amqp_values import Error
from amqp_values.adapters.frames import Frame, header_payload
from amqp_values.adapters.shared import Client, Codec, client_named

with client_named("amqp"):
    import amqp.abstract_channel
    import amqp.sasl
    from amqp import serialization
    from amqp.basic_message import Message
    from amqp.exceptions import FrameSyntaxError


def text_of(content: Any) -> Any:
    """A short string, which the broker delivers also if it isn't UTF-8."""
    return content.decode(errors="surrogateescape") if isinstance(content, bytes) else content


def content_of(text: Any) -> Any:
    """The bytes of a short string, also of one that came so; with other surrogates it is left to py-amqp."""
    with suppress(UnicodeEncodeError):
        return text.encode(errors="surrogateescape") if isinstance(text, str) else text
    return text


@lru_cache
def parts_of(format: str | bytes) -> list[str]:
    """The tables and the short strings of a format, and what is between them."""
    # (after a table or a string come no bits of the octet before it)
    return re.findall("[Fs]|[^Fs]+", format if isinstance(format, str) else format.decode())


class PyAmqp(Client):
    tested = {"amqp": ("5.1.1", "5.3.1")}
    otherwise = ("s",)
    modules = ("amqp.serialization", "amqp.basic_message")
    keys = "surrogateescape"
    how = {"integers": "py-amqp", "bytes_are_text": True, "short_decimals": True}

    def unread(self, problem: Error) -> Exception:
        error: Exception = FrameSyntaxError(str(problem))
        return error

    def unwritten(self, problem: Exception, table: Any) -> Exception:
        error: Exception = FrameSyntaxError(str(problem))
        return error

    def put(self, codec: Codec) -> None:
        read, written, read_others, write_others = codec.read, codec.write, serialization.loads, serialization.dumps

        def loads(format: str | bytes, buf: Any, offset: int) -> tuple[list[Any], int]:
            if format == "F":
                table, offset = read(buf, offset)
                return [table], offset
            values: list[Any] = []
            for form in parts_of(format):
                if form == "F":
                    table, offset = read(buf, offset)
                    values.append(table)
                elif form == "s":
                    end = offset + 1 + buf[offset]
                    values.append(text_of(buf[offset + 1 : end]))
                    offset = end
                else:
                    found, offset = read_others(form, buf, offset)
                    values += found
            return values, offset

        def dumps(format: str | bytes, values: Iterable[Any]) -> bytes:
            forms = format if isinstance(format, str) else format.decode()
            encoding: bytes = write_others(
                forms, [content_of(it) if form == "s" else it for form, it in zip(forms, values)]
            )
            return encoding

        def write_table(table: Any, write: Callable[[bytes], object], _: Any) -> None:
            write(written(table))

        self.places.put_everywhere(serialization, "loads", loads)
        self.places.put_everywhere(serialization, "dumps", dumps)
        self.places.put(vars(serialization), "pstr_t", text_of)
        self.places.put_everywhere(serialization, "_write_table", write_table)

    def frames(self) -> dict[str, Frame]:
        channel: Any = amqp.abstract_channel

        def read_header(table: bytes) -> Any:
            message = Message()
            message.inbound_header(header_payload(table))
            return message.headers

        def write_header(headers: Any) -> bytes:
            properties: bytes = Message("", application_headers=headers)._serialize_properties()
            return properties[2:]

        def write_method(arguments: Any) -> bytes:
            method: bytes = channel.dumps("BsbbbbbF", (0, "", False, False, False, False, False, arguments))
            return method[4:]

        return {
            "header": Frame(read_header, write_header),
            "method": Frame(lambda it: channel.loads("ooFSS", b"\0\x09" + it + bytes(8), 0)[0][2], write_method),
        }


client = PyAmqp()
install, uninstall = client.install, client.uninstall
