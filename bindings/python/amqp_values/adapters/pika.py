"""Puts this package's codec in place of pika's own: `install()` and `uninstall()`."""

from decimal import Decimal
from typing import Any

from amqp_values import Encoded, Error, dumps
from amqp_values.adapters.frames import Frame, header_frame, start_frame, table_in
from amqp_values.adapters.shared import Client, Codec, client_named

with client_named("pika"):
    import pika.data
    from pika import exceptions, frame, spec
    from pika.compat import long


class Pika(Client):
    tested = {"pika": ("1.2.0", "1.3.2", "1.4.4")}
    otherwise = ("l", "L", "f", "d")
    modules = ("pika.data", "pika.spec", "pika.frame")
    # The type tag of a negative number that has more than 32 bits: L in 1.3.
    negative = b"l"

    def manner(self) -> dict[str, Any]:
        self.negative = self.frames()["header"].write({"k": -(2**40)})[6:7]
        return {**super().manner(), "integers": "pika 1.3" if self.negative == b"L" else "pika"}

    def sent(self, value: Any) -> Any:
        if isinstance(value, Decimal) and value.is_finite():
            return value.normalize()
        if isinstance(value, long):
            # (pika's own class, which isn't sent as I)
            tag = self.negative if value < 0 else b"l"
            return Encoded(tag + dumps(int(value))[1:])
        return value

    def unread(self, problem: Error) -> Exception:
        error: Exception = exceptions.InvalidFieldTypeException(str(problem))
        return error

    def unwritten(self, problem: Exception, table: Any) -> Exception:
        is_key = isinstance(problem, Error) and problem.kind == "key too long"
        error: Exception = (
            exceptions.ShortStringTooLong(str(problem))
            if is_key
            else exceptions.UnsupportedAMQPFieldException(str(problem), table)
        )
        return error

    def put(self, codec: Codec) -> None:
        write = codec.write

        def encode_table(pieces: list[bytes], table: Any) -> int:
            encoding = write(table or {})
            pieces.append(encoding)
            return len(encoding)

        self.places.put_everywhere(pika.data, "decode_table", codec.read)
        self.places.put_everywhere(pika.data, "encode_table", encode_table)

    def frames(self) -> dict[str, Frame]:
        def write_header(headers: Any) -> bytes:
            return table_in(frame.Header(1, 0, spec.BasicProperties(headers=headers)).marshal(), 14)

        def write_method(arguments: Any) -> bytes:
            return table_in(frame.Method(1, spec.Queue.Declare(queue="", arguments=arguments)).marshal(), 8)

        return {
            "header": Frame(lambda it: frame.decode_frame(header_frame(it))[1].properties.headers, write_header),
            "method": Frame(lambda it: frame.decode_frame(start_frame(it))[1].method.server_properties, write_method),
        }


client = Pika()
install, uninstall = client.install, client.uninstall
