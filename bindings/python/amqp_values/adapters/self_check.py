"""The self-check of `install`: `differences` compares what a client reads and writes with its adapter and without."""

import sys
from collections.abc import Callable, Iterable, Iterator
from datetime import datetime
from decimal import Decimal
from typing import Any, Protocol

from amqp_values import Error
from amqp_values.adapters.frames import Frame
from amqp_values.adapters.headers import Headers, Refused


class CheckedClient(Protocol):
    """What the self-check uses of a `Client` (`shared.py`, which imports this file)."""

    otherwise: tuple[str, ...]

    def frames(self) -> dict[str, Frame]:
        ...

    def relays(self) -> dict[str, Callable[[Any], bytes]]:
        ...

    def unread(self, problem: Error) -> Exception:
        ...

    def unwritten(self, problem: Exception, table: Any) -> Exception:
        ...


def of(*pairs: tuple[bytes, bytes]) -> bytes:
    """A table without its type tag, of keys and encodings."""
    body = b"".join(bytes([len(key)]) + key + it for key, it in pairs)
    return len(body).to_bytes(4, "big") + body


def deep(levels: int) -> bytes:
    """Tables in each other."""
    found = of()
    for _ in range(levels - 1):
        found = of((b"k", b"F" + found))
    return found


# A value of each type tag that all clients read alike, except what `Client.otherwise` names.
READ = {
    "t": b"t\1", "b": b"b\5", "B": b"B\5", "s": b"s\xff\xfe", "U": b"U\xff\xfe", "u": b"u\xff\xff", "I": b"I\xff\xff\xff\xfb",
    "i": b"i\xff\xff\xff\xff", "l": b"l" + bytes(7) + b"\5", "L": b"L" + b"\xff" * 8, "f": b"f\x3f\xc0\0\0",
    "d": b"d\x3f\xf8" + bytes(6), "D": b"D\2\0\0\1\x3a", "S": b"S\0\0\0\3h\xc3\xbc",
    "x": b"x\0\0\0\2\xff\0", "A": b"A\0\0\0\6VI\0\0\0\1", "F": b"F" + of((b"a", b"t\0"), (b"b", b"V")), "V": b"V",
    "T": b"T\0\0\0\0\x6b\x49\xd2\0", "T from 2^32 on": b"T\0\0\0\1\x2a\x05\xf2\0", "equal keys": b"F" + of((b"a", b"t\1"), (b"a", b"V")),
}  # fmt: skip
# What all clients write.
WRITTEN = {
    "a boolean": True, "5": 5, "-2^20": -(2**20), "2^40": 2**40, "-2^40": -(2**40), "a str": "hü", "None": None, "a list": [None, 300],
    "a dict": {"a": True}, "a Decimal": Decimal("1.5"), "a datetime": datetime(2027, 1, 15, 8),
}  # fmt: skip
DEEP, CUT = deep(33), b"\0\0\1\0\1kV"


def value_read(frame: Frame, value: bytes) -> Any:
    """What a client reads for a value in a frame."""
    table = frame.read(of((b"k", value)))
    if "k" not in table:
        raise LookupError(f"the client by itself reads {table!r} in a table whose only key is k")
    return table["k"]


def probed(client: CheckedClient) -> dict[str, str]:
    """What a client reads and writes for each probe in each frame."""
    found = {}
    for name, frame in client.frames().items():
        for it, value in READ.items():
            if it not in client.otherwise:
                read = value_read(frame, value)
                found[f"{it} in a {name}"] = f"{type(read).__name__} {read!r}"
        for it, given in WRITTEN.items():
            found[f"{it} sent in a {name}"] = frame.write({"k": given}).hex()
    return found


def raised(call: Callable[[], object]) -> Exception | None:
    """What a call raises, or None."""
    try:
        call()
    except Exception as error:
        return error
    return None


def broken_promises(client: CheckedClient) -> Iterator[str]:
    """What the adapter promises and doesn't keep with this client."""
    frames = client.frames()
    writers = {**{name: it.write for name, it in frames.items()}, **client.relays()}
    whole = of(*((name.encode(), it) for name, it in READ.items() if name not in client.otherwise))
    for name, frame in frames.items():
        for what, table, kind in (("headers", whole, Headers), ("headers that nest too deep", DEEP, Refused)):
            came = frame.read(table)
            if type(came) is not kind or came.raw != table:
                yield f"{what} in a {name} come as {type(came).__name__}"
                continue
            for to, write in writers.items():
                if write(came) != table:
                    yield f"{what} of a {name} aren't relayed in a {to}"
        for what, wanted, call in (
            ("an object without an encoding", client.unwritten(TypeError(), {}), lambda: frame.write({"k": object()})),
            ("a table that is cut", client.unread(Error("cut")), lambda: frame.read(CUT)),
        ):
            if type(error := raised(call)) is not type(wanted):
                yield f"{what} in a {name} raises {error!r}, not {type(wanted).__name__}"


def foreign_in(modules: Iterable[str]) -> Iterator[str]:
    """What isn't a client's own in its modules and their classes, neither of its package nor of Python's library."""
    for name in modules:
        own = {name.partition(".")[0], "amqp_values", *sys.stdlib_module_names}
        found = vars(sys.modules[name])
        classes = [(key, it) for key, it in found.items() if isinstance(it, type) and it.__module__ == name]
        for where, names in ((name, found), *((f"{name}.{key}", vars(it)) for key, it in classes)):
            for key, it in names.items():
                # (what wraps a function says that it is this function, but has other globals)
                home = getattr(it, "__globals__", {}).get("__name__", type(it).__module__)
                if home.partition(".")[0] not in own:
                    yield f"{where}.{key} (of {home})"


def differences(client: CheckedClient, before: dict[str, str]) -> Iterator[str]:
    """What differs with the adapter in place from what was probed before."""
    after = probed(client)
    yield from (f"{name} was {it} and is {after[name]}" for name, it in before.items() if after[name] != it)
    yield from broken_promises(client)
