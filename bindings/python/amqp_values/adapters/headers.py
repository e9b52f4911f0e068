"""`Headers`, which an application gets from a client with an adapter, `Refused`, for a table that isn't read, and `refused`."""

from collections.abc import Mapping
from typing import Any

from amqp_values import Error


class Headers(dict[Any, Any]):
    """A message's headers: a `dict` that also keeps the bytes it was read from, as `raw`.

    If you publish it, also as a value of another table, each header that you haven't changed is sent as the bytes that came. Without any
    change all of `raw` is sent. `raw` takes memory for as long as the headers exist. `copy` and `|` keep it; copies by `dict`,
    `copy.deepcopy` and pickling don't.
    """

    __slots__ = ("raw",)
    raw: bytes

    def copy(self) -> "Headers":
        found = Headers(self)
        if hasattr(self, "raw"):
            found.raw = self.raw
        return found

    def __copy__(self) -> "Headers":
        return self.copy()

    def __or__(self, other: Any) -> Any:
        return self._merged(self, other)

    def __ror__(self, other: Any) -> Any:
        return self._merged(other, self)

    def _merged(self, first: Any, second: Any) -> Any:
        """A copy that has the entries of two dictionaries instead."""
        if not isinstance(first, dict) or not isinstance(second, dict):
            return NotImplemented
        found = self.copy()
        found.clear()
        found.update(first)
        found.update(second)
        return found

    def __reduce__(self) -> tuple[Any, ...]:
        return dict, (dict(self),)


class Refused(Headers):
    """The headers of a message whose table was refused: a `dict` with no entries that is true nevertheless.

    `problem` is the `Error` that says what is wrong, and `raw` has the table's bytes; `problem.offset` counts these. Reject such a
    message without requeue, or publish it again with the same headers, which sends these bytes. If you add headers to it, or put it
    inside another table, publishing it raises the client's exception, since its own would be lost.
    """

    __slots__ = ("problem",)
    problem: Error

    def __init__(self, problem: Error, raw: bytes) -> None:
        super().__init__()
        self.problem, self.raw = problem, raw

    def copy(self) -> "Refused":
        found = Refused(self.problem, self.raw)
        found.update(self)
        return found

    def __bool__(self) -> bool:
        # (kombu and aio-pika put an empty dict in place of headers that are false)
        return True

    def __repr__(self) -> str:
        return f"Refused({str(self.problem)!r}, {dict(self)})"

    def __reduce__(self) -> tuple[Any, ...]:
        return Refused, (self.problem, self.raw)


# The attributes that lead to headers from what a client gives to an application: from pika's properties and the messages of py-amqp, kombu
# and aio-pika; in aio-pika 8 from a message, and from the mapping that it has as `headers`; and from a message of aiormq.
PATHS = (("headers",), ("headers", "_headers"), ("_headers",), ("header", "properties", "headers"))


def refused(message: Any) -> Refused | None:
    """Returns the `Refused` that a message has in place of its headers, or None if its headers were read or it has none.

    It takes the properties of pika, a message of any other client, or the headers of either.
    """
    if message is None or isinstance(message, Refused):
        return message
    for path in PATHS:
        found = message
        for name in path:
            found = getattr(found, name, None)
        if isinstance(found, Refused):
            return found
    if not isinstance(message, Mapping) and not any(hasattr(message, path[0]) for path in PATHS):
        raise TypeError(f"a message, its properties or its headers are needed, not {type(message).__name__}")
    return None
