"""`Client`, the base of each adapter, the `Codec` that its `install` puts in place, and `Places`, which undoes that.

It imports no client: only the adapter of a client does.
"""

import sys
import warnings
from collections.abc import Callable, Iterator
from contextlib import contextmanager, suppress
from functools import partial
from importlib import metadata
from logging import getLogger
from time import monotonic
from types import ModuleType
from typing import Any, Literal, NoReturn

from amqp_values import DEPTH, MAX_BYTES, Encoded, Error, _native, loads_table
from amqp_values.adapters.frames import Frame
from amqp_values.adapters.headers import Headers, Refused
from amqp_values.adapters.self_check import differences, foreign_in, of, probed, value_read

EqualKeys = Literal["first", "last", "refuse"]
# Called with each table that is refused.
OnRefused = Callable[[Refused], object]
LOG = getLogger("amqp_values.adapters")
# The seconds in which a kind of problem is logged once.
BETWEEN_WARNINGS = 60


class UntestedVersion(UserWarning):
    """The client has a version that the adapter wasn't tested with."""


class IncompatibleClient(RuntimeError):
    """The self-check of `install` failed: the client isn't as the adapter needs it. Nothing was changed."""


@contextmanager
def client_named(name: str) -> Iterator[None]:
    """Imports a client's modules: if the client isn't there, the error names the package to install."""
    try:
        yield
    except ModuleNotFoundError as why:
        if why.name != name:
            raise
        message = f"this adapter needs the package {name}, which isn't installed: pip install {name}"
        raise ModuleNotFoundError(message, name=name) from why


class Warner:
    """What is called with refused tables unless `install` is told otherwise: it logs a warning once per kind and minute."""

    def __init__(self, client: str) -> None:
        self.client = client
        self.logged: dict[str, float] = {}

    def __call__(self, refused: Refused) -> None:
        now, kind = monotonic(), refused.problem.kind
        if now - self.logged.get(kind, -BETWEEN_WARNINGS) >= BETWEEN_WARNINGS:
            self.logged[kind] = now
            LOG.warning("%s: refused a table of %d bytes: %s", self.client, len(refused.raw), refused.problem)


class Raising:
    """What a native codec asks about errors if the package's own are to come."""

    def refused(self, problem: Error, data: bytes, offset: int) -> NoReturn:
        raise problem

    def unsent(self, problem: Exception, table: Any) -> NoReturn:
        raise problem


class Codec:
    """Reads and writes the tables of a client, by the two methods of a native one."""

    def __init__(
        self,
        client: "Client",
        depth: int = DEPTH,
        max_bytes: int = MAX_BYTES,
        equal_keys: EqualKeys = "last",
        strict_keys: bool = False,
        exact: bool = True,
        raises: bool = False,
        on_refused: OnRefused | None = None,
        **manner: Any,
    ) -> None:
        self.client, self.raises = client, raises
        self.on_refused: OnRefused = Warner(next(iter(client.tested), ""))
        if on_refused is not None:
            self.on_refused = on_refused
        if not callable(self.on_refused):
            raise TypeError(f"on_refused is called with a Refused, and {type(on_refused).__name__} can't be called")
        how: dict[str, Any] = {"signed_decimals": True, "depth": depth, "text": "bytes"}
        how |= {"keys": "strict" if strict_keys else client.keys}
        how |= {**client.how, **manner, "max_bytes": max_bytes, "equal_keys": equal_keys}
        how |= {"finite": True, "naive_datetimes": True, "others": self.sent}
        native = _native.Codec(self, Headers, Headers if exact else None, **how)
        # (with less no table at all would be read)
        for name, value, least in (("depth", depth, 1), ("max_bytes", max_bytes, len(b"F") + len(of()))):
            if value < least:
                raise Error("bad option", 0, f"for {name} at least {least}, not {value}")
        self.read: Callable[[Any, int], tuple[dict[Any, Any], int]] = native.read
        self.write: Callable[[Any], bytes] = native.write
        # (headers that came keep their order, also if the client by itself sorts what it sends)
        self.write_in_order = _native.Codec(Raising(), Raising, None, **{**how, "ascending": False}).write
        # (by which tables are compared: each type is another, and infinities have an encoding)
        how |= {"finite": False, "integers": "l", "others": self.compared}
        plain = _native.Codec(Raising(), Raising, None, **how)
        self.plainly, self.written = plain.read, plain.write
        self.encodings_in = partial(
            loads_table,
            encoded=True,
            keys=how["keys"],
            text="bytes",
            equal_keys=equal_keys,
            depth=depth,
            max_bytes=max_bytes,
        )

    def refused(self, problem: Error, data: bytes, offset: int) -> tuple[dict[Any, Any], int]:
        """What is delivered instead of a table that isn't read, and where that ends."""
        end = offset + 4 + int.from_bytes(data[offset : offset + 4], "big")
        # (what is after a table that is cut can't be found; nor is there a table after the end)
        if self.raises or not 0 <= offset <= end - 4 <= len(data) - 4:
            raise self.client.unread(problem) from problem
        in_table = Error(problem.kind, problem.offset - offset, problem.expected, problem.missing)
        found = Refused(in_table, data[offset:end])
        try:
            self.on_refused(found)
        except Exception:
            # (if it left this, the message would break the consumer after all)
            LOG.exception("on_refused raised an exception")
        return found, end

    def relayed(self, table: Headers) -> bytes | None:
        """The bytes of a table that came, with those of its entries that haven't changed; None if there are no such bytes."""
        if isinstance(table, Refused) and len(table):
            problem = TypeError("headers were added to a Refused, whose own headers would be lost")
            raise self.client.unwritten(problem, table) from problem
        if isinstance(table, Refused):
            return table.raw
        if not hasattr(table, "raw"):
            return None
        with suppress(Error, TypeError):
            found, end = self.plainly(table.raw, 0)
            if end != len(table.raw):
                return None
            return table.raw if self.written(table) == self.written(found) else self.changed(table, found)
        return None

    def changed(self, table: Headers, found: dict[Any, Any]) -> bytes:
        """The bytes of a table that has changed since it was read as `found`: each entry that hasn't keeps its bytes."""
        encodings = self.encodings_in(table.raw)

        def is_as_found(key: Any, value: Any) -> bool:
            return key in found and self.written({"": value}) == self.written({"": found[key]})

        return self.write_in_order({key: encodings[key] if is_as_found(key, it) else it for key, it in table.items()})

    def sent(self, value: Any) -> Any:
        """What is sent for a value of none of the usual types: for headers inside another table the bytes that came."""
        raw = self.relayed(value) if isinstance(value, Headers) and not isinstance(value, Refused) else None
        return self.compared(value) if raw is None else Encoded(b"F" + raw)

    def compared(self, value: Any) -> Any:
        """What such a value is compared by. A `Refused` inside another table can't be sent, since its bytes may not be a table."""
        if isinstance(value, Refused):
            raise TypeError("a Refused inside another table can't be sent; put its `raw` there, as a bytearray")
        return self.client.sent(value)

    def unsent(self, problem: Exception, table: Any) -> NoReturn:
        """Raises the client's exception for a table that has no encoding."""
        raise self.client.unwritten(problem, table) from problem


class Client:
    """A client: how its tables differ from the package's, and where the codec is put."""

    # The distributions that the adapter changes, each with the versions that it was tested with. The first is always there.
    tested: dict[str, tuple[str, ...]] = {}
    keys: Literal["bytes", "surrogateescape"] = "bytes"
    # Options of a native codec, which has them for adapters only.
    how: dict[str, Any] = {}
    # The probes of the self-check that the client by itself reads otherwise, as the rows of docs/PYTHON.md say.
    otherwise: tuple[str, ...] = ()
    # The modules that have the client's codec.
    modules: tuple[str, ...] = ()

    def __init__(self) -> None:
        self.places = Places()
        # the versions that were last warned of
        self.warned_of: list[str] = []

    def sent(self, value: Any) -> Any:
        """What is sent for a value of none of the usual types."""
        return value

    def unread(self, problem: Error) -> Exception:
        """The client's exception while it reads."""
        raise NotImplementedError

    def unwritten(self, problem: Exception, table: Any) -> Exception:
        """The client's exception for a table that has no encoding."""
        raise NotImplementedError

    def put(self, codec: Codec) -> None:
        """Puts a codec into its places."""
        raise NotImplementedError

    def frames(self) -> dict[str, Frame]:
        """The client's own frames that have tables."""
        raise NotImplementedError

    def relays(self) -> dict[str, Callable[[Any], bytes]]:
        """Other ways in which headers that came are sent: the bytes of their table there."""
        return {}

    def manner(self) -> dict[str, Any]:
        """Options of a native codec for what the versions of a client do differently, as its own codec does it now."""
        frame = self.frames()["header"]
        early, late = (value_read(frame, b"T" + it.to_bytes(8, "big")) for it in (0, 2**32))
        return {"aware_datetimes": early.tzinfo is not None, "milliseconds": late.year < 2000}

    def install(
        self,
        *,
        depth: int = DEPTH,
        max_bytes: int = MAX_BYTES,
        equal_keys: EqualKeys = "last",
        strict_keys: bool = False,
        exact: bool = True,
        raises: bool = False,
        on_refused: OnRefused | None = None,
    ) -> None:
        """Puts this codec in place of the client's, with these options, after a self-check. Call it before you connect.

            from amqp_values.adapters import pika as adapter
            adapter.install(equal_keys="refuse")

        Options, by name:

            depth=32           how deep containers nest at most, up to MOST_DEPTH; a deeper table is a `Refused`
            max_bytes=1048576  how many bytes a table has at most, its type tag counted; a larger one is a `Refused`
            equal_keys="last"  of equal keys in a table the last counts; "first", or "refuse": such a table is a `Refused`
            strict_keys=False  True: a table with a key that isn't UTF-8 is a `Refused`, and a table of yours with one isn't sent
            exact=True         headers keep their bytes, which are sent for all that you haven't changed; False for a `dict`
            raises=False       True raises the client's exception in place of a `Refused`, so that the connection is lost
            on_refused=None    a function that is called with each `Refused`, before the application gets it; None logs a
                               warning by `logging`, once a minute for each kind of problem

        If it raises an exception, nothing has changed: the client has its own codec, or that of an earlier `install`. It raises
        an `IncompatibleClient` if the self-check fails, and an `amqp_values.Error` or a TypeError for a wrong option. For a
        version of the client that wasn't tested it issues an `UntestedVersion` warning, once.
        """
        options: dict[str, Any] = {"depth": depth, "max_bytes": max_bytes, "equal_keys": equal_keys}
        options |= {"strict_keys": strict_keys, "exact": exact, "raises": raises, "on_refused": on_refused}
        Codec(self, **options)
        self.warn()
        earlier = [*self.places.changes]
        try:
            self.uninstall()
            self.put(Codec(self, **options, **self.checked_manner()))
        except BaseException as why:
            self.uninstall()
            for it in earlier:
                self.places.change(*it)
            if isinstance(why, Exception) and not isinstance(why, IncompatibleClient):
                raise self.incompatible(f"the self-check raised {why!r}") from why
            raise

    def checked_manner(self) -> dict[str, Any]:
        """The `manner` of a client that passes the self-check; it has its own codec, before and after that."""
        with warnings.catch_warnings():
            # (a client may warn of what it does by itself)
            warnings.simplefilter("ignore")
            manner, before = self.manner(), probed(self)
            self.put(Codec(self, on_refused=lambda _: None, **manner))
            wrong = [*differences(self, before)]
        self.uninstall()
        if wrong:
            more = f"; and {len(wrong) - 5} differences more" if len(wrong) > 5 else ""
            raise self.incompatible(f"{'; '.join(wrong[:5])}{more}")
        return manner

    def incompatible(self, what: str) -> IncompatibleClient:
        """The exception for a client that fails the self-check: its versions, what is wrong, and what others have changed in it."""
        foreign = ", ".join(foreign_in(self.modules))
        more = f"; not the client's own are {foreign}" if foreign else ""
        return IncompatibleClient(f"{', '.join(self.versions())}: {what}{more}")

    def uninstall(self) -> None:
        """Puts the client's own codec, and what is around it, back."""
        self.places.restore()

    def versions(self) -> list[str]:
        """The distributions that are there, each with its version."""
        found = []
        for at, name in enumerate(self.tested):
            try:
                found.append(f"{name} {metadata.version(name)}")
            except metadata.PackageNotFoundError:
                found += [f"{name} of an unknown version"] * (at == 0)
        return found

    def warn(self) -> None:
        """Warns of versions that the adapter wasn't tested with, once for all of them."""
        known = {f"{name} {it}" for name, versions in self.tested.items() for it in versions}
        others = [it for it in self.versions() if it not in known]
        if others and others != self.warned_of:
            message = f"the adapter wasn't tested with {', '.join(others)}, but with {', '.join(sorted(known))}"
            warnings.warn(f"{message}; it checks itself now", UntestedVersion, stacklevel=3)
            self.warned_of = others


class Places:
    """The changes to a client's objects, in order."""

    def __init__(self) -> None:
        # How each is made, given the object to replace and its replacement; the client's object, and ours.
        self.changes: list[tuple[Callable[[Any, Any], None], Any, Any]] = []

    def put(self, owner: Any, name: Any, ours: Any) -> None:
        """Puts an object at a key of a dictionary, or at a name of a class."""
        theirs = (owner if isinstance(owner, dict) else vars(owner))[name]
        self.change(partial(assign, owner, name), theirs, ours)

    def put_everywhere(self, module: ModuleType, name: str, ours: Any) -> None:
        """Puts a function in place of a module's, also where other modules have imported it by name."""
        self.change(rebind, getattr(module, name), ours)

    def change(self, replace: Callable[[Any, Any], None], theirs: Any, ours: Any) -> None:
        """Makes a change, recorded first: `restore` then also undoes one that an exception interrupted."""
        self.changes.append((replace, theirs, ours))
        replace(theirs, ours)

    def restore(self) -> None:
        """Puts all of the client's objects back, the last first, also where ours were imported by name."""
        while self.changes:
            replace, theirs, ours = self.changes[-1]
            replace(ours, theirs)
            self.changes.pop()


def assign(owner: Any, name: Any, _: Any, after: Any) -> None:
    """Puts an object at a key of a dictionary, or at a name of a class, whatever is there."""
    if isinstance(owner, dict):
        owner[name] = after
    else:
        setattr(owner, name, after)


# A module's global names. Asking a lazy module for `__dict__` would load it, which may fail.
names_of = vars(ModuleType)["__dict__"].__get__


def rebind(before: Any, after: Any) -> None:
    """Binds each global name of a module that has one object to another."""
    for module in [*sys.modules.values()]:
        if issubclass(type(module), ModuleType):
            names = names_of(module)
            for name in [it for it, value in [*names.items()] if value is before]:
                assign(names, name, before, after)
