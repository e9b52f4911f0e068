"""`made`: random objects whose own methods lie and raise; test_worst_cases.py and watched.py pass them to calls."""

from collections.abc import Callable, Iterator, Mapping, Sequence
from datetime import datetime, timedelta, timezone, tzinfo
from decimal import Decimal
from random import Random
from typing import Any

import amqp_values as own

# What the package may raise.
DOCUMENTED = (own.Error, TypeError, MemoryError)


class Raised(Exception):
    """What hostile methods raise."""


ANY: list[Any] = [
    None, -1, 2**70, 1.5, "x", b"x", [], (1,), (1, 2, 3), {"a": 1}, float("nan"), "\ud800", object(), int, Decimal("sNaN"),
    datetime(2027, 1, 15), timedelta(days=10**6), lambda *_: 1, ("k", 1), [("k", 1)], [("k",)], [None], iter([("k", 2)] * 2),
]  # fmt: skip
RAISES: list[type[BaseException]] = [
    Raised, ValueError, KeyError, IndexError, OverflowError, RecursionError, StopIteration, AttributeError, TypeError,
    MemoryError, SystemError, UnicodeDecodeError, OSError, own.Error, ZeroDivisionError,
]  # fmt: skip


def hostile(make: Random) -> Callable[..., Any]:
    """A method that returns anything, or raises."""
    if make.random() < 0.5:
        kind = make.choice(RAISES)
        arguments: tuple[Any, ...] = {UnicodeDecodeError: ("utf-8", b"", 0, 0, ""), own.Error: ("own",)}.get(kind, ())

        def raising(*_: Any, **__: Any) -> Any:
            raise kind(*arguments)

        return raising
    found = make.choice(ANY)
    return lambda *_, **__: found


METHODS = {
    int: ["__index__", "__int__", "__eq__", "__lt__", "__hash__", "__repr__", "__add__", "__neg__", "bit_length"],
    float: ["__float__", "__eq__", "__ne__", "__sub__", "__repr__", "__hash__"],
    str: ["encode", "__eq__", "__hash__", "__len__", "__getitem__", "__str__", "__iter__"],
    bytes: ["__len__", "__getitem__", "__iter__", "__bytes__", "__eq__", "__hash__"],
    Decimal: ["as_tuple", "__int__", "__float__", "__eq__", "__str__", "__neg__", "scaleb", "is_finite"],
    datetime: ["utcoffset", "timestamp", "__sub__", "__rsub__", "astimezone", "replace", "__getattribute__"],
    dict: ["items", "keys", "__iter__", "__len__", "__getitem__", "__contains__"],
    list: ["__iter__", "__len__", "__getitem__"],
    tuple: ["__iter__", "__len__", "__getitem__"],
}  # fmt: skip
BASES: dict[type, list[Any]] = {
    int: [5, -1, 2**63], float: [1.5], str: ["text", "\ud800"], bytes: [b"bytes"], Decimal: ["1.5", "-1", "sNaN"],
    dict: [{"a": 1}], list: [[1, 2]], tuple: [(1, 2)],
}  # fmt: skip
CLASSES = (own.LongInt, own.ShortInt, own.Timestamp, own.Float, own.LongString, own.Encoded)


def of_base(make: Random, base: type) -> Any:
    """An object of a subclass that has hostile methods."""
    wanted = next(it for it in METHODS if issubclass(base, it))
    names = make.sample(METHODS[wanted], make.randrange(1, 4))
    kind: Any = type("Hostile", (base,), {name: hostile(make) for name in names})
    if base is datetime:
        return kind(2027, 1, 15, tzinfo=make.choice([None, timezone.utc, Zone(make)]))
    value = make.choice(BASES[wanted])
    created: Any = wanted.__new__
    if wanted not in (dict, list):
        return created(kind, value)
    made = created(kind)
    fill: Any = dict.update if wanted is dict else list.extend
    fill(made, value)
    return made


class Zone(tzinfo):
    def __init__(self, make: Random) -> None:
        self.make = make

    def any(self, _: datetime | None) -> Any:
        return hostile(self.make)()

    utcoffset = dst = tzname = any


class Items(Mapping[str, Any]):
    """A mapping that is hostile in all that it has."""

    def __init__(self, make: Random) -> None:
        self.make = make

    def any(self, *_: Any) -> Any:
        return hostile(self.make)()

    __getitem__ = __len__ = any

    def __iter__(self) -> Iterator[str]:
        yield "a"
        yield self.any()

    def items(self) -> Any:
        return super().items() if self.make.random() < 0.5 else self.any()


class Values(Sequence[Any]):
    def __init__(self, make: Random) -> None:
        self.make = make

    def __getitem__(self, at: Any) -> Any:
        if at > 3:
            raise IndexError
        return hostile(self.make)()

    def __len__(self) -> int:
        return self.make.choice([0, 5, 10**6])

    def __iter__(self) -> Any:
        return super().__iter__() if self.make.random() < 0.5 else hostile(self.make)()


class Liar:
    """Something that does something when it is asked for its class, as by isinstance."""

    def __init__(self, act: Callable[[], Any]) -> None:
        self.act = act

    def __getattribute__(self, name: str) -> Any:
        return object.__getattribute__(self, "act")() if name == "__class__" else object.__getattribute__(self, name)


def object_of(make: Random, depth: int = 2) -> Any:
    """An object to be written, which may be hostile, and contain others."""
    choice = make.randrange(9 if depth else 6)
    if choice < 3:
        return of_base(make, make.choice([*METHODS, *CLASSES]))
    if choice == 3:
        return make.choice([Items(make), Values(make), Liar(lambda: hostile(make)())])
    if choice < 6:
        return make.choice(ANY if choice == 4 else [1, "a", None, True, b"", 1.5, own.LongInt(1)])
    if choice == 6:
        found = [object_of(make, depth - 1) for _ in range(make.randrange(3))]
        if make.random() < 0.1:
            # (it empties the list that it is in)
            found.append(Liar(found.clear))
        return found
    inside = object_of(make, depth - 1)
    return (inside,) if choice == 8 else {make.choice(["a", "b", b"c", "\ud800", object_of(make, 0)]): inside}


def made(make: Random) -> Any:
    """The same, if an object can be made: one that has no hash is no key."""
    while True:
        try:
            return object_of(make)
        except Exception:
            continue
