"""`install` of each adapter, by the client's own frames: its self-check, its options, and that it changes everything or nothing."""

import inspect
import json
import sys
import traceback
import warnings
from collections.abc import Callable, Iterator
from concurrent.futures import ThreadPoolExecutor
from copy import copy
from importlib import import_module, metadata
from itertools import count
from types import ModuleType, SimpleNamespace
from typing import Any

import pytest
from amqp_values import Error
from amqp_values.adapters import Headers, IncompatibleClient, Refused, UntestedVersion, refused
from amqp_values.adapters import frames, pamqp, pika, pyamqp, self_check, shared

from tests.values import error_of

# Each adapter: the modules that have the client's codec, and the packages whose objects it replaces.
ADAPTERS: dict[str, tuple[Any, tuple[str, ...], tuple[str, ...]]] = {
    "pika": (pika, ("pika.data", "pika.spec"), ("pika",)),
    "pyamqp": (pyamqp, ("amqp.serialization",), ("amqp", "kombu")),
    "pamqp": (pamqp, ("pamqp.decode", "pamqp.encode"), ("pamqp", "aiormq", "aio_pika")),
}
DEEP, TWICE = self_check.deep(70), self_check.of((b"a", b"t\1"), (b"a", b"V"))
# Pairs of a table that no client writes with these bytes, nor in this order.
ODD = ((b"z", b"u\0\5"), (b"a", b"t\7"), (b"e", b"F\0\0\0\0"))
Bindings = dict[Any, dict[Any, Any]]
# (what the first call of this, and the first `install`, would import is there before)
assert metadata.version("pika") and all(import_module(it) for _, *of in ADAPTERS.values() for it in sum(of, ()))


class Interrupted(BaseException):
    """What a step raises."""


class Lazy(ModuleType):
    """A module that fails to load when it is asked for anything."""

    def __getattribute__(self, name: str) -> Any:
        raise ImportError(name)


def interrupting(number: int) -> Callable[..., None]:
    """In place of what changes a client a function that raises once, after it has changed something."""
    calls, change = count(), shared.Places.change

    def act(self: Any, *given: Any) -> None:
        change(self, *given)
        if next(calls) == number:
            raise Interrupted

    return act


def bindings(packages: tuple[str, ...]) -> Bindings:
    """What each name is bound to, in all modules, and in the classes and dictionaries of these packages' modules."""
    found: Bindings = {}
    for module_name, module in [*sys.modules.items()]:
        if issubclass(type(module), ModuleType):
            found[module_name] = dict(vars(ModuleType)["__dict__"].__get__(module))
            for name, it in found[module_name].items() if module_name.partition(".")[0] in packages else ():
                if isinstance(it, (dict, type)):
                    found[module_name, name] = dict(it if isinstance(it, dict) else vars(it))
    return found


def changed(before: Bindings, now: Bindings) -> list[Any]:
    """The names that are bound to another object now."""
    none: dict[Any, Any] = {}
    pairs = [(where, before.get(where, none), now.get(where, none)) for where in {**before, **now}]
    return [(where, name) for where, old, new in pairs for name in {**old, **new} if old.get(name) is not new.get(name)]


@pytest.fixture(params=ADAPTERS)
def name(request: pytest.FixtureRequest, monkeypatch: pytest.MonkeyPatch) -> Iterator[str]:
    """The name of an adapter. Its clients are imported, and a module behind all others has their functions by name."""
    found, codecs, packages = ADAPTERS[request.param]
    behind: Any = ModuleType("behind")
    for it in map(import_module, codecs + packages):
        vars(behind).update({key: each for key, each in vars(it).items() if callable(each)})
    monkeypatch.setitem(sys.modules, "lazy", Lazy("lazy"))
    monkeypatch.setitem(sys.modules, "behind", behind)
    yield request.param
    found.uninstall()


@pytest.mark.parametrize("is_installed", [False, True], ids=["first", "again"])
def test_a_failed_install_changes_nothing(name: str, is_installed: bool) -> None:
    """Whichever change is interrupted, the client has its own objects, or those that an earlier install has put there."""
    adapter, _, packages = ADAPTERS[name]
    own = bindings(packages)
    if is_installed:
        adapter.install(depth=3)
    before, interrupted = bindings(packages), 0
    assert ("behind" in dict(changed(own, before))) == is_installed
    for number in count():
        try:
            with pytest.MonkeyPatch.context() as patch:
                patch.setattr(shared.Places, "change", interrupting(number))
                adapter.install()
            break
        except Interrupted:
            interrupted += 1
        assert changed(before, bindings(packages)) == [], number
    assert interrupted >= 4 and "behind" in dict(changed(before, bindings(packages)))
    adapter.uninstall()
    assert changed(own, bindings(packages)) == []


def test_options(name: str) -> None:
    """By the client's own frames, one install after another."""
    adapter, _, packages = ADAPTERS[name]
    own, (header, method) = bindings(packages), adapter.client.frames().values()
    by_itself = header.read(TWICE)
    adapter.install()
    assert isinstance(header.read(DEEP), Refused) and type(header.read(TWICE)) is Headers
    # (in other threads too)
    came, deep = ThreadPoolExecutor().map(header.read, (TWICE, DEEP))
    assert came == {"a": None} == by_itself
    for it in (came, deep):
        assert method.write(it) == header.write(copy(it)) == header.write(it.copy()) == it.raw
        it["a"] = 3
    assert header.write(came) == header.write({"a": 3})
    # (the others would be lost)
    unwritten = type(adapter.client.unwritten(TypeError(), {}))
    odd, deep_too, more = header.read(self_check.of(*ODD)), header.read(DEEP), (b"k", b"V")
    for wrong in (deep, deep.copy(), deep | {}, {} | deep, {"in": deep_too}, {"in": [odd | {"e": deep_too}]}):
        assert error_of(lambda: header.write(wrong)) is unwritten, wrong
    assert header.write({"k": None} | odd) == self_check.of(more, *ODD) != header.write({**odd, "k": None})
    for it, pairs in ((odd, ODD), (odd | {"k": None}, (*ODD, more))):
        inside = (b"in", b"F" + self_check.of(*pairs))
        assert header.write({"in": it}) == self_check.of(inside)
        assert header.write(odd | {"in": it}) == self_check.of(*ODD, inside)
    adapter.install(depth=71, equal_keys="first", exact=False)
    assert header.read(TWICE) == {"a": True} and type(header.read(TWICE)) is dict is type(header.read(DEEP))
    adapter.install(equal_keys="refuse")
    assert isinstance(header.read(TWICE), Refused) and header.write(header.read(TWICE)) == TWICE
    no_text = self_check.of((b"\xff", b"V"))
    assert type(header.read(no_text)) is Headers
    for wrong in ({"depth": 513}, {"depth": 0}, {"max_bytes": 4}, {"on_refused": 1}):
        assert error_of(lambda: adapter.install(**wrong)) in (Error, TypeError), wrong
    assert isinstance(header.read(TWICE), Refused)
    adapter.install(max_bytes=10)
    assert isinstance(header.read(self_check.of((b"long", b"V"))), Refused)
    adapter.install(strict_keys=True)
    assert isinstance(header.read(no_text), Refused) and type(header.read(self_check.of(*ODD))) is Headers
    adapter.install(raises=True)
    assert isinstance(error := self_check.raised(lambda: header.read(DEEP)), Exception)
    assert type(error) is type(adapter.client.unread(None))
    adapter.install(depth=512)

    def below(calls: int) -> Any:
        return below(calls - 1) if calls else header.read(DEEP)

    # (where Python's own limit of calls is near)
    assert type(below(sys.getrecursionlimit() - len([*traceback.walk_stack(None)]) - 30)) is Headers
    adapter.uninstall()
    adapter.uninstall()
    assert changed(own, bindings(packages)) == [] and header.read(TWICE) == by_itself


# What is refused by equal_keys="refuse" and max_bytes=600: a table, and the byte at which its problem is.
PROBLEMS = {
    "unknown tag": (self_check.of((b"a", b"V"), (b"k", b"?")), b"?"), "cut": (self_check.of((b"k", b"S\0\0\0\5abcd")), b"S"),
    "too deep": (DEEP, b"F"), "equal keys": (TWICE, b"\1"), "too large": (self_check.of((b"k", b"x" + bytes(700))), b"\0"),
    "key cut": (self_check.of((b"k", b"A\0\0\0\7F\0\0\0\2\5ab")), b"\5"),
}  # fmt: skip


def test_what_is_refused(name: str, caplog: pytest.LogCaptureFixture, monkeypatch: pytest.MonkeyPatch) -> None:
    """Its offset is in its bytes, whatever is before them; `on_refused` gets it, or a warning is logged, once a minute."""
    adapter, came, how = ADAPTERS[name][0], list[Refused](), {"equal_keys": "refuse", "max_bytes": 600}
    read = adapter.client.frames()["header"].read
    adapter.install(on_refused=came.append, **how)
    for kind, (table, byte) in PROBLEMS.items():
        found = read(table)
        at = found.problem.offset
        assert (found.problem.kind, found.raw, found.raw[at : at + 1]) == (kind, table, byte) and came.pop() is found
    assert read(DEEP).problem.offset == 223 and not caplog.records
    adapter.install(on_refused=lambda it: it["no such key"], **how)
    assert isinstance(read(DEEP), Refused) and "on_refused raised" in caplog.text
    caplog.clear()
    adapter.install(**how)
    for seconds, count_of in ((0, 2), (59, 2), (60, 4)):
        monkeypatch.setattr(shared, "monotonic", lambda: 1000.0 + seconds)
        assert [read(it) for it in (DEEP, TWICE, DEEP)] and len(caplog.records) == count_of
    assert "refused a table of 487 bytes: too deep at 223: expected" in caplog.messages[0]
    # (tests/rabbitmq has messages of each client)
    if name == "pamqp":
        message = import_module("aio_pika").Message
        assert refused(message(b"", headers=read(DEEP)).headers)
        nested = message(b"", headers={"in": message(b"", headers=read(self_check.of(*ODD))).headers})
        assert pamqp.write_header(nested.properties.headers) == self_check.of((b"in", b"F" + self_check.of(*ODD)))
    assert refused(None) is refused({}) is refused(Headers(a=1).copy()) is None
    assert error_of(lambda: refused(b"body")) is TypeError


# Strings that the broker delivers next to headers, as a routing key, and as properties that a consumer answers with.
SHORT_STRINGS = [b"", b"a", b"\xff\xfe", b"\xff\xc3\xbc", b"\xed\xb3\xbf", "grüß 漢🐇".encode(), b"\xff" * 255, b"\xc3"]


@pytest.mark.parametrize("content", SHORT_STRINGS)
def test_strings_next_to_headers_come_back(content: bytes) -> None:
    data = bytes([len(content)]) + content
    for adapter in (pyamqp, pamqp):
        adapter.install()
    try:
        serialization = import_module("amqp.serialization")
        assert serialization.dumps("so", serialization.loads("so", data + b"\7", 0)[0]) == data + b"\7"
        properties = serialization.decode_properties_basic(b"\4\0" + data, 0)[0]
        assert serialization.dumps(b"s", [properties["correlation_id"]]) == data
        decode, encode = import_module("pamqp.decode"), import_module("pamqp.encode")
        assert encode.by_type(decode.by_type(data + b"..", "shortstr")[1], "shortstr") == data
        late, early = (decode.by_type(it * 8, "timestamp")[1] for it in (b"\xff", b"\0"))
        assert late.year == 9999 and late.tzinfo is early.tzinfo
    finally:
        pyamqp.uninstall()
        pamqp.uninstall()


# Clients that have changed: a function is moved, a type is another, an attribute isn't there, a value is lost, something raises.


def moved(where: Any, name: str) -> Callable[[pytest.MonkeyPatch], None]:
    """The module that has the client's frames calls functions that are elsewhere now."""
    return lambda patch: patch.setattr(where, name, SimpleNamespace(**vars(getattr(where, name))))


def wrapped(where: Any, name: Any, change: Callable[[Any], Any]) -> Callable[[pytest.MonkeyPatch], None]:
    """What a function returns is changed."""

    def act(patch: pytest.MonkeyPatch) -> None:
        theirs = where[name] if isinstance(where, dict) else getattr(where, name)
        ours: Any = lambda *given, **how: change(theirs(*given, **how))
        patch.setitem(where, name, ours) if isinstance(where, dict) else patch.setattr(where, name, ours)

    return act


def lacking(where: Any, name: str) -> Callable[[pytest.MonkeyPatch], None]:
    return lambda patch: patch.delattr(where, name)


def raising_from(number: int) -> Callable[[Any], Any]:
    """A change that raises from some call on."""
    calls = count()

    def change(it: Any) -> Any:
        if next(calls) >= number:
            raise OSError("in the middle")
        return it

    return change


def losing(where: Any) -> Callable[[pytest.MonkeyPatch], None]:
    """A class of messages loses headers that are None."""
    theirs: Any = where.__init__

    def less(it: Any) -> Any:
        return {key: each for key, each in it.items() if each is not None} if isinstance(it, dict) else it

    def init(self: Any, *given: Any, **how: Any) -> None:
        theirs(self, *given, **{key: less(it) for key, it in how.items()})

    return lambda patch: patch.setattr(where, "__init__", init)


def changes() -> dict[str, tuple[str, Callable[[pytest.MonkeyPatch], None]]]:
    data, spec = import_module("pika.data"), import_module("pika.spec")
    serialization, message = import_module("amqp.serialization"), import_module("amqp.basic_message").Message
    channel, decode = import_module("amqp.abstract_channel"), import_module("pamqp.decode")
    methods = dict(decode.METHODS)

    def by_type(value: bytes, kind: str, offset: int = 0) -> Any:
        return decode.bit(value, offset) if kind == "bit" else methods[kind](value)

    own_encode, properties = spec.BasicProperties.encode, import_module("pamqp.commands").Basic.Properties

    def encode(self: Any) -> Any:
        try:
            return own_encode(self)
        except Exception as why:
            raise OSError from why

    as_float = lambda it: (float(it[0]), it[1]) if type(it[0]).__name__ == "Decimal" else it
    return {
        "pika, moved": ("pika", moved(spec, "data")),
        "pika, another type": ("pika", wrapped(data, "decode_value", as_float)),
        "pika, lacking": ("pika", lacking(data, "encode_table")),
        "pika, a lost value": ("pika", losing(spec.BasicProperties)),
        "pika, raising": ("pika", wrapped(spec.BasicProperties, "encode", raising_from(20))),
        "pika, another exception": ("pika", lambda patch: patch.setattr(spec.BasicProperties, "encode", encode)),
        "pyamqp, moved": ("pyamqp", wrapped(channel, "loads", lambda it: it)),
        "pyamqp, another type": ("pyamqp", wrapped(serialization, "_read_item", as_float)),
        "pyamqp, lacking": ("pyamqp", lacking(serialization, "pstr_t")),
        "pyamqp, a lost value": ("pyamqp", losing(message)),
        "pyamqp, raising": ("pyamqp", wrapped(message, "inbound_header", raising_from(30))),
        "pamqp, moved": ("pamqp", lambda patch: patch.setattr(decode, "by_type", by_type)),
        "pamqp, another type": ("pamqp", wrapped(decode.TABLE_MAPPING, b"D", lambda it: (it[0], float(it[1])))),
        "pamqp, lacking": ("pamqp", lambda patch: patch.delitem(decode.METHODS, "timestamp")),
        "pamqp, a lost value": ("pamqp", losing(properties)),
        "pamqp, raising": ("pamqp", wrapped(properties, "marshal", raising_from(20))),
    }  # fmt: skip


CHANGES = changes()


@pytest.mark.parametrize("change", CHANGES)
def test_a_changed_client_is_refused(change: str, monkeypatch: pytest.MonkeyPatch) -> None:
    name, act = CHANGES[change]
    adapter, _, packages = ADAPTERS[name]
    act(monkeypatch)
    before = bindings(packages)
    try:
        with pytest.raises(IncompatibleClient, match=f"^{'amqp' if name == 'pyamqp' else name} [0-9.]+"):
            adapter.install()
        assert changed(before, bindings(packages)) == []
    finally:
        adapter.uninstall()


def test_the_message_has_what_differs(monkeypatch: pytest.MonkeyPatch) -> None:
    CHANGES["pika, moved"][1](monkeypatch)
    with pytest.raises(IncompatibleClient, match="headers in a header come as dict; "):
        pika.install()
    monkeypatch.undo()
    monkeypatch.setattr(import_module("pika.data"), "decode_table", lambda encoded, offset: ({}, len(encoded) - 1))
    with pytest.raises(IncompatibleClient, match=rf"reads {{}} in .*; not .* pika.data.decode_table \(of {__name__}\)"):
        pika.install()
    monkeypatch.undo()
    CHANGES["pyamqp, another type"][1](monkeypatch)
    with pytest.raises(IncompatibleClient, match=r"D in a header was float 3.14 and is Decimal Decimal\('3.14'\)"):
        pyamqp.install()


# Help


def test_help_has_each_option() -> None:
    """With its default."""
    text = str(inspect.getdoc(shared.Client.install))
    options = [it for it in inspect.signature(shared.Client.install).parameters.values() if it.kind is it.KEYWORD_ONLY]
    shown = [f"{it.name}={json.dumps(it.default) if isinstance(it.default, str) else it.default}" for it in options]
    assert len(shown) == 7 and not [it for it in shown if f"\n    {it} " not in text]


def test_a_missing_client(name: str, monkeypatch: pytest.MonkeyPatch) -> None:
    client = next(iter(ADAPTERS[name][0].client.tested))
    monkeypatch.setitem(vars(sys)["modules"], client, None)
    monkeypatch.delitem(sys.modules, f"amqp_values.adapters.{name}")
    with pytest.raises(ModuleNotFoundError, match=f"pip install {client}$"):
        import_module(f"amqp_values.adapters.{name}")


# Versions


def test_versions(name: str, monkeypatch: pytest.MonkeyPatch) -> None:
    """Those that were tested, by the metadata of the distributions; of all others one warning comes, and the adapter works."""
    adapter = ADAPTERS[name][0]
    with warnings.catch_warnings():
        warnings.simplefilter("error")
        monkeypatch.setattr(
            shared, "probed", lambda client: (warnings.warn("by the client"), self_check.probed(client))[1]
        )
        adapter.install()
    found: dict[str, str | None] = {it: "99.1" for it in adapter.client.tested}

    def version(name: str) -> str:
        if found[name] is None:
            raise metadata.PackageNotFoundError(name)
        return str(found[name])

    monkeypatch.setattr(metadata, "version", version)
    with pytest.warns(UntestedVersion, match="99.1") as came:
        adapter.install()
        adapter.install()
    assert len(came) == 1 and came[0].filename == __file__ and all(it in str(came[0].message) for it in found)
    found = dict.fromkeys(found)
    with pytest.warns(UntestedVersion, match="of an unknown version"):
        adapter.install()
