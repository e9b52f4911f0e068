"""The Python package with objects whose methods lie, raise or change what is written, and with little stack or memory.

Threads, other processes, greenlets and failing allocations are tried too. watched.py writes hostile objects under sanitizers.
"""

import gc
import multiprocessing
import re
import subprocess
import sys
import threading
import tracemalloc
from collections.abc import Callable, Iterator, Mapping
from concurrent.futures import ThreadPoolExecutor
from datetime import datetime
from functools import partial
from pathlib import Path
from random import Random
from typing import Any

import amqp_values as own
import gevent
import pytest
from amqp_values.adapters import pika
from dependencies import TOP

from tests.model.encoding import field
from tests.model.inputs import damaged, nested, value_of
from tests.model.tables import EVERY_TYPE, odd_table, random_table, raw
from tests.python.hostile import DOCUMENTED, made
from tests.values import UTC, error_of, own_error


def test_hostile_arguments(seed: int) -> None:
    """Options, offsets, paths and numbers for classes that are hostile."""
    make = Random(seed)
    data = own.dumps_table({"a": [1]})
    calls: list[Callable[[Any], Any]] = [
        lambda it: own.loads(data, depth=it), lambda it: own.loads(data, max_bytes=it), lambda it: own.loads(data, keys=it),
        lambda it: own.loads(data, plain=it), lambda it: own.decode_table(data, it), lambda it: own.find(data, it, table=True),
        lambda it: own.find(data, "a", it, table=True), lambda it: own.loads(it), lambda it: own.decode_table(it),
        lambda it: own.dumps([], depth=it), lambda it: own.dumps([], finite=it), lambda it: own.find(data, table=it),
        lambda it: own.LongInt(it), lambda it: own.Float(it), lambda it: own.Timestamp(it), lambda it: own.LongString(it),
        lambda it: own.Float.of_bits(it), lambda it: own.Encoded(it), lambda it: own.to_json(it), lambda it: own.from_json(it),
        lambda it: own.to_json(data, table=it), lambda it: own.from_json("{}", depth=it), lambda it: own.from_json("{}", max_bytes=it),
    ]  # fmt: skip
    for _ in range(5000):
        value = made(make)
        for call in calls:
            found = error_of(lambda: call(value))
            assert found is None or issubclass(found, DOCUMENTED), found


class Odd(Mapping[str, Any]):
    """A mapping of one key, which does something when it is asked for that."""

    def __init__(self, act: Callable[[], object]) -> None:
        self.act = act

    def __getitem__(self, _: str) -> Any:
        return self.act()

    def __len__(self) -> int:
        return 1

    def __iter__(self) -> Iterator[str]:
        return iter("k")


def holding(value: Any) -> Odd:
    return Odd(lambda: value)


def raising(error: BaseException) -> Odd:
    def act() -> None:
        raise error

    return Odd(act)


def test_what_methods_raise() -> None:
    """It is the cause of an Error; what is no Exception passes through."""
    with pytest.raises(own.Error) as found:
        own.dumps({"x": [raising(KeyError("k"))]})
    assert found.value.kind == "raised" and isinstance(found.value.__cause__, KeyError)
    assert found.value.path == ("x", 0)
    with pytest.raises(KeyboardInterrupt):
        own.dumps([raising(KeyboardInterrupt())])


def test_containers_that_change() -> None:
    table: dict[str, Any] = {"a": 1}
    table["b"] = Odd(lambda: table.update(c=1))
    array: list[Any] = [1, 2]
    array.append(Odd(array.clear))
    growing: list[Any] = []
    growing.append(Odd(lambda: growing.append(growing[0])))
    for value in (table, array, growing):
        with pytest.raises(own.Error) as found:
            own.dumps(value)
        assert found.value.kind == "changed"


# Stacks, threads and memory


def test_the_largest_depth_in_a_thread_of_512_kib() -> None:
    """Deepest tables, arrays, mappings of other classes, and errors at their inside, are read and written there."""
    levels, wrong, found = own.MOST_DEPTH, own.Encoded(nested("A", 1, b"z")), []
    deep: Any = {"k": own.LongInt(5)}
    for at in range(levels - 1):
        deep = [deep] if at % 3 == 0 else {"k": deep} if at % 3 == 1 else holding(deep)
        wrong = [wrong]  # type: ignore[assignment]
    data = own.dumps(deep, depth=levels)
    bad = nested("A", levels, b"z"), nested("F", levels, b"S\0\0\0\1\xff"), nested("F", levels + 1, b"V"), data[:-1]

    def run() -> None:
        for how in ("last", "refuse"):
            options: dict[str, Any] = {"depth": levels, "equal_keys": how}
            found.append(own.dumps(own.loads(data, **options), depth=levels) == data)
            for more in (options, {**options, "keys": "bytes"}):
                found.extend(own_error(lambda: own.loads(it, **more)) is not None for it in bad)
        found.append(own_error(lambda: own.dumps(wrong, depth=levels)) == ("unknown tag", 5 * levels, 0))

    before = threading.stack_size(512 << 10)
    thread = threading.Thread(target=run)
    thread.start()
    thread.join()
    threading.stack_size(before)
    assert found == [True] * 19


def test_near_the_limit_of_recursion() -> None:
    """Wherever Python's own limit is met, what comes is documented."""
    data = own.dumps_table(EVERY)
    values: list[Any] = [EVERY, [EVERY], holding(EVERY), {"t": datetime(2027, 1, 15, tzinfo=UTC)}]
    calls: list[Callable[[], object]] = [lambda: own.loads_table(data, plain=True)]
    calls += [partial(own.dumps, it) for it in values]

    def below(levels: int) -> None:
        if levels:
            below(levels - 1)
        for call in calls:
            call()

    limit = sys.getrecursionlimit()
    seen = set()
    for levels in range(limit - 200, limit, 3):
        try:
            below(levels)
        except RecursionError as why:
            # (of `below` itself, and not of a call)
            assert why.__traceback__
            last = why.__traceback__
            while last.tb_next:
                last = last.tb_next
            seen.add(last.tb_frame.f_code.co_name)
        except own.Error as why:
            seen.add(why.kind)
    assert seen <= {"below", "<lambda>", "raised", "__getitem__", "__iter__", "__len__"}


EVERY = own.loads(raw(EVERY_TYPE))


def test_threads() -> None:
    """Eight threads read and write at once, and get what one gets."""
    make = Random(7)
    tables = [raw(random_table(make)) for _ in range(200)]

    def wrong(_: int) -> list[bytes]:
        return [it for it in tables * 5 if own.dumps(own.loads(it, text="bytes")) != it]

    with ThreadPoolExecutor(8) as pool:
        assert [*pool.map(wrong, range(8))] == [[]] * 8


PACKAGE = str(Path(own.__file__).parents[1])
INSTALL = "from amqp_values.adapters import pika; pika.install()"
READ = "type(__import__('amqp_values.adapters.pika').adapters.pika.client.frames()['header'].read(bytes(4))).__name__"
CHILDREN = [("fork", "", "Headers"), ("spawn", "", "dict"), ("forkserver", "", "dict"), ("spawn", INSTALL, "Headers")]


@pytest.mark.parametrize("way, initially, wanted", CHILDREN)
def test_processes(way: str, initially: str, wanted: str) -> None:
    """A process that is forked has what was installed; one that begins anew installs it itself."""
    pika.install()
    with multiprocessing.get_context(way).Pool(1, exec, (initially,)) as pool:
        assert pool.apply(eval, (READ,)) == wanted
    pika.uninstall()


def test_greenlets() -> None:
    """Others run only while methods of objects are called. An adapter works where gevent has put its own sockets."""
    table: dict[str, Any] = {"a": Odd(gevent.sleep)}
    writing, other = gevent.spawn(own.dumps_table, table), gevent.spawn(table.update, b=1)
    assert own.loads(own.dumps(EVERY)) and len(table) == 1
    gevent.joinall([writing, other])
    assert writing.exception.kind == "changed"
    patched = f"import sys; sys.path.insert(0, {PACKAGE!r}); from gevent import monkey; monkey.patch_all(); {INSTALL}"
    subprocess.run([sys.executable, "-c", f"{patched}; assert {READ} == 'Headers'"], check=True)


# Bytes of which as much is made as can be, again and again.
DENSE = {
    "Floats": b"f\0\0\0\1", "Voids": b"V", "booleans": b"t\1", "ShortShortInts": b"b\1", "LongInts": b"I\0\0\1\1",
    "Timestamps": b"T\0\0\0\1" + b"\1" * 4, "decimals": b"D\2\0\0\0\1", "doubles": b"d" + b"\1" * 8,
    "strings": b"S\0\0\0\0", "letters": b"S\0\0\0\2\xc3\xb6", "bytes": b"x\0\0\0\1a", "LongStrings": b"S\0\0\0\1\xff",
    "arrays": b"A\0\0\0\0", "tables": b"F\0\0\0\0", "arrays of a Void": b"A\0\0\0\1V", "nested arrays": nested("A", 60, b""),
    "tables of a Void": field(b"F", b"\1aV"), "nested tables": nested("F", 60, b"V"),
    "tables of an empty key": field(b"F", b"\0V"), "nested tables of empty keys": nested("F", 60, b"V", b"\0"),
    "tables of an empty key and another": field(b"F", b"\0V\1aV"), "tables of equal keys": field(b"F", b"\0V\0V"),
}  # fmt: skip


@pytest.mark.parametrize("name", DENSE)
def test_memory(name: str) -> None:
    """A value that is read takes at most as many times its bytes as docs/PYTHON.md says, of plain types too."""
    (most,) = re.findall(r"at most (\d+) times the memory of its bytes", (TOP / "docs/PYTHON.md").read_text())
    value = DENSE[name]
    data = field(b"A", value * (100_000 // len(value)))
    given: list[dict[str, Any]] = [{}, {"plain": True}, {"equal_keys": "refuse"} if "equal keys" not in name else {}]
    for options in given:
        gc.collect()
        tracemalloc.start()
        found = own.loads(data, max_bytes=len(data), text="bytes", depth=own.MOST_DEPTH, **options)
        _, peak = tracemalloc.get_traced_memory()
        tracemalloc.stop()
        assert len(found) == 100_000 // len(value)
        assert peak <= int(most) * len(data), f"{peak / len(data):.1f} times"


# Each allocation that fails in turn, in a process of its own.
NO_MEMORY = """
import sys
sys.path[:0] = sys.argv[2:]
import _testcapi
import amqp_values as av
from amqp_values.adapters.shared import Client, Codec
from decimal import Decimal
from datetime import datetime, timezone
value = {"a": [1, 10**12, "x" * 600, b"y", {"b": None, "\\xe9": True}, av.LongInt(500), av.Float(1.5), 2.5], "c": Decimal("1.5"),
         "k" * 255: "z" * 3000, "t": datetime(2027, 1, 15, tzinfo=timezone.utc), "m": av.Timestamp(2**34)}
data = av.dumps(value)
class Other(Client):
    how = {"integers": "py-amqp", "ascending": True, "bytes_are_text": True, "bytearrays": True, "short_decimals": True}
codec = Codec(Other(), equal_keys="refuse", aware_datetimes=True, milliseconds=True)
came = codec.read(data, 1)[0]
text = av.to_json(data).encode()
call = {
    "loads": lambda: av.loads(data),
    "plain": lambda: av.loads(bytearray(data), plain=True),
    "encoded": lambda: av.loads_table(data[1:], encoded=True),
    "refuse": lambda: av.decode_table(data, 1, equal_keys="refuse"),
    "find": lambda: av.find(data, "a", 2),
    "to_json": lambda: av.to_json(bytearray(data)),
    "from_json": lambda: av.from_json(bytearray(text)),
    "dumps": lambda: av.dumps(value),
    "escaped": lambda: av.dumps_table({"\\udcff": "\\udcff"}, keys="surrogateescape", text="surrogateescape"),
    "bytes": lambda: av.dumps_table({b"\\xff": 1}, keys="bytes"),
    "codec": lambda: type(av._native.Codec(codec, dict, None, others=len, depth=3)),
    "codec read": lambda: codec.read(data, 1),
    "codec write": lambda: codec.write(value),
    "codec relay": lambda: codec.write(came),
}[sys.argv[1]]
wanted, failed = call(), 0
for at in range(400):
    # (the first is number 0)
    _testcapi.set_nomemory(at, at + 1)
    try:
        assert call() == wanted
    except MemoryError:
        failed += 1
    finally:
        _testcapi.remove_mem_hooks()
    assert call() == wanted
print(failed)
"""
CALLS = re.findall(r'(?m)^    "([\w ]+)": lambda', NO_MEMORY)


@pytest.mark.parametrize("name", CALLS)
def test_no_memory(name: str) -> None:
    """Whichever allocation fails, a MemoryError comes, and the next call has what it had before."""
    done = subprocess.run([sys.executable, "-c", NO_MEMORY, name, PACKAGE], capture_output=True, text=True)
    assert not done.returncode, done.stderr[-1500:]
    assert int(done.stdout) >= 1
