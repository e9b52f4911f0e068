"""Python's clients, alone and with their adapters, and the package, as sides of bench/measure.py.

It takes the commands of driver.rs. Each client that is installed has a side, and one more with its adapter. An input
is a table with its type tag. What is read is right if it is what an application has by tests/rabbitmq/seen.py, which
shares nothing with the package, and what is written if the model reads it as that again.
"""

import sys
from importlib import import_module, metadata
from importlib.util import find_spec
from pathlib import Path
from timeit import Timer
from typing import Any

import amqp_values

from tests.rabbitmq.seen import VERSIONS, Client, parsed, seen

# By the name of a side the module that it needs and its adapter, and what reads `data` and writes `table`: the calls that an
# adapter replaces, or the least around them.
CLIENTS = {
    "pika": ("pika", "pika", "pika.data.decode_table(data, 0)", "pika.data.encode_table(pieces, table)"),
    "py-amqp": (
        "amqp",
        "pyamqp",
        "amqp.serialization.loads('F', data, 0)",
        "amqp.serialization._write_table(table, pieces.append, [])",
    ),
    "pamqp": ("pamqp", "pamqp", "pamqp.decode.by_type(data, 'table')", "pamqp.encode.by_type(table, 'table')"),
}
PACKAGE = "amqp_values.loads_table(data)", "amqp_values.dumps_table(table, naive_datetimes=True)"
MODULES = {
    "pika": ["pika.data"],
    "amqp": ["amqp.serialization"],
    "pamqp": ["pamqp.decode", "pamqp.encode"],
}


def version_of(side: str) -> Client:
    """The version of a client by which `seen` knows what it reads; the package reads what pika 1.2.0 does."""
    if side == "package":
        return VERSIONS["pika 1.2.0"]
    distribution = CLIENTS[side][0]
    return VERSIONS[f"{distribution} {metadata.version(distribution)}"]


def is_same(one: Any, other: Any) -> bool:
    """Whether two values are equal, whatever the order of keys, and no boolean is a number."""
    if isinstance(one, dict) and isinstance(other, dict):
        return one.keys() == other.keys() and all(is_same(it, other[key]) for key, it in one.items())
    if isinstance(one, list) and isinstance(other, list):
        return len(one) == len(other) and all(map(is_same, one, other))
    return isinstance(one, bool) == isinstance(other, bool) and bool(one == other)


class Side:
    """What reads and writes by a client, with its adapter or not, or by the package."""

    def __init__(self, client: str, has_adapter: bool) -> None:
        self.client, self.has_adapter = client, has_adapter
        self.names: dict[str, Any] = {"amqp_values": amqp_values}
        self.read, self.write = PACKAGE
        if client in CLIENTS:
            module, self.adapter, self.read, self.write = CLIENTS[client]
            for it in MODULES[module]:
                import_module(it)
            self.names[module] = import_module(module)

    def load(self, data: bytes) -> None:
        """Takes an input, and what an application has for it."""
        self.data, self.table = data[1:], seen(version_of(self.client), parsed(data)[0])

    def named(self) -> dict[str, Any]:
        """What statements name."""
        return self.names | {"data": self.data, "table": self.table}

    def timer(self, operation: str) -> Timer:
        """What times an operation; the adapter is in its place."""
        if self.client in CLIENTS:
            adapter: Any = import_module(f"amqp_values.adapters.{self.adapter}")
            adapter.install() if self.has_adapter else adapter.uninstall()
        statement = self.read if operation == "read" else f"pieces = []; {self.write}"
        return Timer(statement, globals=self.named())

    def made(self, operation: str) -> tuple[int, bytes]:
        """How many bytes are read, or what is written, if it is right."""
        self.timer(operation)
        names: dict[str, Any] = self.named() | {"pieces": []}
        if operation == "read":
            found = eval(self.read, names)
            # (with where it ends, after it or before it, or in a list)
            parts = found if isinstance(found, tuple) else (found, len(self.data))
            (end,) = (it for it in parts if isinstance(it, int))
            (table,) = (it for it in parts if not isinstance(it, int))
            table = table[0] if isinstance(table, list) else table
            if self.client == "package":
                is_right = amqp_values.dumps_table(table) == self.data
            else:
                is_right = is_same(table, self.table)
            return (end + 1 if is_right else -1), b""
        found = eval(self.write, names)
        data = b"F" + (found if isinstance(found, bytes) else b"".join(names["pieces"]))
        value, end = parsed(data)
        is_right = end == len(data) and is_same(seen(version_of(self.client), value), self.table)
        return (len(data) if is_right else -1), data


def main() -> None:
    sides = {"package": Side("package", False)}
    for name, (module, *_) in CLIENTS.items():
        if find_spec(module):
            sides |= {name: Side(name, False), f"{name}-adapter": Side(name, True)}
    print(*(f"{it}.{operation}" for it in sides for operation in ("read", "write")), flush=True)
    for line in sys.stdin:
        command, *words = line.split()
        if command == "load":
            for it in sides.values():
                it.load(Path(words[0]).read_bytes())
            print("ok", flush=True)
            continue
        name, operation = words[0].split(".")
        if command == "make":
            count, data = sides[name].made(operation)
            Path(words[1]).write_bytes(data)
            print(count, flush=True)
        else:
            # (without collections of garbage)
            print(int(1e9 * sides[name].timer(operation).timeit(int(words[1]))), flush=True)


if __name__ == "__main__":
    main()
