"""`CASES`: the `Case`s of vectors/, and what this library and RabbitMQ must make of it, for this suite and others."""

import json
import re
from pathlib import Path
from typing import Any, NamedTuple

from dependencies import TOP
from comparing import bytes_of

from tests.model.json_format import json_of

VECTORS = TOP / "vectors"
SCHEMA, IMPLEMENTATIONS = VECTORS / "schema.json", VECTORS / "implementations.json"
FILES, DEEP = sorted(VECTORS.glob("cases/*.json")), VECTORS / "cases/depth.json"
# Where Debian has Go's packages, and Go's client among them.
GO = Path("/usr/share/gocode")
OF_GO = GO / "src/github.com/rabbitmq/amqp091-go"
# How each error of the vectors is called: as a problem of tests/model/tables.py, and by the Python package.
PROBLEMS = {"unknown tag": 1, "value cut": 3, "key cut": 4, "key not UTF-8": 7}
NAMES = {it: it.removeprefix("value ") for it in PROBLEMS}
# A float as its bits.
FLOAT = re.compile(r'\{"\$(Float|Double)":"([0-9a-f]+)"\}')


class Case(NamedTuple):
    """A case of a file, and its bytes."""

    file: Path
    case: Any
    data: bytes

    @property
    def id(self) -> str:
        return str(self.case["id"])

    @property
    def is_table(self) -> bool:
        return bool(self.case["form"] == "table")

    @property
    def result(self) -> Any:
        return self.case["result"]

    @property
    def tagged(self) -> bytes:
        """The bytes, with the type tag of a table before them."""
        return b"F" * self.is_table + self.data

    @property
    def is_beyond_limits(self) -> bool:
        """Whether the value claims 2^32 bytes or more: a limit of 32 bits, as C, Python and Rust have it, rejects it."""
        return len(self.tagged) + int(self.result.get("missing", 0)) >= 2**32

    @property
    def encoding(self) -> bytes:
        """The bytes without what follows the value."""
        return self.data[: len(self.data) - self.result.get("rest", 0)]

    @property
    def line(self) -> str:
        """What amqp_wire prints: the canonical encoding and how many bytes are left, how many are missing, or an error."""
        if self.canonical is not None:
            return f"value {(b'F' * self.is_table + self.canonical).hex()} rest {self.result['rest']}"
        if "missing" in self.result:
            return f"more {self.result['missing']}"
        return "refused MapOpt" if self.result["offset"] == 0 and not self.is_table else "refused Eof"

    @property
    def headers(self) -> bytes:
        """The table that RabbitMQ is given, with its type tag: a value is at the key k."""
        body = b"\1k" + self.encoding
        return b"F" + (self.encoding if self.is_table else len(body).to_bytes(4, "big") + body)

    @property
    def canonical(self) -> bytes | None:
        """The canonical encoding of what is read, in the form of the case."""
        stated = self.case.get("canonical")
        return self.encoding if stated == "same" else None if stated is None else bytes.fromhex(stated)

    @property
    def json(self) -> str | None:
        """The text that is written for the value, or None if there is none. (The cases have floats as bits.)"""
        if "text" in self.result:
            return "".join(it * times for it, times in self.result["text"])
        return FLOAT.sub(float_written, written(self.result["value"])) if "value" in self.result else None

    def headers_from(self, version: str) -> bytes | None:
        """The headers that a version of RabbitMQ delivers, with their type tag; None if it closes the connection."""
        stated = self.case["rabbitmq"][version].get("delivers")
        if stated in (None, "same"):
            return self.headers if stated else None
        body = b"\1k" + bytes.fromhex(stated)
        return b"F" + (bytes.fromhex(stated) if self.is_table else len(body).to_bytes(4, "big") + body)


def float_written(found: re.Match[str]) -> str:
    return json_of(("f" if found[1] == "Float" else "d", bytes.fromhex(found[2])))


def written(value: Any) -> str:
    """The text of a value: as short as can be, with the keys of objects in order."""
    return json.dumps(value, ensure_ascii=False, sort_keys=True, separators=(",", ":"))


# All cases, and those that aren't so deep that the model of tests/model lacks stack.
EVERY = [Case(file, it, bytes_of(it)) for file in FILES for it in json.loads(file.read_text())["cases"]]
CASES = [it for it in EVERY if it.file != DEEP]


def none_of(wrong: list[str]) -> str:
    """How many cases are wrong, and the first of them; nothing if none is."""
    return f"{len(wrong)} cases: {'; '.join(wrong[:5])}"[:2000] if wrong else ""
