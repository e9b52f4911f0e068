"""Compares the model with stored output of amqp_wire and amqp_show: python3 -m tests.model.stored_output

amqp_wire must print crates/amqp_wire/stdout, and amqp_show --encode what the cases of tests/show have. The model has to predict
both. `make test` runs this, and compares the same files with what the programs print. tests/run model also runs it on each broken
form of the model.
"""

import re
import sys
from collections.abc import Iterator
from typing import Any

from dependencies import TOP

from tests.checks import Checks
from tests.model import encoding, json_format
from tests.transcripts import Output, cases

CRATES = TOP / "crates"
# The name of a row, and whether the model has what it says.
Rows = Iterator[tuple[str, bool]]


def line(text: str, model: Any = encoding) -> str:
    """What amqp_wire prints of a line."""
    if not re.fullmatch("([0-9a-fA-F]{2})*", text):
        return "not hex"
    try:
        value, rest = model.read(bytes.fromhex(text))
        return f"value {model.write(value).hex()} rest {len(rest)}"
    except model.Unread as why:
        return str(why)


def rows_of_wire(model: Any) -> Rows:
    """The lines of amqp_wire."""
    given, wants = ((CRATES / "amqp_wire" / it).read_text().splitlines() for it in ("stdin", "stdout"))
    for text, said in zip(given, wants, strict=True):
        yield f"amqp_wire of {text[:99]}", line(text, model) == said


def rows_of_encode(model: Any) -> Rows:
    """The cases of amqp_show that write what JSON means, in hexadecimal. (It also reads dates, and with --lines several texts.)"""
    for name, case in cases(TOP / "tests/show").items():
        is_hexadecimal = "--encode" in case.words and "--raw" not in case.words and case.output is Output.PIPE
        is_alone = "--lines" in case.words or b'$Timestamp":"' in case.given
        if is_hexadecimal and not is_alone and not case.wants.status:
            data = b"F" * ("--table" in case.words) + bytes.fromhex(case.wants.out.decode())
            yield f"{name} of tests/show", encoding.write(model.value_of_json(case.given)) == data


def main() -> int:
    checks = Checks("model")
    of_programs = {"amqp_wire": rows_of_wire(encoding), "amqp_show --encode": rows_of_encode(json_format)}
    for program, rows in of_programs.items():
        found = [*rows]
        wrong = [name for name, is_well in found if not is_well]
        checks.tell(f"{program}, {len(found)} rows", ", ".join(wrong) if found else "there is none")
    return checks.ended()


if __name__ == "__main__":
    sys.exit(main())
