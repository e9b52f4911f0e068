"""`decoder` makes a `decode` of a program, which prints a table as JSON, or ends with status 1 if it rejects the table.

Numbers, null, Booleans and arrays are JSON's own. Else an object's only key says what is under it.
"""

import os
import shutil
import struct
import subprocess
import sys
from collections.abc import Callable
from decimal import Decimal
from typing import Any

from comparing import from_json

KINDS: dict[str, Callable[[Any], Any]] = {
    "f": lambda it: struct.unpack(">f", bytes.fromhex(it))[0],
    "d": lambda it: struct.unpack(">d", bytes.fromhex(it))[0],
    "D": Decimal,
    "S": bytes.fromhex,
    "F": lambda it: {bytes.fromhex(key): value for key, value in it},
}


def typed(found: dict[str, Any]) -> Any:
    name, content = found.popitem()
    return KINDS[name](content)


def decoder(variable: str) -> Callable[[bytes], Any]:
    """What reads a table by the program that a variable of the environment names."""
    program = shutil.which(os.environ.get(variable, "")) or ""
    if not program:
        sys.exit(f"{variable}, a variable of the environment, has to name an executable program")

    def decode(data: bytes) -> Any:
        done = subprocess.run([program], input=data, capture_output=True)
        if done.returncode:
            why = done.stderr.decode(errors="replace").strip().rpartition("\n")[2]
            raise (ValueError if done.returncode == 1 else MemoryError)(why or f"status {done.returncode}")
        return from_json(done.stdout.decode(), typed, lambda it: it)

    return decode
