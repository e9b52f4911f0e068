"""Converts a value to JSON and back, with options of amqp_show. Exits with 1 if it is rejected, and with 2 on other errors."""

import argparse
import re
import sys

from . import MAX_BYTES, Error, from_json, to_json

# A byte in hexadecimal, what may be between bytes, or the start of what is neither; and what of JSON may control a terminal.
HEXADECIMAL = re.compile(rb"(?:0x|\\x)?([\da-f]{2})|[\s,:]+|#.*|(\\(?:x[\da-f]?)?|(?:0x)?[\da-f]?)", re.IGNORECASE)
CONTROL = re.compile("[\x7f-\x9f\u061c\u200e\u200f\u202a-\u202e\u2066-\u2069]")
# The options in place of what a message says reads other forms.
READERS = {
    "bytes.fromhex reads it": "--hex reads it",
    "from_json reads it": "--encode reads it",
    "loads, or table=False": "leave out --table",
    "loads_table, or table=True": "--table reads it",
}


def read_hexadecimal(text: bytes) -> bytes:
    """The bytes that a text has in hexadecimal."""
    if re.match(rb"0{8}: |0{8}  |0{4}   |(?:.*\n)?\t0x0000:  ", text):
        raise ValueError("this is a dump with offsets, and --hex reads the bytes of a value alone")
    for it in HEXADECIMAL.finditer(text):
        if it[2] is not None and it.start() < len(text):
            line, column = text.count(b"\n", 0, it.end()) + 1, it.end() - text.rfind(b"\n", 0, it.end())
            raise ValueError(f"line {line}, column {column}: a byte of two hexadecimal digits is expected")
    return bytes.fromhex("".join(it[1].decode() for it in HEXADECIMAL.finditer(text) if it[1]))


def convert(data: bytes, said: argparse.Namespace) -> str:
    """The encoding of JSON, or the JSON of the first value."""
    if said.encode:
        return from_json(data, table=said.table).hex()
    try:
        return to_json(data, table=said.table)
    except Error as why:
        if why.kind != "trailing bytes":
            raise
        print(f"amqp_values: more bytes follow, from offset {why.offset}", file=sys.stderr)
        return to_json(data[: why.offset], table=said.table)


def main() -> None:
    reader = argparse.ArgumentParser("python -m amqp_values", description=__doc__)
    reader.add_argument("--hex", action="store_true", help="read hexadecimal text instead of bytes")
    reader.add_argument("--table", action="store_true", help="read, or encode, a table without its type tag")
    reader.add_argument("--encode", action="store_true", help="read JSON, and write its encoding in hexadecimal")
    reader.add_argument("file", nargs="?", default="-", metavar="FILE", help="a file; - or none is the standard input")
    said = reader.parse_args()
    try:
        with open(0 if said.file == "-" else said.file, "rb") as file:
            data = file.read(-1 if said.hex else 12 * MAX_BYTES + 1)  # (no value's JSON is longer)
        text = convert(read_hexadecimal(data) if said.hex > said.encode else data, said)
        with open(1, "wb", closefd=False) as out:
            out.write(CONTROL.sub(lambda it: f"\\u{ord(it[0]):04x}", f"{text}\n").encode())
    except Error as why:
        message = f"amqp_values: {why}"
        for call, option in READERS.items():
            message = message.replace(call, option)
        sys.exit(message)
    except (ValueError, OSError) as why:
        reader.exit(2, "" if isinstance(why, BrokenPipeError) else f"amqp_values: {why}\n")


if __name__ == "__main__":
    main()
