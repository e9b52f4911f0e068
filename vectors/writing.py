#!/usr/bin/env python3
"""Runs the cases of writing over a codec: writing.py MODULE, whose write(value) returns the bytes of a table. README.md says more.

A table is given as the cases have it in JSON; `natural` of adapters/natural.py turns it into what Python's clients take.
"""

import argparse
import importlib
import json
import struct
import sys
from collections import Counter
from collections.abc import Iterator
from decimal import Decimal
from pathlib import Path
from typing import Any

import run
from adapters.natural import Untried
from comparing import bytes_of, flat, in_a_table, meant, text_of

FILE = Path(__file__).parent / "writing.json"
# How struct calls the payload of each type tag whose payload has a width.
FORMS = dict(zip("bBsUuIilLTfdtDV", ["b", "B", "h", "h", "H", "i", "I", "q", "q", "Q", "f", "d", "B", "BI", ""]))
# Values of cases of reading whose canonical encoding AMQP 0-9-1 reads otherwise have one of these.
DIFFERING = {"tag-s", "tag-u-upper", "tag-l-upper", "tag-l", "tag-x"}


def given(case: Any) -> Any:
    """The table that a codec is to write: keys are texts, and of equal ones the last is bytes."""
    if "pairs" in case:
        return {key if at + 1 < len(case["pairs"]) else key.encode(): it for at, (key, it) in enumerate(case["pairs"])}
    value = json.loads(text_of(case))
    return value if case["form"] == "table" else {"k": value}


def value_at(data: bytes, at: int, end: int, profile: str) -> tuple[Any, int]:
    """The value at an offset as a profile reads it, and the offset of its end. An exception is raised if there is none."""
    tag, start = chr(data[at]), at + 1
    is_short = (tag, profile) == ("s", "amqp")
    if at >= end or (tag, profile) in (("U", "rabbitmq"), ("x", "amqp")):
        raise ValueError(f"no value is at {at}")
    if tag in "SxAF" or is_short:
        start = at + (2 if is_short else 5)
        stop = start + int.from_bytes(data[at + 1 : start], "big")
    else:
        stop = start + struct.calcsize(f">{FORMS[tag]}")
    if stop > end:
        raise ValueError(f"the value at {at} goes past the end of its container")
    if tag in "AF":
        return array_at(data, start, stop, profile) if tag == "A" else table_at(data, start, stop, profile), stop
    if tag in "Sx" or is_short:
        return data[start:stop], stop
    numbers = struct.unpack(">Q" if (tag, profile) == ("l", "amqp") else f">{FORMS[tag]}", data[start:stop])
    if tag == "D":
        return Decimal(f"{numbers[1]}e-{numbers[0]}"), stop
    return None if tag == "V" else numbers[0] != 0 if tag == "t" else numbers[0], stop


def array_at(data: bytes, at: int, stop: int, profile: str) -> list[Any]:
    found = []
    while at < stop:
        item, at = value_at(data, at, stop, profile)
        found.append(item)
    return found


def table_at(data: bytes, at: int, stop: int, profile: str) -> dict[bytes, Any]:
    found: dict[bytes, Any] = {}
    while at < stop:
        value = at + 1 + data[at]
        key = data[at + 1 : value]
        if key in found:
            raise ValueError(f"{key!r} is twice in a table")
        found[key], at = value_at(data, value, stop, profile)
    return found


def read_back(data: bytes, profile: str) -> Any:
    """A table as a profile reads it, or nothing."""
    try:
        return flat(table_at(data, 4, len(data), profile)) if int.from_bytes(data[:4], "big") == len(data) - 4 else None
    except (ValueError, LookupError, struct.error):
        return None


def meant_of(case: Any) -> Any:
    """The table of a case, in the form in which values are compared."""
    return flat(meant(case) if case["form"] == "table" else {b"k": meant(case)})


def outcome(codec: Any, case: Any) -> list[str]:
    """The verdict of each profile, the outcome, and what was written or raised instead."""
    try:
        data = bytes(codec.write(given(case)))
    except Untried as why:
        return ["undecided", "undecided", "untried", str(why)]
    except Exception as why:
        word = "crashes" if isinstance(why, (RecursionError, MemoryError)) else "rejects"
        right = "right" if word == "rejects" and "error" in case else "wrong"
        return [
            *(right if case["expected"][it] != "undecided" else "undecided" for it in run.PROFILES),
            word,
            run.shown(why),
        ]
    is_table, verdicts, word = case["form"] == "table", [], "otherwise"
    stated = [in_a_table(it, is_table) for it in (bytes_of(case), *map(bytes.fromhex, case.get("or", [])))]
    has_bytes = "bytes" in case or "repeat" in case
    for profile in run.PROFILES:
        is_right = has_bytes and data in stated
        if is_right:
            word = "as stated"
        elif has_bytes and "or" not in case:
            is_right = read_back(data, profile) == meant_of(case)
            word = "equal" if is_right else word
        verdicts.append("undecided" if case["expected"][profile] == "undecided" else "right" if is_right else "wrong")
    return [*verdicts, word, "" if word == "as stated" else run.shown(data.hex())]


def cases() -> Iterator[Any]:
    """The cases of writing.json, and of each case of reading that has a value that value, to be written back."""
    yield from json.loads(FILE.read_text())["cases"]
    for case in (it for file in sorted(run.CASES.glob("*.json")) for it in json.loads(file.read_text())["cases"]):
        if "rest" not in case["result"] or "$FieldTable" in text_of(case["result"]) or "repeats" in case:
            continue
        data = bytes_of(case)
        encoding = (
            data[: len(data) - case["result"]["rest"]].hex() if case["canonical"] == "same" else case["canonical"]
        )
        decided = {it: "write" if case["expected"][it] == "accept" else "undecided" for it in run.PROFILES}
        if DIFFERING & {*case["flags"]}:
            decided["amqp"] = "undecided"
        yield {
            "id": f"{case['id']} written back",
            "form": case["form"],
            "flags": case["flags"],
            "bytes": encoding,
            "expected": decided,
            **{it: case["result"][it] for it in ("text", "value") if it in case["result"]},
        }


def main() -> int:
    parser = argparse.ArgumentParser(description="Has a codec write the values of the test vectors.")
    parser.add_argument("module", help="a module that has write(value)")
    parser.add_argument("--profile", choices=run.PROFILES, default="rabbitmq", help="whose failures count (rabbitmq)")
    parser.add_argument("--all", action="store_true", help="prints a line for each case, with tabs")
    parser.add_argument(
        "--large", action="store_true", help="tries only the cases that take up to 16 GiB, without limits"
    )
    options = parser.parse_args()
    codec, totals, sys_at = importlib.import_module(options.module), Counter[str](), run.PROFILES.index(options.profile)
    for case in (it for it in cases() if ("large" in it["flags"]) == options.large):
        found = outcome(codec, case) if options.large else run.alone(outcome, codec, case)
        totals.update([found[sys_at], found[2]])
        if options.all or found[sys_at] == "wrong":
            print(case["id"], *found, sep="\t", flush=True)
    said = f"{totals['as stated']} as stated, {totals['equal']} equal, {totals['untried']} untried"
    print(f"{options.profile}: {totals['right']} of {totals['right'] + totals['wrong']} right, {said}", file=sys.stderr)
    return int(totals["wrong"] > 0)


if __name__ == "__main__":
    sys.exit(main())
