#!/usr/bin/env python3
"""Runs the vectors over a codec: run.py MODULE, whose decode(bytes) reads a table without its type tag. README.md says more."""

import argparse
import importlib
import json
import os
import signal
import sys
from collections import Counter
from pathlib import Path
from resource import RLIMIT_AS, RLIMIT_CPU, setrlimit
from typing import Any

from comparing import bytes_of, flat, in_a_table, meant

PROFILES, CASES = ("amqp", "rabbitmq"), Path(__file__).parent / "cases"
# The longest encoding of which every cut is tried, and how many crashes end the cuts, since each may take seconds.
LONGEST, MOST_CRASHES = 1024, 3
# What an adapter may report of the bytes that it is given whole.
DETAILS = ("rest", "missing", "error", "offset")
Codec = Any


def decoded(codec: Codec, data: bytes) -> tuple[str, Any]:
    """`reads` and the value, or the outcome and what was raised, which is a rejection unless stack or memory was lacking."""
    try:
        found = codec.decode(data)
    except Exception as why:
        return "crashes" if isinstance(why, (RecursionError, MemoryError)) else "rejects", why
    return "reads", found


def shown(it: object) -> str:
    try:
        return f"{it!a:.80}"
    except RecursionError:
        return "(too deep to be shown)"


def outcome(codec: Codec, case: Any) -> list[str]:
    """The verdict of each profile, the outcome, and what was read or raised instead."""
    result, is_table, data = case["result"], case["form"] == "table", bytes_of(case)
    word, found = decoded(codec, in_a_table(data[: len(data) - result.get("rest", 0)], is_table))
    read, detail = flat(found) if word == "reads" else None, shown(found)

    def equals(it: Any) -> bool:
        return read == flat(meant(it) if is_table else {b"k": meant(it)})

    if read is not None:
        word, detail = ("as stated", "") if "rest" in result and equals(result) else ("otherwise", detail)
    verdicts = []
    for wanted in (case["expected"][it] for it in PROFILES):
        if wanted == "undecided" or word == "rejects" and wanted != "reject" and "date-range" in case["flags"]:
            verdicts.append("undecided")
        elif isinstance(wanted, dict):
            verdicts.append("right" if read is not None and equals(wanted) else "wrong")
        else:
            verdicts.append("right" if word == {"accept": "as stated", "reject": "rejects"}[wanted] else "wrong")
    return [*verdicts, word, detail]


def cuts(codec: Codec, case: Any) -> list[str]:
    """Whether every cut of an encoding is rejected: the value in a table that ends with it, or the end of a table."""
    is_table, data = case["form"] == "table", bytes_of(case)
    data = data[: len(data) - case["result"]["rest"]]
    read = [at for at in range(len(data)) if decoded(codec, in_a_table(data[:at], is_table))[0] == "reads"]
    detail = f"reads {len(read)} of {len(data)} cuts, the first of {read[0]} bytes" if read else f"all {len(data)} cuts"
    return ["wrong" if read and is_read(case["expected"][it]) else "right" for it in PROFILES] + ["cuts", detail]


def details(codec: Codec, case: Any) -> list[str]:
    """What an adapter's `read` reports of the bytes as they are: rest, missing, error and offset, where it gives them."""
    result, found = case["result"], {}
    try:
        found = codec.read(bytes_of(case), case["form"] == "table")
    except Exception:
        pass  # (what is rejected by an exception has no details)
    wrong = {it: found[it] for it in DETAILS if it in found and found[it] != result.get(it)}
    of_result = "accept" if "rest" in result else "reject"
    verdicts = ["undecided" if case["expected"][it] != of_result else "wrong" if wrong else "right" for it in PROFILES]
    return [*verdicts, "details", shown(wrong)]


def is_read(wanted: Any) -> bool:
    return wanted not in ("reject", "undecided")


def alone(function: Any, codec: Codec, case: Any) -> list[str]:
    """A function of a case in a process of its own, which has limits."""
    reading, writing = os.pipe()
    if (child := os.fork()) == 0:
        signal.alarm(600 if function is cuts else 60)
        setrlimit(RLIMIT_CPU, (2, 2))
        setrlimit(RLIMIT_AS, (2**31, 2**31))
        os.write(writing, "\t".join(function(codec, case)).encode())
        os._exit(0)
    os.close(writing)
    with open(reading) as it:
        said = it.read()
    status = os.waitstatus_to_exitcode(os.waitpid(child, 0)[1])
    verdicts = ["undecided" if case["expected"][it] == "undecided" else "wrong" for it in PROFILES]
    return said.split("\t") if status == 0 else [*verdicts, "crashes", str(status)]


def main() -> int:
    parser = argparse.ArgumentParser(description="Runs the test vectors over a codec of AMQP field tables.")
    parser.add_argument("module", help="a module that has decode(bytes)")
    parser.add_argument("--profile", choices=PROFILES, default="rabbitmq", help="whose failures count (rabbitmq)")
    parser.add_argument("--all", action="store_true", help="prints a line for each case, with tabs")
    parser.add_argument("--quick", action="store_true", help="leaves out the cuts at every byte")
    options = parser.parse_args()
    codec, at = importlib.import_module(options.module), PROFILES.index(options.profile)
    totals: dict[str, Counter[str]] = {it: Counter() for it in (*PROFILES, "cuts", "details")}
    for case in (it for file in sorted(CASES.glob("*.json")) for it in json.loads(file.read_text())["cases"]):
        functions = [] if "repeats" in case else [outcome]
        is_cut = not options.quick and totals["cuts"]["crashes"] < MOST_CRASHES and len(bytes_of(case)) <= LONGEST
        if functions and is_cut and "rest" in case["result"]:
            functions += [cuts] if any(is_read(it) for it in case["expected"].values()) else []
        for function in functions + [details] * hasattr(codec, "read"):
            found = alone(function, codec, case)
            if function is outcome:
                for each, verdict in zip(PROFILES, found):
                    accepts = is_read(case["expected"][each])
                    kind = verdict if verdict == "undecided" else f"{'read' if accepts else 'rejected'} {verdict}"
                    totals[each].update([kind, *["crashed"] * (found[2] == "crashes")])
            else:
                totals[function.__name__].update([found[at], *["crashes"] * (found[2] == "crashes")])
            if options.all or found[at] == "wrong":
                print(case["id"], *found, sep="\t", flush=True)
    for name, it in totals.items():
        text = (
            "{} of {} right".format(it["right"], it["right"] + it["wrong"])
            if name not in PROFILES
            else (
                f"reads {it['read right']} of {it['read right'] + it['read wrong']} right, "
                f"rejects {it['rejected right']} of {it['rejected right'] + it['rejected wrong']}, "
                f"crashes in {it['crashed']}, {it['undecided']} undecided"
            )
        )
        if it:
            print(f"{name}: {text}", file=sys.stderr if options.all else sys.stdout)
    failed = totals[options.profile]["read wrong"] + totals[options.profile]["rejected wrong"]
    return int(failed + totals["cuts"]["wrong"] + totals["details"]["wrong"] > 0)


if __name__ == "__main__":
    sys.exit(main())
