"""`assert_scores`: a codec's outcomes over vectors/ are those in docs/INTEROP.md and vectors/implementations.json.

As a program, with PYTHONPATH=vectors, it writes those of a codec: python3 -m tests.vectors.scores NAME TOOLCHAIN MODULE
"""

import json
import os
import re
import subprocess
import sys
from collections.abc import Mapping
from typing import NamedTuple

from dependencies import TOP

from tests.vectors.cases import EVERY, IMPLEMENTATIONS, VECTORS, none_of

PAGE = TOP / "docs/INTEROP.md"
# The cases that a codec is given, in the order of their files. Of two that are the same in a table it is given one.
GIVEN = {it.id: it.case for it in EVERY if "repeats" not in it.case}
PROFILES = ("amqp", "rabbitmq")
# The head of the page's table, and how many of the worst cases a row has: those that end the codec come first.
HEAD = "| Codec | AMQP: read right | rejected | RabbitMQ: read right | rejected | crashes | cuts rejected | The worst |"
SHOWN, WORST = 3, ["crashes", "otherwise", "rejects", "as stated"]


class Outcome(NamedTuple):
    """The verdict of each profile on a codec in a case, what the codec did, and what it read if that is otherwise."""

    amqp: str
    rabbitmq: str
    word: str
    detail: str = ""

    def text(self) -> str:
        return f"{self.word}: {self.detail}" if self.word == "otherwise" else self.word


class Run(NamedTuple):
    """What the runner prints of a codec: the outcome of each case, and whether the cuts of a case were all rejected."""

    outcomes: dict[str, Outcome]
    cuts: dict[str, Outcome]


def run(module: str, words: list[str], env: Mapping[str, str]) -> Run:
    """Runs the vectors over a codec. The status has to be that of its outcomes in the profile of RabbitMQ."""
    done = subprocess.run(
        [*words, "-B", VECTORS / "run.py", module, "--all"],
        env=env,
        cwd=VECTORS,
        capture_output=True,
        text=True,
        timeout=600,
    )
    found: dict[str, Outcome] = {}
    cuts: dict[str, Outcome] = {}
    for line in done.stdout.splitlines():
        id, *said = line.split("\t")
        known = found if id not in found else cuts
        assert id not in known, line
        known[id] = Outcome(*said)
    assert found.keys() == GIVEN.keys(), done.stderr[-2000:]
    is_failing = any(it.rabbitmq == "wrong" for it in (*found.values(), *cuts.values()))
    assert done.returncode == is_failing, done.stderr[-2000:]
    return Run(found, cuts)


def accepts(id: str, profile: str) -> bool:
    return GIVEN[id]["expected"][profile] not in ("reject", "undecided")


def row(name: str, found: Run) -> str:
    """The row of a codec: how many cases it reads or rejects as each profile has it, and the ids of the worst."""
    counts = []
    for profile in PROFILES:
        for is_read in (True, False):
            verdicts = [getattr(it, profile) for id, it in found.outcomes.items() if accepts(id, profile) == is_read]
            right = verdicts.count("right")
            counts.append(f"{right} of {right + verdicts.count('wrong')}")
    counts.append(str(sum(it.word == "crashes" for it in found.outcomes.values())))
    right = sum(it.rabbitmq == "right" for it in found.cuts.values())
    is_whole = all(it.word != "crashes" for it in found.cuts.values())
    counts.append(f"{right} of {len(found.cuts)}" if is_whole else "crashes")
    wrong = [id for id, it in found.outcomes.items() if it.rabbitmq == "wrong"]
    worst = sorted(wrong, key=lambda id: WORST.index(found.outcomes[id].word))
    return " | ".join([f"| {name}", *counts, ", ".join(f"`{it}`" for it in spread(worst)) or "none"]) + " |"


def spread(ids: list[str]) -> list[str]:
    """Some of these from the first on, that begin with different words."""
    chosen: dict[str, str] = {}
    for it in ids:
        chosen.setdefault(it.partition("-")[0], it)
    return [*chosen.values()][:SHOWN]


def wrong_row(name: str, wanted: str, is_writing: bool) -> str:
    """What is wrong with the page's row of a codec, which may be written anew."""
    text = PAGE.read_text()
    known = re.search(rf"(?m)^\| {re.escape(name)} \|.*$", text[text.index(HEAD) :])
    if known and known[0] == wanted:
        return ""
    if not is_writing:
        return f"{PAGE.name} has {known[0] if known else 'no row'}, not {wanted}"
    before, after = text[: text.index(HEAD)], text[text.index(HEAD) :]
    rows = re.match(r"(?:\|.*\n)*", after)
    assert rows
    table = after.replace(known[0], wanted, 1) if known else rows[0] + wanted + "\n" + after[rows.end() :]
    PAGE.write_text(before + table)
    return ""


def is_listed(id: str, it: Outcome) -> bool:
    """Whether implementations.json has an outcome: one that no profile expects, and that isn't the result of the case."""
    of_result = "as stated" if "rest" in GIVEN[id]["result"] else "rejects"
    return it.word != of_result and "right" not in (it.amqp, it.rabbitmq)


def wrong_implementations(name: str, toolchain: str, found: Mapping[str, Outcome], is_writing: bool) -> str:
    """What is wrong with a codec in implementations.json: its toolchain, or its outcomes that are listed."""
    stored = json.loads(IMPLEMENTATIONS.read_text())
    before: dict[str, dict[str, str]] = stored["outcomes"]
    wanted = {id: it.text() for id, it in found.items() if is_listed(id, it)}
    known = {id: it[name] for id, it in before.items() if name in it}
    if known == wanted and stored["codecs"].get(name) == toolchain:
        return ""
    if not is_writing:
        others = sorted(id for id in {*known, *wanted} if known.get(id) != wanted.get(id))
        said = [f"{id}: {wanted.get(id)}" for id in others[:5]]
        return f"{IMPLEMENTATIONS.name} has another toolchain than {toolchain} or other outcomes of {name} than {said}"
    merged = {id: {other: it for other, it in before.get(id, {}).items() if other != name} for id in GIVEN}
    for id, text in wanted.items():
        merged[id][name] = text
    codecs = dict(sorted((stored["codecs"] | {name: toolchain}).items()))
    write(codecs, {id: dict(sorted(it.items())) for id, it in merged.items() if it})
    return ""


def write(codecs: Mapping[str, str], outcomes: Mapping[str, Mapping[str, str]]) -> None:
    lines = [
        ",\n".join(f"    {json.dumps(id)}: {json.dumps(it)}" for id, it in found.items())
        for found in (codecs, outcomes)
    ]
    parts = ['  "format": 2', f'  "codecs": {{\n{lines[0]}\n  }}', f'  "outcomes": {{\n{lines[1]}\n  }}']
    IMPLEMENTATIONS.write_text("{\n" + ",\n".join(parts) + "\n}\n")


def assert_scores(name: str, toolchain: str, found: Run, is_writing: bool) -> None:
    """A codec's scores are as they are stored, and it agrees on the cases that say so."""
    outcomes = found.outcomes
    disagreeing = [id for id, it in GIVEN.items() if name in it["derived"] and outcomes[id].word != "as stated"]
    stored = wrong_implementations(name, toolchain, outcomes, is_writing)
    for wrong in (wrong_row(name, row(name, found), is_writing), stored, none_of(disagreeing)):
        assert not wrong, wrong


if __name__ == "__main__":
    # (of a codec that no test runs: its name and version, its toolchain and the day, and the module of its adapter)
    codec, by, module = sys.argv[1:]
    assert_scores(codec, by, run(module, [sys.executable], os.environ), True)
