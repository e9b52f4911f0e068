"""The runner of vectors/, over codecs that are right by a profile, and over such that aren't."""

import subprocess
from pathlib import Path
from typing import Any

import pytest
from dependencies import TOP

from tests.rabbitmq.broker import PYTHON
from tests.vectors.cases import EVERY, VECTORS

# A codec that reads by a profile's reader, and reports how many bytes are left or are missing.
CODEC = """
import sys
from comparing import meant
from tests.model.encoding import Unread, read as read_value
from tests.vectors.profiles import read as read_table

sys.setrecursionlimit(10_000)

def decode(data):
    found = read_table(data, True, "{profile}")
    if not found.is_read or found.size != len(data):
        raise ValueError
    return meant({{"value": found.value}})

def read(data, is_table):
    try:
        return {{"rest": len(read_value(b"F" * is_table + data)[1])}}
    except Unread as why:
        word, _, count = str(why).partition(" ")
        return {{"missing": int(count) + {more}}} if word == "more" else {{}}
"""


def run(folder: Path, profile: str, *options: str, more: int = 0, read_by: str = "") -> tuple[int, list[str]]:
    """The status of a run, and its lines."""
    (folder / "tried.py").write_text(CODEC.format(profile=read_by or profile, more=more))
    env = {"PATH": "/usr/bin:/bin", "PYTHONPATH": f"{folder}:{TOP}"}
    words = [PYTHON, "-B", str(VECTORS / "run.py"), "tried", "--profile", profile, *options]
    done = subprocess.run(words, env=env, capture_output=True, text=True, timeout=300)
    assert done.stderr == ""
    return done.returncode, done.stdout.splitlines()


@pytest.mark.parametrize("profile", ["amqp", "rabbitmq"])
def test_reader_of_a_profile_fails_no_case(tmp_path: Path, profile: str) -> None:
    status, lines = run(tmp_path, profile)
    assert (status, [it.partition(":")[0] for it in lines]) == (0, ["amqp", "rabbitmq", "cuts", "details"])
    decided = [it.case["expected"][profile] for it in EVERY if "repeats" not in it.case]
    rejected = decided.count("reject")
    undecided = decided.count("undecided")
    read = len(decided) - rejected - undecided
    counts = f"reads {read} of {read} right, rejects {rejected} of {rejected}, "
    assert lines[profile == "rabbitmq"].startswith(f"{profile}: {counts}") and lines[2].endswith(" right")


def test_failures_are_printed(tmp_path: Path) -> None:
    """A codec that reads by the other profile, and reports a missing byte too many, fails the cases that say so."""
    status, lines = run(tmp_path, "rabbitmq", "--quick", more=1, read_by="amqp")
    details = {it.split("\t")[0] for it in lines if "\tdetails\t" in it}
    assert status == 1 and details == {it.id for it in EVERY if "missing" in it.result}
    failed = {it.split("\t")[0] for it in lines if "\t" in it} - details
    wanted = {it.id for it in EVERY if "repeats" not in it.case and is_contested(it.case)}
    assert wanted and wanted <= failed
    late = {it.id for it in EVERY if "date-range" in it.case["flags"] and it.case["expected"]["amqp"] == "reject"}
    assert late and not late & failed


def is_contested(case: Any) -> bool:
    """Whether both profiles decide a case, and otherwise. (To reject a late date isn't counted, as `late` shows.)"""
    decisions = [*case["expected"].values()]
    return decisions[0] != decisions[1] and "undecided" not in decisions and "date-range" not in case["flags"]
