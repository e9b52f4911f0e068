#!/usr/bin/env python3
"""Says how the steps of .ci/steps.mk ended, by the logs that .ci/step wrote: .ci/count.py FOLDER BEGUN STEP..

FOLDER has the file STEP.log of each, as .ci/step writes it. Of a step that failed the end is printed, with the path of its log. The
last line has the counts, and names what WITHOUT skipped; the counts also stand alone on the line before.
"""

import os
import re
import sys
import time
from pathlib import Path
from typing import NamedTuple

ENDS = re.compile(r"took ([\d.]+) ([\d.]+) ([\d.]+)\nstatus (\d+)\n\Z")
COUNTS = re.compile(r"(?:.*; )?(\d+) passed, (\d+) failed")


class Ended(NamedTuple):
    """How a step ended."""

    passed: int
    failed: int
    why: str
    minutes: float = 0.0
    processor_minutes: float = 0.0


def ended(text: str) -> Ended:
    """How a step ended, by its log. Its last line has to have counts; a step fails too by its status, and if nothing was tried."""
    found = ENDS.search(text)
    if not found:
        return Ended(0, 1, "didn't end")
    wall, user, system = (float(it) / 60 for it in found.groups()[:3])
    status = int(found[4])
    last = text[: found.start()].rstrip("\n").rpartition("\n")[2]
    counts = COUNTS.fullmatch(last)
    if not counts:
        return Ended(0, 1, f"ended with status {status} and no last line that counts", wall, user + system)
    # (`rt ci` passes with a must-fail edit that doesn't apply or compile)
    passed, failed = int(counts[1]), int(counts[2]) + text.count("BAD EDIT")
    if not failed and (status or not passed):
        last += f", but it ended with status {status}" if status else ", but nothing was tried"
        failed = 1
    return Ended(passed, failed, last, wall, user + system)


def main(folder: Path, begun: int, names: list[str]) -> int:
    logs = {it: folder / f"{it}.log" for it in names}
    text_of = {it: log.read_text(errors="replace") if log.exists() else "" for it, log in logs.items()}
    steps = {it: ended(text) if text else Ended(0, 1, "wasn't run") for it, text in text_of.items()}
    for name, step in steps.items():
        print(f"{name}: {step.why} ({step.minutes:.1f} min, {step.processor_minutes:.1f} of processors)")
    for name, step in steps.items():
        if step.failed:
            print(f"\nFAILED {name}: {step.why}; {logs[name]} ends with")
            print(
                "\n".join(f"    {it}" for it in text_of[name].split("\n")[-60:] if not re.search(r": (proved|ok)$", it))
            )
    processors = sum(it.processor_minutes for it in steps.values())
    print(f"{(time.time() - begun) / 60:.1f} minutes, {processors:.1f} of processors")
    passed, failed = sum(it.passed for it in steps.values()), sum(it.failed for it in steps.values())
    counts = f"{passed} passed, {failed} failed"
    skipped = " ".join(os.environ.get("WITHOUT", "").split())
    print(f"{counts}\n{counts}; skipped: {skipped}" if skipped else counts)
    return 1 if failed or not passed else 0


if __name__ == "__main__":
    sys.exit(main(Path(sys.argv[1]), int(sys.argv[2]), sys.argv[3:]))
