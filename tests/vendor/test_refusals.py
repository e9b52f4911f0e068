"""Compiles calls that need a buffer, which gives back what was written: over a vector they compile, and over a device they don't.

The calls are in a program of another repository that has the crates. Nothing is proved.
"""

import re
import shutil
import subprocess
from pathlib import Path

from dependencies import Crates

LIBRARY = "amq_protocol_types"
WHY = "the trait bound `IoOutput<Vec<u8>>: BackToTheBuffer` is not satisfied"
# The calls, a line each, and how to make what the last of them write to.
CALLS = """
    let _ = BackToTheBuffer::reserve(&mut output, 4);
    BackToTheBuffer::fill(&mut output, 0, b"fill");
    BackToTheBuffer::back_to(&mut output, 0);
    let mut x = WriteContext::from(output);
    let _ = gen_value(&AMQPValue::Void, &mut x);
    let _ = gen_raw_value(&AMQPValue::Void, &mut x);
    let _ = gen_field_array(&FieldArray::new_in(alloc), &mut x);
    let _ = gen_field_table(&FieldTable::new_in(alloc), &mut x);
    let _ = gen_with_len(|y| y.put(b"put"), &mut x);
"""
PROGRAM = """//! Calls that need a buffer.
#![tactic(auto)]

use amq_protocol_types::generation::{
    BackToTheBuffer, IoOutput, Output, WriteContext, gen_field_array, gen_field_table, gen_raw_value, gen_value,
    gen_with_len,
};
use amq_protocol_types::{AMQPValue, FieldArray, FieldTable};

fn main(rt: HostRuntime) {
    let alloc = rt.alloc();
    let vector: Vec<u8> = Vec::new(alloc);
    let mut output = OUTPUT;
    let _ = output.put(b"put");
"""


def tried(folder: Path, output: str) -> tuple[int, dict[str, str]]:
    """The status of `rt try` for the calls over an output, and the lines that are refused, each with why."""
    crates = Crates()
    for name in crates.needed(LIBRARY):
        shutil.copytree(crates.folder(name) / "src", folder / "crates" / name / "src")
    lines = [*(crates.lines[it] for it in crates.needed(LIBRARY)), f"calls: {LIBRARY}"]
    (folder / "crates.txt").write_text("\n".join(lines) + "\n")
    source = folder / "crates/calls/src/main.rt"
    source.parent.mkdir(parents=True)
    source.write_text(PROGRAM.replace("OUTPUT", output) + CALLS.strip("\n") + "\n}\n")
    done = subprocess.run(["rt", "try"], cwd=source.parent.parent, capture_output=True, text=True)
    found = re.findall(r"(?m)^(\S+):(\d+):\d+: error\S* (.*)$", done.stdout + done.stderr)
    assert {file for file, _, _ in found} <= {"src/main.rt"}, done.stdout + done.stderr
    program = source.read_text().splitlines()
    return done.returncode, {program[int(line) - 1].strip(): why for _, line, why in found}


def test_vector_gives_back(tmp_path: Path) -> None:
    assert tried(tmp_path, "vector") == (0, {})


def test_device_does_not(tmp_path: Path) -> None:
    """Each call is refused for the trait that a device doesn't have, and nothing else is refused."""
    status, found = tried(tmp_path, "IoOutput::new(vector)")
    wants = [it.strip() for it in CALLS.strip("\n").splitlines() if "WriteContext" not in it]
    assert (status, found) == (1, dict.fromkeys(wants, WHY))
