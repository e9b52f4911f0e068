"""Copies the crates into another repository as crates/amq_protocol_types/CALLING.md says, and runs its program there.

The page's table has what each crate needs, and its program and commands print what the page has. Nothing is proved.
"""

import re
import subprocess
from pathlib import Path

import pytest
from dependencies import TOP, Crates

PAGE = TOP / "crates/amq_protocol_types/CALLING.md"
SECTION = PAGE.read_text().partition("\n## In another repository\n")[2].partition("\n## ")[0]
ROWS = [[re.findall(r"`(\w+)`", cell) for cell in it.split("|")] for it in re.findall(r"(?m)^\| `.*$", SECTION)]
# Where the page's commands have the other repository, what that has in crates.txt before, and what may be copied.
OTHER, OWN = "../mine", "# a comment\n"
COPIED = re.compile(r"crates/\w+/(LICENSE|src/.*\.rt|(specs|proofs)/.*\.antt)|crates\.txt")


@pytest.mark.parametrize("row", ROWS, ids=[it[1][0] for it in ROWS])
def test_row(row: list[list[str]]) -> None:
    assert sorted(row[3]) == sorted(Crates().needed(*row[1]))


def fence(kind: str) -> str:
    """What the section's block of this kind has."""
    found = re.search(rf"```{kind}\n(.*?)```", SECTION, re.DOTALL)
    assert found, f"the section has no block of {kind}"
    return found[1]


def test_commands_of_the_page(tmp_path: Path) -> None:
    """The page's commands print what it has, its program being there, and copy nothing but sources and licences."""
    path = re.search(r"`(crates/\w+/src/main\.rt)`", SECTION)
    assert path, "the section names no program"
    source = tmp_path / path[1]
    source.parent.mkdir(parents=True)
    source.write_text(fence("rust"))
    (tmp_path / "crates.txt").write_text(OWN)
    shown = fence("console").splitlines(True)
    commands = "".join(it[2:] for it in shown if it[:2] in ("$ ", "> ")).replace(OTHER, str(tmp_path))
    wants = "".join(it for it in shown if it[:2] not in ("$ ", "> "))
    assert wants
    done = subprocess.run(["bash", "-e", "-o", "pipefail", "-c", commands], cwd=TOP, capture_output=True, text=True)
    assert (done.returncode, done.stdout) == (0, wants), done.stdout + done.stderr[-600:]
    copied = [
        it.relative_to(tmp_path).as_posix() for it in tmp_path.glob("**/*") if it.is_file() and "/out/" not in str(it)
    ]
    assert [it for it in copied if not COPIED.fullmatch(it)] == []
    assert {f"crates/{it}/LICENSE" for it in ROWS[0][3]} == {it for it in copied if it.endswith("LICENSE")}
    assert (tmp_path / "crates.txt").read_text().startswith(OWN)
