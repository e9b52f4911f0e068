"""amqp_show on the transcripts of this folder, whose form is in tests/transcripts.py, and on the commands of its guide.

A case's command runs in a copy of crates/amqp_show/data that has a folder `folder` too, and a file whose name has an escape
character. It has to print what is below it. --write writes the transcripts again, with what the commands print now. The
commands of docs/SHOW.md that pipe into it have to print what is there. The program writes only by its Screen.
"""

import difflib
import re
import subprocess
from collections.abc import Iterator
from pathlib import Path

import pytest
from dependencies import TOP

from tests.show.running import CRATE, ending, fill
from tests.transcripts import Case, Ending, cases, rewritten

HERE = Path(__file__).resolve().parent
CASES = cases(HERE)
# The ways to write, which only Screen uses, and what writes bytes for --raw.
WRITES = re.compile(
    r"\be?print(ln)?!|\bstd(out|err)\(\)|\bio::writer\b|\b(?!screen\.)\w+\.e?print\(|\bwrite_all\(|\bfs::write\b"
)


@pytest.fixture(scope="session")
def folder(tmp_path_factory: pytest.TempPathFactory) -> Path:
    """What the cases run in."""
    path = tmp_path_factory.mktemp("cases") / "data"
    fill(path)
    return path


@pytest.fixture(scope="session")
def amqp_show(program: Path, folder: Path) -> Path:
    """The program by its name, since it names itself by what it is run as."""
    path = folder.parent / "amqp_show"
    path.symlink_to(program)
    return path


@pytest.fixture(scope="module")
def written() -> Iterator[dict[str, Ending]]:
    """The endings to be written, by case, which is done after the last."""
    endings: dict[str, Ending] = {}
    yield endings
    if not endings:
        return
    wanted = {name: case.wants for name, case in CASES.items()} | endings
    for path in HERE.glob("*.t"):
        path.write_text(rewritten(path.read_text(), wanted))
    assert {
        name: case.wants for name, case in cases(HERE).items()
    } == wanted, "a transcript doesn't read as it is written"


def difference(wants: Ending, has: Ending) -> str:
    """The lines of a transcript that differ, or nothing."""
    return "\n".join(difflib.unified_diff(wants.lines(), has.lines(), "expected", "printed", lineterm="", n=1))


@pytest.mark.parametrize("case", CASES.values(), ids=CASES)
def test_case(case: Case, amqp_show: Path, folder: Path, is_writing: bool, written: dict[str, Ending]) -> None:
    ended = ending(case, amqp_show, folder)
    if is_writing:
        written[case.name] = ended
    elif differs := difference(case.wants, ended):
        pytest.fail(differs, pytrace=False)


# The guide


def commands() -> Iterator[tuple[str, str, str]]:
    """The commands of docs/SHOW.md that pipe into this program: what is before it, its words, and what is printed."""
    for block in re.findall(r"```console\n(.*?)```", (TOP / "docs/SHOW.md").read_text(), re.DOTALL):
        yield from re.findall(r"(?m)^\$ (.*\| )amqp_show (.*)\n((?:(?!\$ ).*\n)*)", block)


COMMANDS = [*commands()]


@pytest.mark.parametrize(("source", "words", "wants"), COMMANDS, ids=[words for _, words, _ in COMMANDS])
def test_command_of_guide(program: Path, source: str, words: str, wants: str) -> None:
    command = f"{source}'{program}' {words}"
    done = subprocess.run(["bash", "-c", command], capture_output=True, text=True, timeout=60)
    assert done.stdout == wants, done.stderr


# The sources


def test_only_screen_writes() -> None:
    sources = sorted((CRATE / "src").glob("**/*.rt"))
    assert [it.name for it in sources if WRITES.search(it.read_text())] == ["screen.rt"]
