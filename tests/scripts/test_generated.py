"""The step `generated` names each file of generated/ that isn't as it is made anew. Nothing is made here: folders stand for it."""

import shutil
from pathlib import Path
from typing import NamedTuple

import generated
import pytest
from dependencies import TOP

NAMES = sorted(generated.files_in(TOP / "generated"))


class Folders(NamedTuple):
    """What is made anew, and what is committed."""

    made: Path
    committed: Path

    def wrong(self) -> dict[str, str]:
        return {name: why for name, why in generated.compared(*self) if why}


@pytest.fixture
def folders(tmp_path: Path) -> Folders:
    """Two copies of generated/."""
    return Folders(*(shutil.copytree(TOP / "generated", tmp_path / it) for it in Folders._fields))


def test_files() -> None:
    """Those that builds use, and no other."""
    crates = [f"{folder}/{it}.s" for folder in ("aarch64-linux", "x86_64-linux") for it in ("amqp_c", "amqp_c_alloc")]
    assert NAMES == sorted([*crates, generated.NARROW, generated.WIDE])


def test_as_it_was_made(folders: Folders) -> None:
    assert [name for name, _ in generated.compared(*folders)] == NAMES
    assert folders.wrong() == {}


@pytest.mark.parametrize("name", NAMES)
def test_a_changed_byte(folders: Folders, name: str) -> None:
    """As after a change of a source without `make generated`."""
    data = bytearray((folders.made / name).read_bytes())
    data[len(data) // 2] ^= 1
    (folders.made / name).write_bytes(data)
    assert folders.wrong() == {name: "it has other bytes"}


def test_a_file_too_many_and_one_that_lacks(folders: Folders) -> None:
    (folders.committed / "x86_64-linux/other.s").touch()
    (folders.committed / NAMES[0]).unlink()
    assert folders.wrong() == {"x86_64-linux/other.s": "nothing makes it", NAMES[0]: "it isn't there"}


def test_another_version_of_wasm_opt(
    folders: Folders, monkeypatch: pytest.MonkeyPatch, capsys: pytest.CaptureFixture[str]
) -> None:
    """The module that it makes isn't compared."""
    monkeypatch.setattr(generated, "said_by", lambda *words: f"{words[0]} version 1")
    (folders.made / generated.NARROW).unlink()
    assert folders.wrong() == {}
    assert generated.NARROW in capsys.readouterr().out
