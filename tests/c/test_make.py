"""`make` builds over generated/, builds anew what has changed, and installs and removes it."""

import os
import re
from pathlib import Path
from typing import Any

import pytest
from dependencies import TOP

from tests.c.compiling import Done, assert_well, printed, run
from tests.c.pages import commands_of_building
from tests.c.places import NAME, PATH, WITHOUT_TOOL, files_in
from tests.copies import copy_repository


def make(out: Path, *words: str | Path, top: Path = TOP, flags: str = WITHOUT_TOOL, **others: Any) -> Done:
    """Runs make, with a folder of its own for all that it makes."""
    return run(["make", "-C", top, f"OUT={out}", f"CMAKE_FLAGS={flags}", *words], **others)


@pytest.fixture(scope="module")
def out(folder: Path) -> Path:
    """Where make has built all."""
    path = folder / "out"
    assert_well(make(path))
    return path


def test_install(out: Path, prefix: Path, tmp_path: Path) -> None:
    """Others can read all, each file is printed, and all is removed again."""
    root = tmp_path / "a root"
    before = os.umask(0o077)
    try:
        said = assert_well(make(out, "install", f"DESTDIR={root}", "PREFIX=/usr"))
    finally:
        os.umask(before)
    modes = {(it.stat().st_mode & 0o777, it.is_dir()) for it in root.rglob("*")}
    assert modes == {(0o755, True), (0o644, False)}
    assert files_in(root / "usr") == files_in(prefix)
    assert {*said.splitlines()} >= {f"-- Installing: {root / it}" for it in files_in(root)}
    assert_well(make(out, "uninstall", f"DESTDIR={root}", "PREFIX=/usr"))
    assert files_in(root) == set()
    assert not [*root.rglob(NAME)]


def test_other_flags_build_anew(tmp_path: Path) -> None:
    """And without flags those of the last build stay."""
    old = tmp_path / "old"
    assert_well(make(old))
    for n, (flags, place) in enumerate(
        (("-DCMAKE_INSTALL_LIBDIR=lib64", "lib64"), ("", "lib64"), ("-DCMAKE_INSTALL_LIBDIR=lib32", "lib32"))
    ):
        assert_well(make(old, "install", f"DESTDIR={tmp_path}/{n}", "PREFIX=/usr", flags=f"{WITHOUT_TOOL} {flags}"))
        assert {it.parent.name for it in (tmp_path / f"{n}").rglob("*.a")} == {place}


@pytest.mark.parametrize("failing", ("-S", "--build"))
def test_build_that_fails_is_not_installed(tmp_path: Path, failing: str) -> None:
    """Nor is one that ended well before."""
    broken, old, root = tmp_path / "broken", tmp_path / "old", tmp_path / "root"
    broken.mkdir()
    (broken / "cmake").write_text(f'#!/bin/sh\n[ "$1" != {failing} ] || exit 1\nexec /usr/bin/cmake "$@"\n')
    (broken / "cmake").chmod(0o755)
    assert_well(make(old))
    assert make(old, "install", f"DESTDIR={root}", env={**os.environ, "PATH": f"{broken}:{PATH}"}).returncode
    assert not root.exists()


# A source, and what has to be made anew if it changes.
OF_RABBITMQ, PAGES = f"lib{NAME}_rabbitmq.so", "doc"
MADE_OF = {
    "README.md": set[str](),
    "generated/x86_64-linux/amqp_c.s": {f"lib{NAME}.a", f"lib{NAME}.so", OF_RABBITMQ},
    "generated/x86_64-linux/amqp_c_alloc.s": {f"lib{NAME}.a", f"lib{NAME}.so"},
    "include/amqp_values.h": {OF_RABBITMQ},
    "c/amqp_values_rabbitmq.c": {OF_RABBITMQ},
    "packaging/amqp_values.map": {f"lib{NAME}.so"},
    "packaging/amqp_values_rabbitmq.map": {OF_RABBITMQ},
    "docs/JSON.md": {PAGES},
    "packaging/installed_pages.py": {PAGES},
}


@pytest.fixture(scope="module")
def copy(folder: Path) -> Path:
    """A copy of the repository, in which all is built."""
    path = folder / "copy"
    copy_repository(path)
    assert_well(make(path / "out", top=path))
    return path


def when_made(build: Path) -> dict[str, int]:
    """When each file was made that is installed from the folder of a build."""
    found = [it for it in (*build.glob("lib*"), *build.glob("doc/*")) if not it.is_symlink()]
    return {str(it.relative_to(build)): it.stat().st_mtime_ns for it in found}


@pytest.mark.parametrize("name", MADE_OF)
def test_what_is_made_anew(copy: Path, name: str) -> None:
    """After a change of a source, and nothing else."""
    before = when_made(copy / "out/build")
    (copy / name).touch()
    assert_well(make(copy / "out", top=copy))
    after = when_made(copy / "out/build")
    changed = {it for it in after if after[it] != before[it]}
    assert {re.sub(r"(?<=\.so).*|/.*", "", it) for it in changed} == MADE_OF[name]


def test_commands_of_page(tmp_path: Path) -> None:
    """What docs/C.md says about building, in a clone on a machine that has no toolchain."""
    clone, root = tmp_path / "clone", tmp_path / "root"
    copy_repository(clone)
    commands = commands_of_building((TOP / "docs/C.md").read_text())
    assert [it.split()[0] for it in commands] == ["make", "sudo", "sudo", "cmake", "sudo"]
    as_root = ['sudo() { "$@"; }', "ldconfig() { :; }", *commands]
    said = printed(["sh", "-ec", "\n".join(as_root)], cwd=clone, env={"PATH": PATH, "DESTDIR": str(root)})
    assert "removed " in said
    assert f"usr/local/lib/lib{NAME}.so" in files_in(root)
