"""What `make` makes and calls when it builds, packs or releases. Nothing is proved: rt is a stand-in."""

import os
import shutil
from pathlib import Path

import pytest
from dependencies import TOP

from tests.checks import assert_well, run
from tests.conftest import WITHOUT
from tests.copies import copy_repository


def test_what_needs_no_toolchain(tmp_path: Path) -> None:
    """Each of these targets makes what it is for, and none calls rt. (`make deb` builds in the checkout: tests/packages tries it.)"""
    (tmp_path / "path").mkdir()
    for it in ("rt", "rattle"):
        (tmp_path / "path" / it).write_text(f'#!/bin/sh\necho "$0 $*" >>{tmp_path}/called\nexit 1\n')
        (tmp_path / "path" / it).chmod(0o755)
    out, env = tmp_path / "out", {**os.environ, "PATH": f"{tmp_path}/path:{os.environ['PATH']}"}
    for it in ("all", "dist", "wheel", "web", *(["rust"] * ("rust" not in WITHOUT))):
        assert_well(run(["make", "-C", TOP, f"OUT={out}", "CMAKE_FLAGS=-DAMQP_SHOW=OFF", it], env=env))
    made = {"build/libamqp_values.a", "build/libamqp_values.so", "aarch64/libamqp_values.a", "web/amqp.html"}
    assert all((out / it).is_file() for it in made)
    assert len([*out.glob("packed/*.tar.gz")]) == 2 and len([*out.glob("wheel/*.whl")]) == 1
    assert not (tmp_path / "called").exists()


def test_show_is_proved(tmp_path: Path) -> None:
    """`make show` has rt run it, which proves and builds it first."""
    (tmp_path / "rt").write_text('#!/bin/sh\necho "$(basename "$PWD"): rt $*"\n')
    (tmp_path / "rt").chmod(0o755)
    env = {**os.environ, "PATH": f"{tmp_path}:{os.environ['PATH']}"}
    assert assert_well(run(["make", "-sC", TOP, "show"], env=env)) == "amqp_show: rt run -- --version\n"


@pytest.fixture
def committed(tmp_path: Path) -> Path:
    """A copy of the repository, all of which is committed."""
    copy_repository(tmp_path / "copy")
    git = ["git", "-c", "user.name=a", "-c", "user.email=a@b"]
    for words in (["init", "-q"], ["add", "-A"], ["commit", "-q", "-m", "All"]):
        assert_well(run([*git, *words], cwd=tmp_path / "copy"))
    return tmp_path / "copy"


@pytest.mark.parametrize("changed", (False, True))
def test_release_is_of_what_is_committed_and_passes(committed: Path, tmp_path: Path, changed: bool) -> None:
    """Before anything else, `make check` has to pass."""
    (tmp_path / "path").mkdir()
    for it in ("make", "rt"):
        (tmp_path / "path" / it).write_text(f'#!/bin/sh\necho "{it} $*" >>{tmp_path}/called\nexit 1\n')
        (tmp_path / "path" / it).chmod(0o755)
    if changed:
        (committed / "README.md").write_text("")
    env = {**os.environ, "PATH": f"{tmp_path}/path:{os.environ['PATH']}"}
    (tmp_path / "called").touch()
    done = run([shutil.which("make") or "make", "release"], cwd=committed, env=env)
    assert done.returncode == 2
    assert ("commit first" in done.stderr) == changed
    assert (tmp_path / "called").read_text() == ("" if changed else "make check\n")
