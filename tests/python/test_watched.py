"""Runs watched.py under sanitizers, and in the debug build of Debian's Python, which counts references."""

import os
import shutil
import subprocess
from pathlib import Path

import pytest
from dependencies import TOP
from wheels import PYTHON

from tests.compiling import compile_package

# How many damaged tables are read: by CI, and before a release.
SAMPLE, WHOLE = 4_000, 100_000
FLAGS = ("-O1", "-fsanitize=address,undefined", "-fno-sanitize-recover=undefined", "-fno-omit-frame-pointer")
DEBUG = "python3-dbg"


def watched(python: str, what: str, folder: str, seed: int, count: int, env: dict[str, str]) -> int:
    words = [python, "-B", "-m", "tests.python.watched", what, folder, str(seed), str(count)]
    path = f"{TOP}:{TOP / 'packaging'}"
    done = subprocess.run(words, cwd=TOP, capture_output=True, text=True, env={**os.environ, **env, "PYTHONPATH": path})
    assert not done.returncode, f"{done.stderr[:3000]}...{done.stderr[-1500:]}"
    return int(done.stdout.split()[-1])


def runtime(name: str) -> str:
    done = subprocess.run(["cc", f"-print-file-name={name}"], capture_output=True, text=True, check=True)
    return str(Path(done.stdout.strip()).resolve())


def test_sanitizers(request: pytest.FixtureRequest, tmp_path: Path, seed: int) -> None:
    """Address and undefined behaviour sanitizers find nothing; each object is allocated by malloc, so that its ends are seen."""
    count = WHOLE if request.config.getoption("--random") else SAMPLE
    wrong = compile_package(tmp_path, FLAGS)
    assert not wrong, wrong
    env = {"LD_PRELOAD": runtime("libasan.so"), "ASAN_OPTIONS": "detect_leaks=0", "PYTHONMALLOC": "malloc"}
    assert watched(PYTHON, "mutated", str(tmp_path), seed, count, env) == count


def test_references(tmp_path: Path, seed: int) -> None:
    """No reference is lost or left by a round of calls that end well and of others that raise."""
    python = shutil.which(DEBUG)
    assert python, f"{DEBUG} is missing (make setup installs it)"
    wrong = compile_package(tmp_path, ["-DPy_REF_DEBUG"])
    assert not wrong, wrong
    assert watched(python, "references", str(tmp_path), seed, 700, {}) <= 0
