"""`Copy`: a copy of the repository in which stand-ins take the place of what steps of CI call, so that a run takes a second."""

import os
import re
from pathlib import Path
from typing import NamedTuple

from tests.checks import Done, run
from tests.copies import copy_repository

# A call that the file `failing` names ends as its line says; every other one passes two tests. Each prints how it was called.
STAND_IN = """\
echo "called: $*"
echo "environment: ${PYTEST_ADDOPTS-}${PYTHONOPTIMIZE-}"
case $(sed -n "s|^$*: ||p" failing) in
"a test fails") echo "1 passed, 1 failed" ;;
"its status alone says so") echo "2 passed, 0 failed"; exit 1 ;;
"it tries nothing") echo "0 passed, 0 failed" ;;
"it counts nothing") ;;
"it is killed") echo "2 passed, 0 failed"; kill -9 $$ ;;
"it can't be started") exit 127 ;;
"an edit doesn't apply") echo "x: BAD EDIT"; echo "2 passed, 0 failed" ;;
*) echo "2 passed, 0 failed" ;;
esac
"""
RT = """\
#!/bin/sh
case $1 in
version) cat logic ;;
help) echo "rt ci [--anew]" ;;
*) exec sh stand_in rt "$@" ;;
esac
"""
SCRIPTS = (
    "tests/run",
    "tests/pages.py",
    "tests/lint",
    "tests/mutants.py",
    "tests/fresh.py",
    "tests/clone.py",
    "packaging/generated.py",
    ".ci/setup",
)
MODULES = ("tests/unproved.py", "tests/model/stored_output.py")


class Copy(NamedTuple):
    """The copy's folder, and what is put before the path."""

    top: Path
    path: Path

    def put(self, name: str, text: str) -> None:
        """Puts a program before the path."""
        (self.path / name).write_text(text)
        (self.path / name).chmod(0o755)

    def make(self, *words: str, **env: str) -> Done:
        """Runs make, without the Rust crate unless WITHOUT is given."""
        env = {"PATH": f"{self.path}:{os.environ['PATH']}", "HOME": str(self.top), "WITHOUT": "crate", **env}
        return run(["make", *words], cwd=self.top, env=env, timeout=600)

    def steps(self, target: str) -> dict[str, str]:
        """The steps that a target runs, and how each is called, as the stand-in prints it."""
        (names,) = re.findall(r"\.ci/count\.py out/steps \$begun (.*)", self.make("-n", target).stdout)
        lines = self.make("-n", *names.split()).stdout
        found = {}
        for name, call in re.findall(r"(?m)^\.ci/step out/steps/(\S+)\.log (.*)", lines):
            program, *words = call.removeprefix("python3 -m ").split()
            found[name] = " ".join([program.rpartition("/")[2].removeprefix("tests."), *words])
        return {it: found[it] for it in names.split()}

    def fail(self, call: str, how: str) -> None:
        """Has what is called so end otherwise."""
        (self.top / "failing").write_text(f"{call}: {how}\n")

    def called(self, step: str) -> str:
        """How a step was called in the last run."""
        return (self.top / f"out/steps/{step}.log").read_text().partition("called: ")[2].partition("\n")[0]


def copied(folder: Path) -> Copy:
    """Copies the repository into a folder."""
    copy = Copy(folder / "a copy", folder / "path")
    copy_repository(copy.top)
    copy.path.mkdir()
    copy.put("rt", RT)
    (copy.top / "stand_in").write_text(STAND_IN)
    (copy.top / "failing").touch()
    (logic,) = re.findall(r"(?m)^LOGIC = (.*)$", (copy.top / ".ci/steps.mk").read_text())
    (copy.top / "logic").write_text(f"a kit {logic}\n")
    for it in SCRIPTS:
        (copy.top / it).write_text(f'#!/bin/sh\nexec sh stand_in {Path(it).name} "$@"\n')
    for it in MODULES:
        name = it.removesuffix(".py").removeprefix("tests/").replace("/", ".")
        (copy.top / it).write_text(f'import os, sys\nos.execvp("sh", ["sh", "stand_in", "{name}", *sys.argv[1:]])\n')
    return copy
