"""Runs a crate's tests or its program by `rt try`, without proofs, as a step of `make test`.

It needs only the kit and Python's standard library. `unproved.py tests CRATE` runs the tests of a crate (rt try
--test). `unproved.py runs CRATE` runs a program over its file stdin and compares what it prints with its file stdout,
and of amqp_show also the cases of tests/show. `make check` tests what needs the programs that the proofs leave:
standard error, statuses, terminals, failed allocations, and the C API.
"""

import re
import subprocess
import sys
import tempfile
from collections.abc import Iterator, Sequence
from pathlib import Path

from tests import transcripts
from tests.checks import content

TOP = Path(__file__).resolve().parent.parent
# `make check` runs these cases: they print the program's own name, or read a folder and a file that tests/run show makes.
OTHER_CASES = {"help", "file_folder_stream", "file_name_escape", "plain_files"}

# Of each test or case its name, and what is wrong if it failed.
Tried = Iterator[tuple[str, str]]


def said(crate: Path, words: Sequence[str]) -> str:
    """What a command prints in a crate's folder."""
    done = subprocess.run(
        ["rt", "try", *words], cwd=crate, stdout=subprocess.PIPE, stderr=subprocess.STDOUT, check=False
    )
    return done.stdout.decode(errors="replace")


def tests(crate: Path) -> Tried:
    """The tests of a crate."""
    text = said(crate, ["--test"])
    found = dict(re.findall(r"(?m)^test (\S+) \.\.\. (\w+)$", text))
    if f"tests: {len(found)}\n" not in text or "\ntest result: " not in text:
        yield "the run", f"not all tests ended\n{text[-3000:]}"
    yield from ((name, "" if ended == "ok" else f"{ended}\n{text[-3000:]}") for name, ended in found.items())


def write_case(path: Path, stdin: bytes, stdout: bytes, words: Sequence[str]) -> None:
    """Writes a case as `rt try --cases` reads it."""
    path.write_bytes(stdin)
    path.with_name(f"{path.name}.stdout").write_bytes(stdout)
    path.with_name(f"{path.name}.args").write_text("".join(f"{it}\n" for it in words))


def runs(crate: Path) -> Tried:
    """The expected output of a program, and of amqp_show the cases of tests/show."""
    with tempfile.TemporaryDirectory() as folder:
        args = content(crate / "args").decode().splitlines()
        write_case(Path(folder) / "stored_run", content(crate / "stdin"), (crate / "stdout").read_bytes(), args)
        statuses = {"stored_run": int(content(crate / "status") or 0)}
        cases = transcripts.cases(TOP / "tests/show").values() if crate.name == "amqp_show" else ()
        for it in cases:
            if it.output is transcripts.Output.PIPE and it.name not in OTHER_CASES:
                write_case(Path(folder) / it.name, it.given, it.wants.out, it.words)
                statuses[it.name] = it.wants.status
        files = [word for it in sorted(crate.glob("data/*")) for word in ("--data", f"{it.name}={it}")]
        found = dict(re.findall(r"(?m)^case=(\S+) (.*)$", said(crate, ["--seconds", "600", "--cases", folder, *files])))
    for name, status in statuses.items():
        line = found.get(name, "didn't run")
        yield name, "" if re.match(f"run=ended status={status} .*output=expected", line) else line


def main(kind: str, name: str) -> int:
    tried = [*(tests if kind == "tests" else runs)(TOP / "crates" / name)]
    failed = [f"{it}: FAILED: {why}" for it, why in tried if why]
    print("\n".join([*failed, f"{len(tried) - len(failed)} passed, {len(failed)} failed"]))
    return 1 if failed or not tried else 0


if __name__ == "__main__":
    sys.exit(main(*sys.argv[1:]))
