#!/usr/bin/env python3
"""Tries the mutants of the crates, functions with a wrong body: tests/mutants.py [CRATE[/NAME]..]

The prover must refuse each mutant; one that is proved shows that a contract says too little. A crate's file `mutants` has
a block for each:

    ## name
    file: src/x.rt
    refused: the function whose body is wrong, as `rt check` prints it
    clause: the clauses that it breaks, one of which must fail (may be left out)
    old: text that occurs once in the file
    new: text that replaces it

Both texts are one line, as in must-fail/*.edit. Further pairs may follow, of another file after another line `file:`.

A function is checked against the contracts of what it calls, never against their bodies. So one check judges many
mutants, each of another function. Functions that call each other (`#[cycle]`) share their proofs, and are tried one at a
time. A mutant is refused if a goal of its own function fails: the search doesn't prove it, or its answer in proofs/
is refused. An answer that names what the edit removed doesn't count, nor does one that uses another failed proof.

A crate that passed on this machine is tried again only if something has changed that its checks read: its own files, the
interfaces of the crates below it, the kit, or the scripts. The last line is 'N passed, M failed'.
"""

import argparse
import hashlib
import os
import re
import shutil
import subprocess
import sys
import tempfile
import time
from collections.abc import Iterator, Mapping, Sequence
from concurrent.futures import ThreadPoolExecutor
from pathlib import Path

TOP = Path(__file__).resolve().parent.parent
sys.path.append(str(TOP / "packaging"))
from dependencies import Crates, kit, said_by  # noqa: E402

CACHE = Path(os.environ.get("XDG_CACHE_HOME") or Path.home() / ".cache") / "maolkint-mutants"
# What a check reads of a crate, and of the library of each crate below it (without the proofs of functions).
PARTS, OF_LIBRARY = ("src", "specs", "proofs"), ("interface", "lang")
OF_FUNCTIONS = {"Answers.antt", "Invariants.antt", "Proof.antt"}
# An error that a check prints: its file, its goal if it is in one, and the message.
ERROR = re.compile(r"(?m)^(?:\./)?(\S+?):\d+:\d+: error: (?:`([^`]*)`: )?(.*(?:\n  has no .*)?)$")
# One in an answer that doesn't show that a goal fails, and one in a source that cannot be read.
NO_GOAL = re.compile(r"has no field|is not in scope|has no `|was not admitted")
UNREAD = re.compile(r"is not in scope|has no field|is no name|operand is missing|expected the end|cannot continue")
# A goal that is of no clause: what a call requires, arithmetic and bounds, termination, what a type guarantees.
OF_NO_CLAUSE = re.compile(r"-requires|^(\w+-)??(overflow|nonzero|(\w+_)?bounds)[-_]|-smaller$|^invariant_of-")
Verdicts = Iterator[tuple["Edit", bool, str]]  # whether each is refused, and why


class Edit:
    """A mutant: what it changes, and the function that must be refused."""

    def __init__(self, block: str) -> None:
        self.name, *lines = block.strip().split("\n")
        self.pairs: list[tuple[str, str, str]] = []
        # what the block says after each word (in other functions `said` is what a check prints, or the arguments)
        said, self.fault = dict.fromkeys(("file:", "refused:", "clause:", "old:"), ""), ""
        for word, _, rest in (it.partition(" ") for it in lines):
            if word in said:
                said[word] = rest
            elif word == "new:" and said["old:"]:
                self.pairs.append((said["file:"], said["old:"], rest))
            else:
                self.fault = f"this line cannot be read: {word} {rest}"
        self.refused, self.clauses = said["refused:"], re.findall(r"\w+", said["clause:"])

    def applied(self, texts: Mapping[str, str], folder: Path) -> dict[str, str]:
        """These texts of files with the edit; none if an old text doesn't occur once."""
        made = {**texts}
        for file, old, new in self.pairs:
            text = made.get(file) or ((folder / file).read_text() if (folder / file).is_file() else "")
            if text.count(old) != 1:
                return {}
            made[file] = text.replace(old, new)
        return made

    def breaks(self, goal: str) -> bool:
        """Whether a goal is of its clauses. One that names no clause may be of any."""
        named = re.search(r"-clause-(\w+)$", goal)
        return not self.clauses or (named[1] in self.clauses if named else not OF_NO_CLAUSE.search(goal))


class Copy:
    """A copy of a crate, on which mutants are tried."""

    def __init__(self, crates: Crates, crate: str, folder: Path) -> None:
        self.crate, self.folder, text = crate, folder, (crates.folder(crate) / "mutants").read_text()
        for part in (*PARTS, "out/incremental"):
            if (crates.folder(crate) / part).is_dir():
                shutil.copytree(crates.folder(crate) / part, folder / part)
        self.edits = [Edit(it) for it in re.split(r"(?m)^## ", text)[1:]]
        kept = ("--incremental", "out/incremental", "--jobs", "1")
        self.words = [f"{kit()}/bin/rattle", "check", *crates.words(crate), *kept]
        code = "".join(it.read_text() for it in folder.glob("src/**/*.rt"))
        in_cycles = re.findall(r"#\[cycle\((\w+)\)\][^{};]*?\bfn (\w+)", code)
        shared = (folder / "proofs").rglob("+*")
        self.cycles = {it: {name for cycle, name in in_cycles if it.name == f"+{cycle}"} for it in shared}

    def proofs(self, path: str) -> Path:
        """The folder of a function's proofs, which functions in a cycle share."""
        own = self.folder.joinpath("proofs", *path.split("::")[1:])
        return next((it for it, names in self.cycles.items() if own.name in names and it.parent in own.parents), own)

    def check(self, edits: Sequence[Edit]) -> str:
        """What a check prints of the functions of these edits."""
        texts: dict[str, str] = {}
        for it in edits:
            texts = it.applied(texts, self.folder)
        kept = {self.folder / file: (self.folder / file).read_text() for file in texts}
        for file, text in texts.items():
            (self.folder / file).write_text(text)
        words = [*self.words, *(f"--only={it.refused.partition('::')[2]}" for it in edits)]
        done = subprocess.run(words, cwd=self.folder, capture_output=True, text=True, errors="replace")
        for path, text in kept.items():
            path.write_text(text)
        return done.stdout + done.stderr

    def failed(self, said: str, path: str, reason: str) -> list[str]:
        """The goals of a function that fail, by a check's output `said`: left open, or with a refused answer."""
        name, proofs = path.split("::")[-1], self.proofs(path)
        file = str(proofs.relative_to(self.folder) / "Answers.antt")
        found = re.findall("`(.*?)`", " ".join(re.findall(r"`search` did not prove ((?:`[^`]*`(?:, )?)+)", reason)))
        errors = (it for it in ERROR.findall(said) if it[0] == file and it[1] and not NO_GOAL.search(it[2]))
        found += [goal for _, goal, _ in errors]
        # (the line of a function in a cycle lists the goals of all of them)
        return [it for it in dict.fromkeys(found) if not proofs.name.startswith("+") or it.startswith(f"{name}-")]

    def judged(self, edits: Sequence[Edit]) -> Verdicts:
        """Judges these edits by one check, or each half of them if it can't be used."""
        said = self.check(edits)
        reasons = dict(re.findall(r"(?m)^fn (\S+): (.*)$", said))
        failed = {path: self.failed(said, path, reason) for path, reason in reasons.items()}
        of_sources = [it for it in ERROR.findall(said) if it[0].startswith(("src/", "specs/"))]
        is_read = not any(not goal or UNREAD.search(message) for _, goal, message in of_sources)
        is_judged = is_read and re.search(r"(?m)^only=\d+ proved=\d+$", said)
        strays = {it for it in failed if failed[it]} - {it.refused for it in edits}
        if len(edits) > 1 and (strays or not is_judged):
            half = len(edits) // 2
            yield from (it for part in (edits[:half], edits[half:]) for it in self.judged(part))
            return
        for it in edits:
            goals = failed.get(it.refused, [])
            shown, reason = [*filter(it.breaks, goals)], reasons.get(it.refused, "the check names no such function")
            if not is_judged:
                yield it, False, f"cannot be compiled or read: {' '.join(re.findall('.*error.*', said))[:300]}"
            elif shown:
                yield it, True, ", ".join(shown)
            elif len(edits) > 1 and reason != "proved":
                yield from self.judged([it])  # in this round something that it calls may be unproved
            else:
                yield it, False, f"only {', '.join(goals)} fails" if goals else reason

    def tried(self, names: Sequence[str]) -> Verdicts:
        """Tries the crate's mutants, or those of these names, in rounds of one for each function or cycle."""
        left = [it for it in self.edits if not names or it.name in names]
        for it in left:
            it.fault = it.fault or ("" if it.applied({}, self.folder) else "an old text doesn't occur once in its file")
        yield from ((it, False, it.fault) for it in left if it.fault)
        left = [it for it in left if not it.fault]
        while left:
            chosen: dict[Path, Edit] = {}
            texts: dict[str, str] = {}
            for it in left:
                of = self.proofs(it.refused)
                if of not in chosen and (made := it.applied(texts, self.folder)):
                    chosen[of], texts = it, made
            yield from self.judged([*chosen.values()])
            left = [it for it in left if it not in chosen.values()]


def key_of(crates: Crates, crate: str) -> str:
    """A hash of all that the checks of a crate's mutants read."""
    found = hashlib.sha256(f"{said_by('rt', 'version')} {crates.lines[crate]}".encode())
    paths = [
        Path(__file__),
        TOP / "packaging/dependencies.py",
        crates.top / "HANDLES",
        crates.folder(crate) / "mutants",
    ]
    paths += [crates.folder(crate) / it for it in PARTS]
    paths += [crates.library(name) / it for name in crates.needed(crate)[:-1] for it in OF_LIBRARY]
    for path in paths:
        for it in sorted(path.rglob("*")) if path.is_dir() else [path]:
            if it.is_file() and (it.name not in OF_FUNCTIONS or path.parent == crates.folder(crate)):
                found.update(repr((path.name, str(it.relative_to(path)), it.read_bytes())).encode())
    return found.hexdigest()


def self_test(folder: Path) -> tuple[int, int]:
    """Judges a wrong body, a right one and one that cannot be compiled, of which only the first is refused."""
    line = "pub fn {}(n: u32) -> u32 ensures {{ result ≡ n }} {{ {} }}"
    block = "## {0}\nfile: src/lib.rt\nrefused: tested::{0}\nold: {1}\nnew: {2}\n"
    bodies = {"wrong": "0", "right": "let same = n; same", "unread": "missing"}
    code = ["#![tactic(auto)]", "ghost use Rattle.std.specs.Prelude.{◌≡◌};", *(line.format(it, "n") for it in bodies)]
    blocks = [block.format(it, line.format(it, "n"), line.format(it, body)) for it, body in bodies.items()]
    (folder / "crates/tested/src").mkdir(parents=True)
    (folder / "crates.txt").write_text("tested:\n")
    (folder / "crates/tested/src/lib.rt").write_text("\n".join(code))
    (folder / "crates/tested/mutants").write_text("".join(blocks))
    refused = [it.name for it, is_refused, _ in Copy(Crates(folder), "tested", folder / "copy").tried([]) if is_refused]
    print(f"self-test: of {', '.join(bodies)} these are refused: {', '.join(refused)}", flush=True)
    return 0, int(refused != ["wrong"])


def try_crate(crates: Crates, crate: str, names: Sequence[str], is_anew: bool, folder: Path) -> tuple[int, int]:
    """Tries a crate's mutants, or those of these names; how many are refused, and how many are not."""
    begun, kept, counts = time.time(), CACHE / key_of(crates, crate), [0, 0]
    if kept.exists() and not is_anew and not names:
        print(f"{crate}: {kept.read_text()} were refused in an earlier run", flush=True)
        return int(kept.read_text()), 0
    for it, is_refused, why in Copy(crates, crate, folder).tried(names):
        counts[not is_refused] += 1
        print(f"{crate}/{it.name}: {'refused' if is_refused else 'NOT REFUSED'}: {why[:300]}", flush=True)
    print(f"{crate}: {counts[0]} refused, {counts[1]} not, in {time.time() - begun:.0f} s", flush=True)
    if counts[0] and not counts[1] and not names:
        CACHE.mkdir(parents=True, exist_ok=True)
        kept.write_text(str(counts[0]))
    return counts[0], counts[1] or int(not counts[0])


def main() -> int:
    reader = argparse.ArgumentParser(description=__doc__, formatter_class=argparse.RawDescriptionHelpFormatter)
    reader.add_argument("names", nargs="*", metavar="CRATE[/NAME]")
    reader.add_argument("--built", action="store_true", help="use the libraries that `rt ci` left, and prove nothing")
    reader.add_argument("--all", action="store_true", help="try also the crates that passed on this machine")
    reader.add_argument("--jobs", type=int, metavar="N", help="run N checks at once")
    said, crates = reader.parse_args(), Crates()
    free = int(re.findall(r"MemAvailable:\s+(\d+)", Path("/proc/meminfo").read_text())[0])
    jobs = said.jobs or max(1, min(len(os.sched_getaffinity(0)), free // 3_000_000))  # a check takes up to 3 GB
    asked: dict[str, list[str]] = {}
    for it in said.names or [it for it in crates.below if (crates.folder(it) / "mutants").exists()]:
        asked.setdefault(it.partition("/")[0], []).extend(filter(None, [it.partition("/")[2]]))
    for crate in [] if said.built else asked:
        done = subprocess.run(["rt", "check"], cwd=crates.folder(crate), capture_output=True, text=True)
        if done.returncode:
            sys.exit(f"{crate} isn't proved as it is:\n{done.stdout[-2000:]}")
    with tempfile.TemporaryDirectory() as name, ThreadPoolExecutor(jobs) as pool:
        tasks = [pool.submit(self_test, Path(name) / "self-test")]
        for crate in sorted(asked, key=lambda it: -len((crates.folder(it) / "mutants").read_text())):
            tasks.append(pool.submit(try_crate, crates, crate, asked[crate], said.all, Path(name) / crate))
        counts = [it.result() for it in tasks]
    passed, failed = (sum(it) for it in zip(*counts, strict=True))
    print(f"{passed} passed, {failed} failed")
    return 1 if failed or not passed else 0


if __name__ == "__main__":
    sys.exit(main())
