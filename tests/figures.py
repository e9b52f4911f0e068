"""`faults`, for tests/pages.py: numbers, defaults and versions that a page or source repeats and has wrong."""

import re
import subprocess
from collections.abc import Iterator
from pathlib import Path

import picture
from dependencies import TOP, Crates

HEADER, SPEED, INTEROP, CONTRIBUTING = "include/amqp_values.h", "docs/SPEED.md", "docs/INTEROP.md", "CONTRIBUTING.md"
VERIFICATION, ANSWERS = "docs/VERIFICATION.md", "crates/test_calls/data/rust.calls"
# The steps of CI, which ask for a kit of one logic.
STEPS = ".ci/steps.mk"
# The page with the tables of bench/measure.py that docs/SPEED.md doesn't have.
RESULTS = "bench/RESULTS.md"
# The default limits on bytes and on levels: where they are, and patterns of which each has groups for `bytes` or `depth`.
DEFAULTS = {
    "crates/examples/src/in_place.rt": [r"frame: (?P<bytes>[\d_]+),\s+depth: (?P<depth>\d+)"],
    "docs/LIMITS.md": [
        r"\| default \| (?P<bytes>\d+) \| (?P<depth>\d+) \|",
        r"`amqpv_writer` \| \| \| (?P<depth>\d+) \|",
        r"client that we tested reads (?P<depth>\d+) levels",
    ],
    "crates/amq_protocol_types/src/parsing/within.rt": [r"frame: (?P<bytes>[\d_]+), depth: (?P<depth>\d+)"],
    "docs/C.md": [r"1 MiB \(`AMQPV_MAX_BYTES`\) and (?P<depth>\d+) levels \(`AMQPV_MAX_DEPTH`\)"],
    "docs/INTEROP.md": [
        r"Don't nest deeper than \[(?P<depth>\d+) levels\]",
        r"rejects more than (?P<depth>\d+) by default",
    ],
    "docs/JSON.md": [r"(?P<depth>\d+) levels fit a stack"],
    "README.md": [r"containers nested at most (?P<depth>\d+) deep"],
    "include/amqp_values.h": [r"client we tested reads (?P<depth>\d+) levels"],
    "bindings/rust/amqp-values/src/rabbitmq.rs": [r"usually the (?P<depth>\d+) of"],
    "crates/amqp_show/src/arguments.rt": [
        r"const MAX_BYTES: u32 = (?P<bytes>[\d_]+);",
        r"const DEPTH: u32 = (?P<depth>\d+);",
        r'default_value\("(?P<bytes>\d{4,})"\)',
        r'default_value\("(?P<depth>\d{1,3})"\)',
    ],
    "packaging/amqp_show.1": [r"bytes; (?P<bytes>\d+) by default", r"(?P<depth>\d+) by default\.\n\.It Fl h"],
    "docs/SHOW.md": [r"`--max-bytes` \((?P<bytes>\d+) by default\)", r"`--depth` \((?P<depth>\d+);"],
    "bindings/web/index.html": [r'id="frame"[^>]* value="(?P<bytes>\d+)"', r'id="depth"[^>]* value="(?P<depth>\d+)"'],
    "bindings/python/amqp_values/__init__.pyi": [r"max_bytes: int = (?P<bytes>\d+),", r"depth: int = (?P<depth>\d+)"],
    "bindings/python/src/module.c": [r"\bmax_bytes=(?P<bytes>\d+)", r"\bdepth=(?P<depth>\d+)"],
    "bindings/python/amqp_values/adapters/shared.py": [r"\bmax_bytes=(?P<bytes>\d+)", r"\bdepth=(?P<depth>\d+)"],
    "docs/PYTHON.md": [r"`max_bytes`, (?P<bytes>\d+)\|", r"`depth`, (?P<depth>\d+)\|"],
    **{
        name: [r"max_bytes: (?P<bytes>1 << \d+), depth: (?P<depth>\d+)", r"1 MiB, (?P<depth>\d+) levels"]
        for name in ("bindings/rust/amqp-values/src/limits.rs", "bindings/rust/drop_in/limits.rs")
    },
    "docs/RUST.md": [r"more than (?P<depth>\d+) levels", r"(?P<depth>\d+) levels by default"],
    **{f"crates/examples/src/{it}.rt": [r"\bdepth: (?P<depth>\d+)"] for it in ("headers", "stream")},
    "tests/model/rules.py": [r"\nDEPTH = (?P<depth>\d+)\n"],
    "include/amqp_values_rabbitmq.h": [r"AMQPV_MAX_BYTES \((?P<bytes>\d+)\)", r"AMQPV_MAX_DEPTH \((?P<depth>\d+)\)"],
}
# How many words a page may have, and README.md.
MOST_WORDS = {"": 3000, "README.md": 900}
# What names no version of RabbitMQ that only docs/INTEROP.md may name.
NAMING = ("*.md", "include", "bindings", "packaging", "crates")
# The crates whose lines docs/VERIFICATION.md counts.
PROVED = "amqp_value_core amq_protocol_types amqp_in_place amqp_json amqp_c amqp_c_alloc amqp_wire amqp_show".split()
# The list of definitions that the headline is stated by, and the folder of those that it names in italics, of another crate.
HEADLINE, OTHERS = "crates/amqp_value_core/specs/Lib.antt", "crates/amq_protocol_types/specs"
# What is neither code nor a definition: comments, imports and blank lines.
LEFT_OUT = {".rt": r"(?m)^\s*//.*|^\s*(?:pub |ghost )?use [^;]*;", ".antt": r"(?m)^ *(?:--|(?:pub )?use ).*"}
# By how much a number of lines that is stated as a round one may be wrong.
ROUNDED = 0.05


def read(name: str) -> str:
    return (TOP / name).read_text()


def place(name: str, at: int) -> str:
    return f"{name}:{read(name).count(chr(10), 0, at) + 1}"


def number(text: str) -> int:
    """A number as a source has it."""
    base, _, shift = text.replace("_", "").partition(" << ")
    return int(base) << int(shift or 0)


def other_defaults() -> Iterator[str]:
    """Yields the default limits that aren't those of the header."""
    found = re.search(r"AMQPV_MAX_BYTES = (?P<bytes>\d+), AMQPV_MAX_DEPTH = (?P<depth>\d+)", read(HEADER))
    assert found
    for name, patterns in DEFAULTS.items():
        for pattern in patterns:
            matches = [*re.finditer(pattern, read(name))]
            if not matches:
                yield f"{name}:1: it has no default limit as {pattern}: correct the pattern, in tests/figures.py"
            for it in matches:
                for what, text in it.groupdict().items():
                    if number(text) != int(found[what]):
                        yield f"{place(name, it.start())}: the default is {text}, and {found[what]} in {HEADER}: write that"


def other_ratios() -> Iterator[str]:
    """Yields the ratios of README.md that aren't those of docs/SPEED.md, which bench/measure.py writes."""
    shown = re.search(r"takes (\d+)% of the Rust crate's time.*?takes (\d+)%", read("README.md"))
    rows = re.findall(r"(?m)^\|message headers\b[^|]*\|[^|]* us\|([\d.]+) \(", read(SPEED))
    wanted = [f"{100 * float(it):.0f}" for it in rows[:2]]
    if not shown or [*shown.groups()] != wanted:
        yield f"README.md: message headers take {' and '.join(wanted)} % of the Rust crate's time by {SPEED}: write that"


def other_picture() -> Iterator[str]:
    """Yields docs/speed.svg, if it isn't what the tables say."""
    if picture.PICTURE.read_text() != picture.drawn():
        yield "docs/speed.svg: it isn't drawn from the tables as they are: bench/picture.py draws it"


def long_pages() -> Iterator[str]:
    """Yields the pages that have more words than a page may have."""
    tracked = subprocess.run(["git", "ls-files", "*.md"], cwd=TOP, capture_output=True, text=True, check=True).stdout
    for name in tracked.splitlines():
        count, most = len(read(name).split()), MOST_WORDS.get(name, MOST_WORDS[""])
        if count > most:
            yield f"{name}: it has {count} words, and may have {most}: shorten it"


def tables_of_no_run() -> Iterator[str]:
    """Yields the tables of docs/SPEED.md and bench/RESULTS.md that bench/measure.py doesn't write, and those that both have."""
    sources = "".join(it.read_text() for it in (TOP / "bench").glob("*.py"))
    heads = [(name, it) for name in (SPEED, RESULTS) for it in re.finditer(r"(?m)^\|([^|]*)\|.*\n\|---\|", read(name))]
    for name, it in heads:
        if f'"{it[1]}"' not in sources:
            yield f"{place(name, it.start())}: bench/measure.py writes no table that begins with {it[1]}: correct it"
        if sum(other[1] == it[1] for _, other in heads) > 1:
            yield f"{place(name, it.start())}: there is another table that begins with {it[1]}: keep one"


def versions_by_hand() -> Iterator[str]:
    """Yields the places that name a version of RabbitMQ that no test runs, except docs/INTEROP.md, which has the day."""
    (by_hand,) = re.findall(r"(?m)([\d.]+) of Debian sid was tested by hand on \d+ \w+ \d{4}", read(INTEROP))
    tracked = subprocess.run(["git", "ls-files", *NAMING], cwd=TOP, capture_output=True, text=True, check=True).stdout
    for name in tracked.splitlines():
        for it in re.finditer(rf"\b{re.escape(by_hand)}\b", (TOP / name).read_text(errors="replace")):
            if name not in (INTEROP, CONTRIBUTING):
                yield f"{place(name, it.start())}: no test runs RabbitMQ {by_hand}: name it in {INTEROP} only"


def other_logics() -> Iterator[str]:
    """Yields the pages that ask for a kit of another logic than CI does."""
    (wanted,) = re.findall(r"(?m)^LOGIC = (logic [0-9a-f]+)$", read(STEPS))
    for name in ("README.md", CONTRIBUTING, "generated/README.md"):
        found = re.findall(r"logic [0-9a-f]{16}", read(name))
        if {*found} != {wanted}:
            yield f"{name}: it names {' and '.join(found) or 'no logic'}, and {STEPS} {wanted}: write that"


def other_versions() -> Iterator[str]:
    """Yields the names of released files in pages that have another version than the header."""
    (wanted,) = re.findall(r'(?m)^#define AMQPV_VERSION "(.*)"$', read(HEADER))
    for page in ("README.md", *(f"docs/{it.name}" for it in (TOP / "docs").glob("*.md"))):
        for it in re.finditer(
            r"\b(?:libamqp-values\w*(?:-dev)?|amqp-show)_([\d.]+)-1|\bamqp_values-([\d.]+)-", read(page)
        ):
            if wanted not in it.groups():
                yield f"{place(page, it.start())}: the version of {it[0]} isn't {wanted}, as in {HEADER}: write that"


def lines_of(*paths: Path) -> list[str]:
    """The lines of sources that say something."""
    texts = (re.sub(LEFT_OUT[it.suffix], "", it.read_text()) for it in paths)
    return [line for it in texts for line in it.splitlines() if line.strip()]


def in_crates(pattern: str) -> list[Path]:
    """The files of the crates that are counted, without tests."""
    found = sorted(it for name in PROVED for it in (TOP / "crates" / name).glob(pattern))
    return [it for it in found if "tests" not in (it.parent.name, it.stem)]


def counts_of_clauses(lines: list[str]) -> tuple[int, int]:
    """How many lines are of contracts of public functions and of public traits, and of the others."""
    counts, depth, is_public, is_of_trait = [0, 0], 0, False, False
    for line in lines:
        if depth or re.match(r"\s*(?:requires|ensures)\b", line):
            counts[not is_public] += 1
            depth += line.count("{") - line.count("}")
        elif head := re.match(r"\s*(pub(?:\(\w+\))? )?(?:extern \"C\" )?fn ", line):
            is_public = head[1] == "pub " or is_of_trait
        elif not line.startswith(" "):
            is_of_trait = line.startswith("pub trait ")
    return counts[0], counts[1]


def headline() -> list[Path]:
    """The files that the headline is stated by."""
    before, names = read(HEADLINE).partition("\npub mod ")[0], re.findall(
        r"\(\d+ lines\)\npub mod (\w+)", read(HEADLINE)
    )
    others = [it for name in re.findall(r"\*(\w+)\*", before) for it in (TOP / OTHERS).glob(f"**/{name}.antt")]
    return [*((TOP / HEADLINE).with_name(f"{it}.antt") for it in names), *others]


def other_lengths() -> Iterator[str]:
    """Yields the numbers of lines, mutants and answers in docs/VERIFICATION.md that aren't those of the sources."""
    text, source = read(VERIFICATION), lines_of(*in_crates("src/**/*.rt"))
    public, private = counts_of_clauses(source)
    wanted = {
        f"definitions of the headline, in {len(headline())} files": len(lines_of(*headline())),
        "all definitions": len(lines_of(*in_crates("specs/**/*.antt"))),
        "contracts of public functions": public,
        "contracts of other functions": private,
        "code": len(source) - public - private,
        "proofs": len(lines_of(*in_crates("proofs/**/*.antt"))),
    }
    stated = {what: number(it.replace(",", "")) for it, what in re.findall(r"(?m)^\|([\d,]+)\|([^|]*)\|", text)}
    for what, count in wanted.items():
        if abs(stated.get(what, 0) - count) > (0 if "headline" in what else ROUNDED * count):
            yield f"{VERIFICATION}: the lines of {what} are {count:,}, and not {stated.get(what)}: write that in the table"
    blocks = "".join(it.read_text() for it in TOP.glob("crates/*/mutants"))
    mutants = len(re.findall(r"(?m)^## ", blocks)) + len([*TOP.glob("crates/*/must-fail/*.edit")])
    answers = len(re.findall(r"(?m)^(?!#|$)", read(ANSWERS)))
    for words in (f"more than {mutants // 100 * 100} mutants", f"{answers} stored ones"):
        if words not in " ".join(text.split()):
            yield f"{VERIFICATION}: there are {words}: write that"


def untold_libraries() -> Iterator[str]:
    """Yields the toolchain's libraries that proved crates use and docs/VERIFICATION.md doesn't name, since their contracts are
    believed."""
    told, crates = {*re.findall(r"`(\w+)`", read(VERIFICATION))} | {"std"}, Crates()
    for library in sorted({it for name in PROVED for it in crates.of_kit[name]} - told):
        yield f"{VERIFICATION}: crates.txt names the library {library}: name it among what is trusted"


def faults() -> Iterator[str]:
    """Yields what is repeated otherwise than it is made."""
    checks = [other_defaults, other_ratios, other_picture, long_pages, other_logics, tables_of_no_run, versions_by_hand]
    for check in (*checks, other_versions, other_lengths, untold_libraries):
        yield from check()
