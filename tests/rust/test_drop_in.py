"""The drop-in of the Rust crate, which bindings/rust/drop_in.py makes.

It stops with the place on sources that it doesn't know. All tests of the crate pass over the drop-in, as many as over the
crate. equal.rs: on random inputs both give the same, except for claims above the limit. refused.rs: what is beyond each limit is
what the process chose, in debug and release builds. cargo takes the drop-in if the client's Cargo.lock has the crate's version,
after `cargo update`, and if the client asks for exactly this version, with --keep-version. The programs of the reports in
docs/upstream print what the reports have.
"""

import re
import shutil
from collections.abc import Iterator
from pathlib import Path

import pytest
from dependencies import TOP

from tests.rust.cargo import HERE, NAME, OUT, PACKAGES, PROFILES, VERSION, Given
from tests.rust.cargo import assert_well, client, copied, count_of_tests, last_line, package


BOTH = f"""\
[[test]]
name = "refused"
path = "{HERE}/refused.rs"
[features]
default = []
verbose-errors = ["original/verbose-errors", "drop-in/verbose-errors"]
"""
# Changes of the crate's sources that the drop-in doesn't know: the file, the old and the new text, and what the error names.
UNKNOWN = (
    ("Cargo.toml", 'version = "10.6.3"', 'version = "10.7.0"', ""),
    ("src/parsing.rs", "pub fn parse_field_table<", "pub fn parse_table<", "parse_field_table"),
    ("src/parsing.rs", "ParserResult<I, FieldArray> {", "ParserResult<I, Vec<()>> {", "parse_field_array"),
    ("src/parsing.rs", 'context("parse_id", parse_short_uint)', "parse_value", "parse_value"),
    ("src/generation.rs", "pub fn gen_short_string<", "pub fn gen_short<", "gen_short_string"),
    ("src/lib.rs", "pub mod parsing;", "pub mod parsers;", ""),
)

pytestmark = pytest.mark.needs("--crate", "--packages", "cargo")


@pytest.mark.parametrize(("name", "old", "new", "what"), UNKNOWN, ids=[it[2] for it in UNKNOWN])
def test_unknown_source(rust: Given, name: str, old: str, new: str, what: str) -> None:
    """It isn't edited, and the place is printed."""
    copy, out = copied(rust.crate, OUT / "changed"), OUT / "made"
    source = (copy / name).read_text()
    assert old in source
    (copy / name).write_text(source.replace(old, new, 1))
    done = rust.drop_in(out, crate=copy)
    assert done.returncode and re.match(rf"{re.escape(name)}:\d+: {what}", done.stderr), done.stderr
    assert not out.exists()


def test_tests_of_crate(rust: Given, drop_in: Path) -> None:
    """All pass, as many as over the crate."""
    theirs, ours = rust.cargo(rust.crate, "test"), rust.cargo(drop_in, "test")
    assert_well(ours)
    assert count_of_tests(ours) == count_of_tests(theirs) > 0


@pytest.mark.needs("cargo-clippy")
def test_clippy(rust: Given, drop_in: Path) -> None:
    """What clippy says of the drop-in, it says of the crate's own sources only."""
    done = rust.cargo(drop_in, "clippy")
    assert_well(done)
    assert re.findall(r"--> (src/(?:checked|limits)\.rs):\d+", done.stderr) == []


@pytest.fixture(scope="session")
def both(rust: Given, drop_in: Path) -> Path:
    """A package with the crate and the drop-in."""
    ours = f'drop-in = {{ package = "{NAME}", path = "{drop_in}" }}'
    return package("both", [rust.original, ours, *PACKAGES], BOTH, equal="equal")


@pytest.mark.parametrize(("feature", "part"), (("default", 1), ("verbose-errors", 10)))
def test_equal(rust: Given, both: Path, feature: str, part: int, count: int, seed: int, notes: list[str]) -> None:
    """What both answer to random inputs, and to a tenth of them with the feature that has an error's contexts."""
    words = ["--release", "--quiet", "--features", feature, "--bin", "equal", "--", str(count // part), str(seed)]
    done = rust.cargo(both, "run", *words)
    notes.append(f"{feature}: {last_line(done)}")
    assert_well(done)


@pytest.mark.parametrize("profile", PROFILES)
def test_refused(rust: Given, both: Path, profile: str) -> None:
    done = rust.cargo(both, "test", "--quiet", *PROFILES[profile], "--test", "refused")
    assert_well(done)
    assert count_of_tests(done)


# Which crate cargo takes


def is_taken(rust: Given, folder: Path, drop_in: Path) -> bool:
    """Whether the client's crate is the drop-in."""
    done = rust.cargo(folder, "tree", "-i", NAME)
    assert_well(done)
    return str(drop_in) in done.stdout


@pytest.mark.parametrize("is_updated", (False, True), ids=("locked", "updated"))
def test_locked(rust: Given, drop_in: Path, is_updated: bool) -> None:
    """If Cargo.lock has the crate's version, the drop-in is taken after `cargo update`."""
    folder = client("locked")
    (folder / "Cargo.lock").unlink(missing_ok=True)
    assert_well(rust.cargo(folder, "generate-lockfile"))
    client("locked", drop_in)
    if is_updated:
        assert_well(rust.cargo(folder, "update", "-p", NAME))
    assert is_taken(rust, folder, drop_in) == is_updated


@pytest.mark.parametrize("is_kept", (False, True), ids=("raised", "kept"))
def test_asked_for_exactly(rust: Given, is_kept: bool) -> None:
    """If the client asks for exactly the crate's version, the drop-in is taken that keeps it."""
    path = OUT / ("kept" if is_kept else "raised")
    assert_well(rust.drop_in(path, *["--keep-version"] * is_kept))
    assert is_taken(rust, client(f"exact-{path.name}", path, f"={VERSION}"), path) == is_kept


# docs/upstream


def sources() -> Iterator[tuple[str, str, str]]:
    """The programs of the reports: the report's name, the source, and what is typed and printed."""
    for report in sorted((TOP / "docs/upstream").glob("*.md")):
        for source, console in re.findall(r"```rust\n(.*?)```\n\n```console\n(.*?)```", report.read_text(), re.DOTALL):
            yield report.stem, source, console


SOURCES = [*sources()]
# What is typed for a program, by its number, and the lines that it prints.
COMMANDS = [
    pytest.param(number, words, lines.splitlines(), id=f"{report}, {words}")
    for number, (report, _, console) in enumerate(SOURCES)
    for words, lines in re.findall(r"(?m)^\$ cargo (run(?: --release)?)\n((?:(?!\$ ).*\n)*)", console)
]


@pytest.fixture(scope="session")
def upstream(rust: Given) -> Path:
    """A package with the programs of the reports."""
    folder = package("upstream", [f'{NAME} = {{ path = "{rust.crate}" }}', *PACKAGES])
    shutil.rmtree(folder / "src", ignore_errors=True)
    (folder / "src/bin").mkdir(parents=True)
    for number, (_, source, _) in enumerate(SOURCES):
        (folder / f"src/bin/program{number}.rs").write_text(source)
    return folder


@pytest.mark.parametrize(("number", "words", "lines"), COMMANDS)
def test_program_of_report(rust: Given, upstream: Path, number: int, words: str, lines: list[str]) -> None:
    """It prints the report's lines, in their order."""
    done = rust.cargo(upstream, *words.split(), "--quiet", "--bin", f"program{number}")
    printed, at = done.stdout + done.stderr, 0
    assert lines, "the report has no lines"
    for line in lines:
        found = printed.find(line, at)
        assert found >= 0, f"{line!r} isn't in {printed[-1000:]!r}"
        at = found + len(line)
