"""What bindings/rust/drop_in.py puts into a drop-in besides the crate's sources. The crate has only what the script edits."""

from pathlib import Path

import pytest
from building import AARCH64, C_API, FOLDERS, GENERATED, X86_64
from dependencies import TOP

from tests.checks import Done, run
from tests.rust.cargo import CRATES, RUST, assert_well, cargo

SOURCES = {
    "Cargo.toml": '[package]\nname = "amq-protocol-types"\nversion = "10.6.3"\n[dependencies]\nnom = "8.0"\n',
    "src/lib.rs": "#![deny(unsafe_code)]\npub mod parsing;\n",
    "src/parsing.rs": """\
pub fn parse_raw_value<I: ParsableInput>(i: I, kind: AMQPType) -> ParserResult<I, AMQPValue> {
}
pub fn parse_value<I: ParsableInput>(i: I) -> ParserResult<I, AMQPValue> {
}
pub fn parse_field_array<I: ParsableInput>(i: I) -> ParserResult<I, FieldArray> {
}
pub fn parse_field_table<I: ParsableInput>(i: I) -> ParserResult<I, FieldTable> {
}
""",
    "src/generation.rs": """\
pub fn gen_short_string<'a, W: Write + 'a>(s: &'a str) -> impl SerializeFn<W> + 'a {
}
""",
}


def make(crate: Path, to: Path) -> Done:
    return run([RUST / "drop_in.py", crate, to])


@pytest.fixture
def made(tmp_path: Path) -> Path:
    for name, text in SOURCES.items():
        (tmp_path / "crate" / name).parent.mkdir(parents=True, exist_ok=True)
        (tmp_path / "crate" / name).write_text(text)
    assert assert_well(make(tmp_path / "crate", tmp_path / "made")) == ""
    return tmp_path / "made"


@pytest.mark.parametrize("target", (X86_64, AARCH64))
def test_compiled_code(made: Path, target: str) -> None:
    """Is there for each processor, with the notices."""
    for source in (GENERATED / FOLDERS[target] / f"{it}.s" for it in C_API):
        assert (made / CRATES[0] / source.relative_to(TOP)).read_bytes() == source.read_bytes()


def test_notices(made: Path) -> None:
    for name in ("LICENSE", "THIRD-PARTY"):
        assert (made / CRATES[0] / name).read_text() == (TOP / name).read_text()


@pytest.mark.needs("cargo")
def test_crates_are_built(made: Path) -> None:
    """Those over the C API, where nothing else of this repository is."""
    assert_well(cargo(made / CRATES[1], "build", CARGO_TARGET_DIR=str(made / "target")))
    assert [*made.glob("target/debug/build/*/out/libamqp_values.a")]


def test_no_folder(tmp_path: Path) -> None:
    done = make(tmp_path / "vendor/amq-protocol-types", tmp_path / "made")
    assert done.returncode and done.stderr == f"{tmp_path}/vendor/amq-protocol-types: there is no such folder\n"
