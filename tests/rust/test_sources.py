"""The Rust sources, without building them: they declare and state what the C header does. (`make lint` checks their layout.)"""

import re
from collections.abc import Iterator
from pathlib import Path

import pytest
from dependencies import TOP

from tests.rust.cargo import CRATES, DROP_IN, HERE, PACKAGES, RUST, assert_well, run

HEADER = TOP / "include/amqp_values.h"


@pytest.mark.needs("rustfmt")
@pytest.mark.parametrize("processor", ("x86_64", "aarch64"))
def test_declarations_are_made_from_the_header(processor: str) -> None:
    """The same for each processor."""
    found = assert_well(run([RUST / "declarations", f"{processor}-unknown-linux-gnu"]))
    stored = (RUST / "amqp-values-sys/src/bindings.rs").read_text()
    assert found == stored, "bindings/rust/declarations prints what it must be"


def test_duties_are_those_of_the_header() -> None:
    duties = HEADER.read_text().partition("What the caller must ensure:\n")[2].partition("\n *\n")[0]
    assert duties.startswith(" *   - ")
    assert re.sub(r"(?m)^ \*   ", "//! ", duties) in (RUST / "amqp-values-sys/src/lib.rs").read_text()


def test_each_call_has_the_comment_of_the_header() -> None:
    """Or refers to the call before, with which it shares the comment."""
    header, declared = HEADER.read_text(), (RUST / "amqp-values-sys/src/bindings.rs").read_text()
    of_header = dict[str, list[str]]()
    for comment, call in re.findall(r"(?s)/\*((?:(?!\*/).)*)\*/\n(?:amqpv_result|uint32_t) (\w+)\(", header):
        of_header[call] = re.findall(r"\w+", comment)
    found = re.findall(r"((?: +///.*\n)*) +pub fn (\w+)", declared)
    assert {call for _, call in found} > {*of_header} > {"amqpv_read", "amqpv_put", "amqpv_to_json"}
    for comment, call in found:
        words = re.findall(r"\w+", comment)
        assert words[: len(of_header[call])] == of_header[call] if call in of_header else words[0] == "See", call


@pytest.mark.parametrize("name", CRATES)
def test_version(name: str) -> None:
    """A crate has the header's version, also where it names the other."""
    version = re.findall(r'(?m)^#define AMQPV_VERSION "(.*)"$', HEADER.read_text())
    versions = re.findall(r'(?<!-)\bversion = "([^"]*)"', (RUST / name / "Cargo.toml").read_text())
    assert {*versions} == {*version}


# The modules that state the stack for each level, and the calls of the C API that take it.
STATED = {"limits": ("read", "measure"), "json": ("to_json", "from_json"), "rabbitmq": ("warn",)}


@pytest.mark.parametrize("module", STATED)
def test_stack(module: str) -> None:
    """The stack that is stated for each level is that of the header, of the call that takes most, on both processors."""
    rows = re.findall(r"(?m)^ \*     (amqpv_[\w, ]*\w) +(\d+) +(\d+)$", HEADER.read_text())
    figures = {name: [*map(int, found)] for names, *found in rows for name in names.split(", ")}
    text = " ".join(re.sub(r"(?m)^ *///", "", (RUST / f"amqp-values/src/{module}.rs").read_text()).split())
    (stated,) = re.findall(r"each level (?:of `depth` )?(\d+) bytes on x86-64, (\d+) on aarch64", text)
    assert max(figures[f"amqpv_{it}"] for it in STATED[module]) == [*map(int, stated)]


# The pages and modules that state the memory for each byte, and the calls of the C API that take it, in their order.
MEMORY = {
    "bindings/rust/amqp-values/src/json.rs": ("canonical", "from_json"),
    "bindings/rust/amqp-values/src/rabbitmq.rs": ("warn",),
    "docs/PYTHON.md": ("canonical", "from_json"),
}


@pytest.mark.parametrize("name", MEMORY)
def test_memory(name: str) -> None:
    """The memory that is stated is that of the header."""
    figures = dict(re.findall(r"(?m)^ \*     amqpv_(\w+) +(\d+) per byte", HEADER.read_text()))
    text = " ".join(re.sub(r"(?m)^ *///", "", (TOP / name).read_text()).split())
    assert re.findall(r"at most (\d+) bytes of memory", text) == [figures[it] for it in MEMORY[name]]


# The sources and pages that say how many bytes of JSON a byte of an encoding has at most.
OF_JSON = {
    "bindings/rust/amqp-values/src/calls.rs": r"JSON_FOR_A_BYTE: usize = (\d+);",
    "bindings/rust/amqp-values/src/json.rs": r"a text has at most (\d+) times as many bytes",
    "docs/RUST.md": r"A text may have at most (\d+) times `max_bytes`",
    "docs/PYTHON.md": r"a text may have (\d+) times as many",
}


@pytest.mark.parametrize("name", OF_JSON)
def test_length_of_json(name: str) -> None:
    """It is that of the header, which tests/c/test_by_model.py looks at."""
    wanted = re.findall(r"(\d+) times as many bytes as the encoding", HEADER.read_text())
    assert re.findall(OF_JSON[name], (TOP / name).read_text()) == wanted != []


def test_unsafe_code() -> None:
    """Is where docs/RUST.md says that it is: in the module that calls C, and not in what is added to the Rust crate."""
    found = {it.name for it in (RUST / "amqp-values/src").glob("*.rs") if re.search(r"\bunsafe\b", it.read_text())}
    assert found == {"calls.rs"}
    assert not [it for it in DROP_IN.glob("*.rs") if "unsafe" in it.read_text()]


def pages_with_programs() -> Iterator[str]:
    """The page on the drop-in, and the reports in docs/upstream that have a program."""
    reports = (TOP / "docs/upstream").glob("*.md")
    yield from ["docs/RUST.md", *sorted(f"docs/upstream/{it.name}" for it in reports if "```rust" in it.read_text())]


@pytest.mark.parametrize("page", pages_with_programs())
def test_versions_of_packages(page: str) -> None:
    """A page names the versions over which programs are compiled."""
    versions = dict(re.findall(r'^([\w-]+) = "(.*)"$', "\n".join(PACKAGES), re.MULTILINE))
    assert f"over nom {versions['nom']} and cookie-factory {versions['cookie-factory']}" in (TOP / page).read_text()


def test_reports() -> None:
    """docs/UPSTREAM.md has a link to each report."""
    links = re.findall(r"\]\(upstream/([\w-]+)\.md\)", (TOP / "docs/UPSTREAM.md").read_text())
    assert sorted(links) == sorted(it.stem for it in (TOP / "docs/upstream").glob("*.md"))


def functions_of_page() -> dict[str, str]:
    """The functions on docs/RUST.md, by their names."""
    blocks = re.findall(r"```rust\n(.*?)```", (TOP / "docs/RUST.md").read_text(), re.DOTALL)
    return {found[1]: it for it in blocks if (found := re.search(r"\bfn (\w+)", it))}


def test_json_of_page() -> None:
    """A test of the crate has the lines."""
    (found,) = re.findall(r"```rust\n(let .*?from_json.*?)```", (TOP / "docs/RUST.md").read_text(), re.DOTALL)
    test = (RUST / "amqp-values/tests/json.rs").read_text()
    assert all(f"    {it}\n" in test for it in found.splitlines())


@pytest.mark.parametrize("name", functions_of_page())
def test_function_of_page(name: str) -> None:
    """An example has it, or the client."""
    sources = [*(RUST / "amqp-values/examples").glob("*.rs"), RUST / "plain_json/src/main.rs", HERE / "client.rs"]
    assert any(functions_of_page()[name] in it.read_text() for it in sources)
