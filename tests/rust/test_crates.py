"""The crates amqp-values-sys and amqp-values over the C API: their own tests, lints and examples, and values.rs.

Neither needs another package. The tests of both pass, also by the oldest compiler that they are for, if it is there as Debian has
it, and rustdoc has no warning (`make lint` has clippy). Their examples end as those in C. values.rs: on random inputs amqp-values
reads, measures, finds and writes as the Rust crate does; on samples under valgrind and the address sanitizer.
"""

import re
import subprocess
from pathlib import Path

import pytest
from dependencies import TOP

from tests.oracle.crate import DEBIAN
from tests.rust.cargo import CRATES, OF_DEBIAN, OLDEST, PACKAGES, RUST, TARGET, TRIPLE, Given
from tests.rust.cargo import assert_well, cargo, copied, count_of_tests, last_line, package, run
from tests.transcripts import Case, cases

# Of random inputs, one in so many is tried under valgrind, and under the address sanitizer.
UNDER_VALGRIND, SANITIZED = 25, 5

pytestmark = pytest.mark.needs("cargo")


@pytest.mark.parametrize(
    "tools", (None, pytest.param(OF_DEBIAN, marks=pytest.mark.needs("rustc"))), ids=("rustc", OLDEST)
)
@pytest.mark.parametrize("name", CRATES)
def test_own_tests(copies: Path, name: str, tools: Path | None) -> None:
    assert not tools or f"{OLDEST}." in run([tools / "rustc", "--version"]).stdout
    done = cargo(copies / name, "test", tools=tools)
    assert_well(done)
    sources = [it.read_text() for it in (copies / name).glob("**/*.rs")]
    # (an example in a comment is between two lines of ```)
    examples = sum(len(re.findall(r"(?m)^ *//[/!] ```$", it)) // 2 for it in sources)
    assert count_of_tests(done) >= examples + sum(it.count("#[test]") for it in sources)


@pytest.mark.needs("rustfmt")
def test_layouts(copies: Path) -> None:
    """The declarations have each size and offset as clang has it, which is the same for both processors."""
    targets = [f"{it}-unknown-linux-gnu" for it in ("x86_64", "aarch64")]
    of_x86_64, of_aarch64 = (assert_well(run([RUST / "declarations", "--layout-tests", it])) for it in targets)
    assert of_x86_64 == of_aarch64
    folder = copied(copies / CRATES[0], copies / "layouts")
    declared = folder / "src/bindings.rs"
    # (the tests are added to what the repository has)
    ours = declared.read_text()
    tests = re.findall(r"(?ms)^#\[test\]\n.*?^}\n", of_x86_64)
    assert len(tests) == len(re.findall(r"(?m)^pub struct \w+ \{", ours)) > 5
    declared.write_text(ours + "".join(tests))
    done = cargo(folder, "test", "layout")
    assert_well(done)
    assert count_of_tests(done) == len(tests)


@pytest.mark.parametrize("name", CRATES)
def test_rustdoc(copies: Path, name: str) -> None:
    assert_well(cargo(copies / name, "doc", "--no-deps", RUSTDOCFLAGS="-D warnings"))


# The cases of the examples, which are those of the examples in C that have their names.
EXAMPLES = [
    (source.stem, case)
    for source in sorted((RUST / "amqp-values/examples").glob("*.rs"))
    for case in cases(TOP / f"examples/c/{source.stem}.t").values()
]


@pytest.fixture(scope="session")
def examples(copies: Path) -> Path:
    """The folder that has the examples, as they are built."""
    assert_well(cargo(copies / CRATES[1], "build", "--examples"))
    return TARGET / "debug/examples"


@pytest.mark.parametrize(("example", "case"), EXAMPLES, ids=[f"{example}, {case.name}" for example, case in EXAMPLES])
def test_example(examples: Path, example: str, case: Case) -> None:
    """It ends as that in C, but prints errors elsewhere."""
    done = subprocess.run([examples / example, *case.words], input=case.given, capture_output=True)
    wanted = b"" if case.wants.status else case.wants.out
    assert (done.stdout, done.returncode) == (wanted, case.wants.status), done.stderr


# The table that the example plain_json converts, and what it prints: of each type a value, and an equal key.
PLAIN = b"".join(
    bytes([1]) + it
    for it in (
        b"bb\xff", b"at\1", b"bI\0\0\0\5", b"cf\x3f\xc0\0\0", b"dd\x7f\xf0\0\0\0\0\0\0", b"eD\2\0\0\0\x05",
        b"fS\0\0\0\2a\xff", b"gx\0\0\0\1b", b"hA\0\0\0\6Vu\xff\xffB\xff", b"iT" + b"\xff" * 8, b"jF\0\0\0\0",
    )
)  # fmt: skip
PRINTED = '{"a":true,"b":5,"c":1.5,"d":null,"e":0.05,"f":"a\ufffd","g":"b","h":[null,65535,255],"i":18446744073709551615,"j":{}}\n'


def test_plain_json(copies: Path) -> None:
    """The example over serde_json, as Debian has it."""
    folder = copied(RUST / "plain_json", copies / "plain_json")
    debian = ["source.crates-io.replace-with='debian'", f"source.debian.directory='{DEBIAN}'"]
    config = [word for it in debian for word in ("--config", it)]
    assert_well(cargo(folder, "build", *config))
    table = len(PLAIN).to_bytes(4, "big") + PLAIN
    done = subprocess.run([TARGET / "debug/plain_json"], input=table, capture_output=True)
    assert (done.stdout.decode(), done.returncode) == (PRINTED, 0), done.stderr


# amqp-values and the Rust crate


@pytest.fixture(scope="session")
def values(rust: Given, copies: Path) -> Path:
    """A package with both crates."""
    ours = f'amqp-values = {{ path = "{copies}/amqp-values" }}'
    return package("values", [ours, rust.original, *PACKAGES], values="values")


@pytest.fixture(scope="session")
def program(rust: Given, values: Path) -> Path:
    """values.rs, as it is built."""
    assert_well(rust.cargo(values, "build", "--release", "--quiet", "--bin", "values"))
    return TARGET / "release/values"


@pytest.mark.needs("--crate", "--packages")
class TestValues:
    """On random inputs both answer the same."""

    def test_values(self, program: Path, count: int, seed: int, notes: list[str]) -> None:
        done = run([program, str(count), str(seed)])
        notes.append(f"values: {last_line(done)}")
        assert_well(done)

    @pytest.mark.needs("valgrind")
    def test_under_valgrind(self, program: Path, count: int, seed: int) -> None:
        asked = [str(count // UNDER_VALGRIND), str(seed)]
        assert_well(run(["valgrind", "--quiet", "--error-exitcode=9", program, *asked]))

    def test_sanitized(self, rust: Given, values: Path, count: int, seed: int) -> None:
        """Under the address sanitizer."""
        sanitized = {"RUSTC_BOOTSTRAP": "1", "RUSTFLAGS": "-Zsanitizer=address"}
        words = ["run", "--release", "--quiet", "--bin", "values", "--target", TRIPLE]
        asked = [str(count // SANITIZED), str(seed)]
        assert_well(rust.cargo(values, *words, "--", *asked, seconds=1800, **sanitized))
