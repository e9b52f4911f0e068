"""`make lint` finds what each of its tools is for, and fails."""

from pathlib import Path

import pytest

from tests.checks import assert_well, run
from tests.copies import copy_repository

# Of each tool, a file and what is added to it.
FINDINGS = {
    "mypy": ("packaging/dependencies.py", "\nWRONG: int = str(TOP)\n"),
    "black": ("packaging/programs.py", "\nMORE = ( 1 )\n"),
    "clang-format": ("c/amqp_values_rabbitmq.c", "\nint  more ;\n"),
    "rustfmt, over C": ("bindings/rust/amqp-values-sys/src/lib.rs", "\npub const MORE : u8 = 1;\n"),
    "rustfmt": ("tests/oracle/driver.rs", "\nconst MORE : u8 = 1;\n"),
    "clippy, amqp-values-sys": (
        "bindings/rust/amqp-values-sys/src/bindings.rs",
        "\npub fn more(x: u8) -> u8 {\n    return x;\n}\n",
    ),
    "clippy, amqp-values": (
        "bindings/rust/amqp-values/src/limits.rs",
        "\npub fn more(x: u8) -> u8 {\n    return x;\n}\n",
    ),
    "shellcheck": ("packaging/pack", "\necho $nowhere\n"),
    "codespell": ("README.md", f"\nthe {'sserda'[::-1]}\n"),
    "host": ("SECURITY.md", f"\nfrom deb.{'debian'}.org\n"),
    "conflict": ("LICENSE", f"\n{'<' * 7} HEAD\n"),
}


@pytest.mark.needs("cargo-clippy")
def test_findings(tmp_path: Path) -> None:
    """One of each, at once: clippy looks at amqp-values twice."""
    copy_repository(tmp_path)
    assert_well(run(["git", "init", "-q"], cwd=tmp_path))
    for name, text in FINDINGS.values():
        with (tmp_path / name).open("a") as file:
            file.write(text)
    assert_well(run(["git", "add", "-A"], cwd=tmp_path))
    done = run(["tests/lint"], cwd=tmp_path)
    assert done.returncode == 1
    assert done.stdout.endswith(f"\n0 passed, {len(FINDINGS) + 1} failed\n")
    said = done.stdout + done.stderr
    assert [it for it, (name, _) in FINDINGS.items() if "/".join(name.split("/")[-2:]) not in said] == []
