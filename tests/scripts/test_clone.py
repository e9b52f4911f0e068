"""From a clone, without rt on the path, the C library, the Python package and the Rust crate are built, and an example runs with each."""

from dependencies import TOP

from tests.checks import assert_well, run


def test_clone() -> None:
    """Of what is committed. `make whole` does the same on a machine without the toolchain and the network."""
    assert_well(run([TOP / "tests/clone.py"]))
