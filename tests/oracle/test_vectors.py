"""The Rust crate on each case of vectors/, and its scores (--write writes them)."""

import pytest
from dependencies import TOP

from tests.oracle.crate import build
from tests.rabbitmq.broker import PYTHON
from tests.vectors.scores import assert_scores, run

pytestmark = pytest.mark.needs("codecs")


def test_vectors(request: pytest.FixtureRequest, is_writing: bool) -> None:
    option = request.config.getoption
    source = TOP / "vectors/adapters/rust.rs"
    program, nom = build(option("--crate"), option("--packages"), source, "vectors")
    found = run("adapters.rust", [PYTHON], {"PATH": "/usr/bin:/bin", "RUST_ADAPTER": str(program)})
    assert_scores("amq-protocol-types 10.6.3", f"rustc, nom {nom.partition('.')[0]}", found, is_writing)
