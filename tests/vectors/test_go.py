"""The scores of Go's client, where Debian's package of it is installed: tests/run vectors -k go --write"""

import os
import re
import subprocess
from pathlib import Path

import pytest

from tests.rabbitmq.broker import PYTHON
from tests.vectors.cases import GO, OF_GO, VECTORS
from tests.vectors.scores import assert_scores, run

pytestmark = pytest.mark.needs("codecs")


def test_go(tmp_path: Path, is_writing: bool) -> None:
    program, own = tmp_path / "program", {"GO111MODULE": "off", "GOPATH": f"{GO}", "GOCACHE": f"{tmp_path / 'cache'}"}
    own["CGO_ENABLED"] = "0"
    words = ["go", "build", "-o", str(program), str(VECTORS / "adapters/go.go")]
    subprocess.run(words, env={**os.environ, **own}, check=True, timeout=600)
    version = re.search(r'buildVersion += "(.*)"', (OF_GO / "connection.go").read_text())
    assert version
    go = subprocess.run(["go", "env", "GOVERSION"], capture_output=True, text=True, check=True).stdout
    toolchain = "Go " + ".".join(re.findall(r"\d+", go)[:2]) + " without cgo"
    found = run("adapters.go", [PYTHON], {"PATH": "/usr/bin:/bin", "GO_ADAPTER": f"{program}"})
    assert_scores(f"amqp091-go {version[1]}", toolchain, found, is_writing)
