"""The lines of JavaScript in vectors/README.md, by which a reader keeps numbers beyond 2^53, as node runs them."""

import json
import re
import subprocess
from collections.abc import Iterator
from typing import Any

from tests.vectors.cases import FILES, VECTORS

# Prints the integers that aren't exact in a double, in the order of the text.
PROGRAM = """
const {readFileSync} = require("fs");
const found = [];
const look = (it) => typeof it === "bigint" ? found.push(String(it)) : it && typeof it === "object" && Object.values(it).map(look);
for (const file of process.argv.slice(2)) look(parse(readFileSync(file, "utf8")));
console.log(JSON.stringify(found));
"""


def large(value: Any) -> Iterator[str]:
    """The integers of at least 16 digits in a value."""
    if isinstance(value, (dict, list)):
        for it in value.values() if isinstance(value, dict) else value:
            yield from large(it)
    elif isinstance(value, int) and abs(value) >= 10**15:
        yield str(value)


def test_javascript_keeps_numbers() -> None:
    code = re.search(r"```js\n(.*?)```", (VECTORS / "README.md").read_text(), re.DOTALL)
    assert code
    words = ["node", "-e", code[1] + PROGRAM, "-", *FILES]
    done = subprocess.run(words, capture_output=True, text=True)
    assert (done.returncode, done.stderr) == (0, "")
    wanted = [it for file in FILES for it in large(json.loads(file.read_text()))]
    assert json.loads(done.stdout) == wanted and any(abs(int(it)) > 2**53 for it in wanted)
