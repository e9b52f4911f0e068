"""`wanted`: what the page has to read of inputs, by what amqp_show prints of them; the tests in tests/web use it."""

import re
import subprocess
from collections.abc import Iterator, Sequence
from pathlib import Path
from tempfile import TemporaryDirectory
from typing import Any

from tests.model.encoding import extent
from tests.model.tables import VERSIONS

# What the page calls the versions that tests/rabbitmq tries, and amqp_show the newest of them.
RABBITMQ, NEWEST = f"RabbitMQ {' and '.join(VERSIONS)}", "rabbitmq-4.0"
# The keys and indices that lead to what is wrong.
PATH = re.compile(r', in ["[].*')
# A line of --bytes: the offset of a part, its first bytes, and what it is.
PART = re.compile(r" *(\d+)  [0-9a-f.]* +(.*)")
# What a part is, by how its line begins or ends; and what --canonical says after it.
KINDS = {
    "tag": re.compile("type tag "),
    "length": re.compile("(key )?length "),
    "key": re.compile("key "),
    "rest": re.compile(r".*\((not decoded|\d+ of \d+ bytes)\)$"),
    "payload": re.compile(""),
}
NOTE = re.compile(r" \((the key comes .*|the .* isn't canonical, .*)\)$")
# A line of --json of several files: the JSON of one.
NAMED = re.compile(r'\{"file":"input-\d+","value":(.*)\}', re.DOTALL)
# The options of amqp_show, for which the page has words.
OPTIONS = (
    (re.compile(r"--depth (\d+) allows$"), r"the limit of \1 levels"),
    (re.compile(r"--max-bytes (\d+) allows$"), r"the limit of \1"),
)


def output(program: Path, words: Sequence[str], given: Sequence[bytes]) -> list[str]:
    """The lines that amqp_show prints of files with these inputs."""
    with TemporaryDirectory() as folder:
        names = [f"input-{at}" for at in range(len(given))]
        for name, data in zip(names, given):
            (Path(folder) / name).write_bytes(data)
        command = [str(program), *words, *names]
        done = subprocess.run(command, cwd=folder, stdin=subprocess.DEVNULL, capture_output=True, check=False)
    # (there are other line ends in strings)
    return done.stdout.decode().split("\n")[:-1]


def lines_of_each(program: Path, words: Sequence[str], given: Sequence[bytes]) -> list[list[str]]:
    """The lines of each input: none if it seems to be something else."""
    found: dict[str, list[str]] = {f"input-{at}:": [] for at in range(len(given))}
    lines: list[str] = []
    for line in output(program, words, given):
        if line in found:
            lines = found[line]
        else:
            lines.append(line)
    return [*found.values()]


def tree_of(lines: Sequence[str]) -> list[str]:
    """The lines of a tree, without those that say what came of it."""
    return [it for it in lines if it[0] not in "*!="]


def parts_of(lines: Sequence[str], data: bytes, shift: int) -> str:
    """The first letter of the part that each byte is of, or of `after`, which is of none. Before the bytes so many are put."""
    parts = [(int(found[1]), found[2]) for line in lines if (found := PART.fullmatch(line))]
    whole, letters = (b"F" + len(data).to_bytes(4, "big"))[:shift] + data, ["a"] * len(data)
    end = min(max(1, extent(whole)), len(whole)) - shift
    for (at, what), (stop, _) in zip(parts, [*parts[1:], (end, "")]):
        kind = next(kind for kind, words in KINDS.items() if words.match(what))
        letters[at:stop] = kind[0] * (stop - at)
    return "".join(letters)


def in_words(failure: str) -> str:
    """A failure without options."""
    for option, words in OPTIONS:
        failure = option.sub(words, failure)
    return failure


def rabbitmq(lines: Sequence[str]) -> str:
    """What the page says of RabbitMQ. It shows no warnings, and no keys, but leads to the byte."""
    *failure, last = [it for it in lines if it[0] != "*"]
    if "closes" in last:
        return f"{RABBITMQ} close the connection: {PATH.sub('', failure[0][2:])}"
    return f"{RABBITMQ} accept it" if "accepts" in last else "not checked for RabbitMQ beyond the limits"


def wanted(program: Path, given: Sequence[bytes], is_table: bool = False) -> Iterator[dict[str, Any]]:
    """Yields what the page has to read of each input: nothing if it seems to be something else, since amqp_show says only that."""
    words = ["--table"] * is_table
    trees, parts, checks = (
        lines_of_each(program, [*words, *it], given)
        for it in (["--tree"], ["--bytes", "--canonical"], ["--check", NEWEST])
    )
    read = [data for data, lines in zip(given, trees) if lines and lines[-1].startswith(("= a value", "= a table"))]
    texts = (NAMED.sub(r"\1", it) for it in output(program, [*words, "--json"], read))
    for data, tree, of_bytes, check in zip(given, trees, parts, checks, strict=True):
        said = {it[0]: it for it in tree if it[0] in "*!="}
        notes = [found[1] for it in of_bytes if (found := NOTE.search(it))]
        text = next(texts) if said and "!" not in said else None
        is_body, is_bare = "body" in said.get("=", ""), tree[:1] == ["FieldTable"] and data[:1] != b"F"
        yield {} if not said else {
            "tree": tree_of(tree),
            "parts": "" if len(data) > 5000 else parts_of(of_bytes, data, 5 if is_body else int(is_bare)),
            "repeated": said.get("*", ""),
            "failure": in_words(said.get("!", "")),
            "outcome": said["="],
            "rabbitmq": "" if "truncated" in said["="] else rabbitmq(check),
            "canonical": None if text is None else not notes,
            "json": text,
        }
