"""How much stack nested input takes in each recursive call: the table of docs/PROMISES.md, and `checks` of its numbers.

`checks` has those runs, and `recommended` those of the C API with the header's default limit, on the stack that it
names. The page's table has a column for x86-64, and one for aarch64.

`python3 -m tests.memory.stacks PROGRAM NAME..` prints what a level takes of each call, and the call besides. PROGRAM is
test_calls, or nested.c as it was compiled, also with the words by which qemu runs it.
"""

import re
import resource
import shlex
import struct
import subprocess
import sys
from bisect import bisect
from collections.abc import Callable, Iterator, Mapping
from functools import lru_cache, partial
from pathlib import Path
from typing import NamedTuple

from dependencies import TOP

from tests.checks import within
from tests.model.inputs import nested
from tests.model.json_format import LEVELS

PAGE, HEADING = TOP / "docs/PROMISES.md", "## What nesting takes of the stack"
# How many bytes an input has that no limit lets through, and the limit and the stack that it is read with.
LONG, LIMIT, SMALL = 10_000_000, 64, 256 << 10
HEADER = TOP / "include/amqp_values.h"
# The containers of an input, from the outermost on, again and again.
FORMS = {"arrays in arrays": "A", "tables in tables": "F", "arrays and tables": "AF"}
# The key in each table.
KEY = b"\x01k"


def encoding(form: str, depth: int, innermost: bytes = b"V") -> bytes:
    """An encoding that nests that deep."""
    return nested(form, depth, innermost, KEY)


def payload(form: str, depth: int) -> bytes:
    """What follows the type tag of a table that has a pair, and nests that deep."""
    inner = KEY + encoding(form, depth - 1)
    return struct.pack(">I", len(inner)) + inner


def not_canonical(form: str, depth: int) -> bytes:
    """An encoding whose innermost boolean shows that it isn't canonical."""
    return encoding(form, depth, b"t\x07")


def any_keys(form: str, depth: int) -> bytes:
    """An encoding that nests that deep, whose innermost table has a key that isn't UTF-8."""
    return encoding(form, depth - 1, b"F\0\0\0\3\1\x80V")


def json_text(form: str, depth: int, after: str = "") -> bytes:
    """A text that nests that deep, with this after what is in each object."""
    tags = (form * depth)[:depth]
    opened = "".join("[" if it == "A" else '{"b":' for it in tags)
    closed = "".join("]" if it == "A" else f"{after}}}" for it in reversed(tags))
    return f"{opened}null{closed}".encode()


class Threaded(NamedTuple):
    """nested.c, as it was compiled, which makes a call in a thread with the stack that a word says; and what runs it."""

    path: Path
    by: tuple[str, ...] = ()


Program = Path | Threaded
Make = Callable[[str, int], bytes]


class Call(NamedTuple):
    """The request, what it is made on, and how deep that nests; JSON has its own limit."""

    word: str
    makes: dict[str, Make]
    depths: tuple[int, ...]

    def inputs(self) -> Iterator[tuple[str, Make, str]]:
        """What is said of each of its inputs, what makes that, and the form."""
        for how, make in self.makes.items():
            for said, form in FORMS.items():
                yield f"{said}{how and ', '}{how}", make, form


# The calls of JSON of which docs/JSON.md says how many levels fit a stack.
JSON = ("to_json", "json_of_encoding", "from_json", "encoding_of_json", "encoding_of_json_within")
DEEP, DEEPER, OF_JSON, UNLIMITED = (LIMIT, 1000), (LIMIT, 10_000), (LIMIT, LEVELS), (LIMIT, 1000, 10_000)
# The calls that take more in the program of tests/counts, which compares the page with that.
IN_COUNTS = {"parse_value", "parse_value_within", "ValueReader::next"}
# What a call returns that rejects the nesting.
REJECTED = re.compile(r"kind: Eof|TooDeep|Syntax\(|refused|AMQPV_TOO_DEEP")
# Texts: keys that don't ascend are sorted.
TEXTS: dict[str, Make] = {"": json_text, "keys that don't ascend": partial(json_text, after=',"a":null')}


def flagged(flags: int, make: Make) -> Make:
    """What nested.c is given: the flags, and then what the call is."""
    return lambda form, depth: b"%d" % flags + make(form, depth)


# What the calls of nested.c are given that read; those that find no value search for the first problem.
UNTAGGED, WRONG = {"untagged": flagged(1, payload)}, {"no type tag": flagged(0, partial(encoding, innermost=b"z"))}
READ = {"": flagged(0, encoding), **UNTAGGED, **WRONG}
BY_RULES = {**READ, "keys of any bytes": flagged(2, any_keys), "RabbitMQ's rules": flagged(4, any_keys)}
NOT_CANONICAL = {"": flagged(0, not_canonical), **UNTAGGED, **WRONG}


def calls(*groups: tuple[str, dict[str, Make], tuple[int, ...]]) -> dict[str, Call]:
    """The calls by name; a line has those of one group."""
    return {word: Call(word, makes, depths) for words, makes, depths in groups for word in words.split()}


FOR_C = calls(
    ("amqpv_read amqpv_put_value", BY_RULES, DEEPER),
    ("amqpv_measure", READ, DEEPER),
    ("amqpv_is_canonical", NOT_CANONICAL, DEEPER),
    ("amqpv_canonical", NOT_CANONICAL, DEEP),
    ("amqpv_to_json", READ, DEEP),
    ("amqpv_from_json", {how: flagged(0, it) for how, it in TEXTS.items()}, OF_JSON),
    ("amqpv_warn", {"": flagged(0, encoding), **UNTAGGED}, DEEPER),
)
# The call that warns of what nests deeper than its limit, and is done.
WARNS = "warnings"
# The calls that test_calls makes: without a limit, within one, and on JSON.
CALLS = calls(
    ("parse_value read_in_place_unlimited skip_value gen_value clone == to_json", {"": encoding}, UNLIMITED),
    ("parse_value_within SplitInput ValueReader::next read_in_place to_owned json_of_encoding", {"": encoding}, DEEPER),
    ("is_canonical canonical_len measure_value warnings", {"": encoding}, DEEPER),
    ("from_json encoding_of_json encoding_of_json_within", TEXTS, OF_JSON),
)


def table(column: int = 0) -> tuple[dict[str, int], int]:
    """What a level takes of each call by the page, on x86-64 or of those for C on aarch64, and what a call takes besides."""
    section = PAGE.read_text().partition(HEADING)[2].partition("\n## ")[0]
    rows = re.findall(r"(?m)^\|(.*)\|([\d,]+)\|([\d,]*)\|$", section)
    figures = {
        name: int(of[column].replace(",", ""))
        for cell, *of in rows
        for name in re.findall(r"`([^`]+)`", cell)
        if column == 0 or name in FOR_C
    }
    besides, wrong = re.search(r"(\d+) KiB besides", section), set(figures) - set(CALLS) - set(FOR_C)
    if not besides or wrong:
        sys.exit(f"{PAGE.name}, {HEADING[3:]}: it names {wrong}, which nothing makes, or lacks what calls take besides")
    return figures, int(besides[1]) << 10


def levels_of_json() -> tuple[int, int]:
    """How many levels fit a stack by docs/JSON.md, and of how many bytes."""
    (said,) = re.findall(r"(\d+) levels fit a stack of (\d+) KiB", (TOP / "docs/JSON.md").read_text())
    return int(said[0]), int(said[1]) << 10


def answer(program: Program, call: Call, depth: int, given: bytes, stack: int) -> str:
    """What a call returns on a stack of n bytes, or how the program ended."""
    if isinstance(program, Threaded):
        words = [*program.by, str(program.path), call.word, str(depth), str(stack)]
        done = subprocess.run(words, input=given, capture_output=True, timeout=60)
    else:
        row = f"nest {call.word} {depth} {given.hex()}\n"
        done = within(resource.RLIMIT_STACK, stack, [program], row.encode())
    text = done.stdout.decode().splitlines()[:1]
    return f"status {done.returncode}" if done.returncode else "".join(text).rpartition(" => ")[2]


@lru_cache(maxsize=32)
def long_input(make: Make, form: str) -> bytes:
    a_level = (len(make(form, 200)) - len(make(form, 100))) / 100
    return make(form, int(LONG / a_level) + 1)


class Check(NamedTuple):
    """A check: its name, and what is returned of a program instead of what should be, or nothing."""

    name: str
    wrong: Callable[[Program], str]


def checks(made: Mapping[str, Call], column: int = 0) -> Iterator[Check]:
    """Yields the checks of these calls.

    A call that isn't in the page's table doesn't recurse: it is done on what no limit lets through, on the small stack.
    """
    figures, besides = table(column)
    for name, call in made.items():
        figure = figures.get(name, 0)
        for said, make, form in call.inputs():
            for depth in call.depths if figure else ():
                stack = besides + depth * figure
                yield Check(f"{name}, {depth} {said}", partial(not_done, call, depth, make, form, stack))
            if name in JSON:
                levels, small = levels_of_json()
                of_page = partial(not_done, call, levels, make, form, small)
                yield Check(f"{name}, {levels} {said} on {small} bytes of stack", of_page)
            if not figure or call.depths != UNLIMITED:
                of_long = partial(wrong_of_long, call, make, form, SMALL, figure > 0 and name != WARNS)
                yield Check(f"{name}, {LONG} bytes of {said}", of_long)
        if figure and name not in IN_COUNTS:
            stack = besides + call.depths[-1] * figure // 2
            yield Check(f"{name}, half of the stack", partial(enough, call, stack))


def not_done(call: Call, depth: int, make: Make, form: str, stack: int, program: Program) -> str:
    """What a call returns, if it isn't done."""
    got = answer(program, call, depth, make(form, depth), stack)
    return "" if got == "done" else got or "nothing"


def wrong_of_long(call: Call, make: Make, form: str, stack: int, is_limited: bool, program: Program) -> str:
    """What a call returns of what no limit lets through, if it doesn't reject it, or isn't done without a limit."""
    got = answer(program, call, LIMIT, long_input(make, form), stack)
    is_well = REJECTED.search(got) if is_limited else got == "done"
    return "" if is_well else got or "nothing"


def whatever(wrong: str, _: Program) -> str:
    """What is wrong whatever a program returns."""
    return wrong


def enough(call: Call, stack: int, program: Program) -> str:
    """Whether a stack is enough for what nests deepest, in each form."""
    deepest = call.depths[-1]
    answers = [answer(program, call, deepest, make(form, deepest), stack) for _, make, form in call.inputs()]
    return "" if "status -11" in answers else "it is enough"


class InHeader(NamedTuple):
    """The header's limit on depth, and its figures of the stack: besides, also of some calls, for each level, and in all."""

    depth: int
    besides: int
    of_some: dict[str, int]
    figures: dict[str, int]
    thread: int


def in_header(column: int) -> InHeader:
    text = HEADER.read_text()
    (depth,) = re.findall(r"AMQPV_MAX_DEPTH = (\d+)", text)
    ((besides, some, others),) = re.findall(r"Stack use: (\d+) KiB, in (\w+) (\d+) KiB,", text)
    rows = re.findall(r"(?m)^ \*     (amqpv_[\w, ]*\w) +(\d+) +(\d+)$", text.partition("Stack use:")[2])
    figures = {name: int(of[column]) for names, *of in rows for name in names.split(", ")}
    (most,) = re.findall(r"(\d+) KiB is enough with the default limits", text)
    return InHeader(int(depth), int(besides) << 10, {some: int(others) << 10}, figures, int(most) << 10)


def recommended(column: int = 0) -> Iterator[Check]:
    """Yields the checks of the C API with the header's limit.

    Each is done on the stack that the header's figures make, which is at most what it names for this limit. What nests
    deeper is rejected on the latter.
    """
    limit, besides, of_some, figures, thread = in_header(column)
    of_page = {name: figure for name, figure in table(column)[0].items() if name in FOR_C}
    other = "" if figures == of_page else f"those of {PAGE.name} are {of_page}"
    yield Check("the header's figures", partial(whatever, other))
    for name, call in FOR_C.items():
        stack = of_some.get(name, besides) + limit * figures.get(name, thread)
        over = f"by the header it takes {stack} bytes of stack" if stack > thread else ""
        yield Check(f"{name}, {limit} deep", partial(whatever, over))
        for said, make, form in call.inputs():
            for size in (stack, thread):
                of_limit = partial(not_done, call, limit, make, form, size)
                yield Check(f"{name}, {limit} {said} on {size} bytes of stack", of_limit)
            of_long = partial(wrong_of_long, call, make, form, thread, True)
            yield Check(f"{name}, {LONG} bytes of {said} on {thread} bytes of stack", of_long)


def least(program: Program, call: Call, depth: int) -> int:
    """The least stack, of those that the kernel tells apart, on which a call is done, whatever the form."""

    def is_done(pages: int) -> bool:
        return all(
            answer(program, call, depth, make(form, depth), pages << 12) == "done" for _, make, form in call.inputs()
        )

    return bisect(range(1 << 11), False, key=is_done) << 12


def main() -> None:
    program, *names = sys.argv[1:]
    *by, path = shlex.split(program)
    for name in names:
        call = {**CALLS, **FOR_C}[name]
        deepest = call.depths[-1]
        made: Program = Threaded(Path(path), (*by,)) if name in FOR_C else Path(path)
        few, many = least(made, call, deepest // 2), least(made, call, deepest)
        a_level = (many - few) / (deepest - deepest // 2)
        print(f"{name}: {a_level:.0f} bytes a level, {many - a_level * deepest:.0f} besides", flush=True)


if __name__ == "__main__":
    main()
