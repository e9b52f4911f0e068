"""Tries mutants of a small codec (mutants/codec.py) over vectors/: each has to fail a case in one of the profiles.

`readers` and `writers` have the rule that a mutant breaks, and the edit. Those of each type tag and each length are made here.
The codec itself fails no case. If a mutant fails none, a case is missing. What no profile decides is in `unscored`.
"""

import json
import re
from collections.abc import Callable, Iterable, Iterator
from pathlib import Path
from types import ModuleType
from typing import Any, NamedTuple

import pytest
import writing
from comparing import flat, in_a_table, meant
from run import LONGEST, PROFILES

from tests.vectors.cases import CASES, EVERY, Case

pytestmark = pytest.mark.usefixtures("deep")
HERE = Path(__file__).parent / "mutants"
CODEC = (HERE / "codec.py").read_text()
CHANGE = re.compile("«(.*?)→(.*?)»", re.DOTALL)
# What is in the codec once, and what a length is of, by its type tag.
COUNT = 'count = int.from_bytes(self.field(4, end), "big")'
LENGTHS = {"S": "a string", "x": "a byte array", "A": "an array", "F": "a table", "": "a table without its tag"}
UNKNOWN = 'raise Wrong("unknown tag", at)\n\n    def array'
FORMS = "bBhHiIqQ"
# Where a profile may differ from the case's result, missing bytes and offsets may too.
DIFFERING = {"tag-x", "tag-s", "tag-u-upper", "key-bytes", "repeated-key"}


class Mutant(NamedTuple):
    """A rule, and words of the codec that are replaced by others. Cases that have these bytes are tried first."""

    rule: str
    old: str
    new: str
    likely: bytes = b""


class Check(NamedTuple):
    """What a codec of a profile is given, whether its answer is right, and the id of the case."""

    id: str
    profile: str
    data: bytes
    is_right: Callable[[Any], bool]


def of_tags() -> Iterator[Mutant]:
    """Of each type tag that it is one, and of a number the width, the sign and the order of bytes; and that no other byte is one."""
    for tag, form in re.findall(r'"(\w)": ">(\w)"', CODEC):
        entry, likely = f'"{tag}": ">{form}"', tag.encode()
        others = {"f": "dI", "d": "fQ"}.get(form) or "".join(
            FORMS[at] for at in (FORMS.index(form) - 2, FORMS.index(form) + 2, FORMS.index(form) ^ 1) if 0 <= at < 8
        )
        for other in others:
            yield Mutant(f"{tag} isn't read as {other}", entry, f'"{tag}": ">{other}"', likely)
        if form not in "bB":
            yield Mutant(f"{tag} is big-endian", entry, f'"{tag}": "<{form}"', likely)
        yield Mutant(f"{tag} is a type tag", entry, f'"no tag {tag}": ">{form}"', likely)
    for tag in "VtDAF":
        yield Mutant(f"{tag} is a type tag", f'case "{tag}":', f'case "no tag {tag}":', tag.encode())
    for tag, other in (("S", "x"), ("x", "S")):
        yield Mutant(f"{tag} is a type tag", 'case "S" | "x":', f'case "{other}":', tag.encode())
    for number in {*range(256)} - {*b"tbBsUuIilLfdDSxAFTV"}:
        new = UNKNOWN.replace("raise", f"if tag != chr({number}):\n            raise")
        yield Mutant(f"no type tag is {number:02x}", UNKNOWN, new, bytes([number]))


def of_lengths() -> Iterator[Mutant]:
    """Of each length that it has 32 bits, no sign and its order of bytes, and counts what is there, no more and no less."""
    changes = {f"has more than {bits} bits": f"count & {2 ** bits - 1:#x}" for bits in (31, 24, 16, 8)} | {
        "counts no byte more": "max(0, count - 1)",
        "counts no byte less": "count + 1",
        "doesn't count itself": "count - 4",
        "is unsigned": "0 if count >= 2**31 else count",
        "is big-endian": 'int.from_bytes(count.to_bytes(4, "big"), "little")',
        "isn't shortened to what is there": "min(count, end - self.at)",
        "is within its container": "count if self.at + count > len(self.data) else min(count, end - self.at)",
    }
    for tag, name in LENGTHS.items():
        for rule, change in (
            (rule, it) for rule, it in changes.items() if "container" not in rule or tag in ("S", "A", "F")
        ):
            new = f"{COUNT}\n        count = {change} if tag == {tag!r} else count"
            yield Mutant(f"the length of {name} {rule}", COUNT, new)


def of_file(name: str) -> Iterator[Mutant]:
    for line in (HERE / name).read_text().splitlines():
        if line and line[0] != "#":
            rule, _, change = line.replace("\\n", "\n").partition(": ")
            yield Mutant(rule, CHANGE.sub(r"\1", change), CHANGE.sub(lambda it: it[2], change))


READERS, UNSCORED = [*of_tags(), *of_lengths(), *of_file("readers")], [*of_file("unscored")]
WRITERS = [*of_file("writers")]


def codec_of(profile: str, it: Mutant | None = None) -> Any:
    """The codec by a profile, with an edit."""
    assert it is None or CODEC.count(it.old) == 1, f"codec.py has {CODEC.count(it.old)} times: {it.old}"
    module = ModuleType("codec")
    exec(compile(CODEC.replace(it.old, it.new) if it else CODEC, "codec.py", "exec"), vars(module))
    vars(module)["PROFILE"] = profile
    return module


def expected(it: Case, profile: str) -> Any:
    """What a profile has for a case: `accept`, `reject`, `undecided`, or a result of its own."""
    return it.case["expected"][profile]


def answer(function: Callable[..., Any], *given: object) -> Any:
    """What a codec returns, in the form in which values are compared, or nothing if it raises an exception."""
    try:
        return flat(function(*given))
    except Exception:
        return None


def readings() -> Iterator[tuple[int, Check]]:
    """The checks of a reader, with how much they take: of each case the value, what `read` reports, and its cuts."""
    for it in CASES:
        given = in_a_table(it.encoding, it.is_table)
        for profile in PROFILES:
            said = expected(it, profile)
            if said == "undecided":
                continue
            value = None if said == "reject" else meant(it.result if said == "accept" else said)
            wanted = None if said == "reject" else flat(value if it.is_table else {b"k": value})

            def is_read(codec: Any, given: bytes = given, wanted: Any = wanted) -> bool:
                return bool(answer(codec.decode, given) == wanted)

            def is_reported(codec: Any, it: Case = it) -> bool:
                try:
                    found = codec.read(it.data, it.is_table)
                except Exception:
                    return False
                return all(found.get(key) == it.result.get(key) for key in ("rest", "missing", "error", "offset"))

            def is_cut(codec: Any, it: Case = it) -> bool:
                cuts = (in_a_table(it.encoding[:at], it.is_table) for at in range(len(it.encoding)))
                return all(answer(codec.decode, each) is None for each in cuts)

            yield len(given), Check(it.id, profile, it.data, is_read)
            if (said == "reject") != ("rest" in it.result) and not {*it.case["flags"]} & DIFFERING:
                yield 2**20 + len(given), Check(f"{it.id} as it is", profile, it.data, is_reported)
            if wanted is not None and 0 < len(given) <= LONGEST:
                yield 2**30 + len(given), Check(f"{it.id} cut", profile, it.data, is_cut)


def writings() -> Iterator[tuple[int, Check]]:
    """The checks of a writer."""
    for case in (it for it in writing.cases() if "large" not in it["flags"]):
        size = len(json.dumps(case)) + sum(len(it) * times for it, times in case.get("text", []))
        for at, profile in enumerate(PROFILES):

            def is_written(codec: Any, case: Any = case, at: int = at) -> bool:
                return writing.outcome(codec, case)[at] != "wrong"

            if case["expected"][profile] != "undecided":
                yield size, Check(case["id"], profile, b"", is_written)


def in_order(checks: Iterable[tuple[int, Check]]) -> list[Check]:
    return [it for _, it in sorted(checks, key=lambda pair: pair[0])]


def first_failed(it: Mutant | None, checks: list[Check]) -> str:
    """The first check that fails, which then comes first; nothing if none does."""
    codecs = {profile: codec_of(profile, it) for profile in PROFILES}
    likely = [at for at, check in enumerate(checks) if it and it.likely and it.likely in check.data]
    for at in (*likely, *range(len(checks))):
        if not checks[at].is_right(codecs[checks[at].profile]):
            checks.insert(0, checks.pop(at))
            return checks[0].id
    return ""


@pytest.fixture(scope="module")
def reading() -> list[Check]:
    return in_order(readings())


def test_each_mutant_breaks_another_rule() -> None:
    for mutants in (READERS, UNSCORED, WRITERS):
        assert len({it.rule for it in mutants}) == len(mutants)


def test_codec_fails_no_case(reading: list[Check]) -> None:
    assert first_failed(None, reading) == ""


@pytest.mark.parametrize("it", READERS, ids=[it.rule for it in READERS])
def test_reader_fails_a_case(it: Mutant, reading: list[Check]) -> None:
    assert first_failed(it, reading), f"no case fails a reader for which this doesn't hold: {it.rule}"


@pytest.mark.parametrize("it", UNSCORED, ids=[it.rule for it in UNSCORED])
def test_unscored_reader_reads_a_case_otherwise(it: Mutant, reading: list[Check]) -> None:
    """What no profile decides is left to codecs, but the cases show it."""
    undecided = [case for case in EVERY if expected(case, "rabbitmq") == "undecided"]
    mutant, codec = codec_of("rabbitmq", it), codec_of("rabbitmq")
    given = (in_a_table(case.encoding, case.is_table) for case in undecided)
    assert any(answer(mutant.decode, data) != answer(codec.decode, data) for data in given)
    assert first_failed(it, reading) == ""


@pytest.fixture(scope="module")
def written() -> list[Check]:
    return in_order(writings())


def test_writer_fails_no_case(written: list[Check]) -> None:
    assert first_failed(None, written) == ""


@pytest.mark.parametrize("it", WRITERS, ids=[it.rule for it in WRITERS])
def test_writer_fails_a_case(it: Mutant, written: list[Check]) -> None:
    assert first_failed(it, written), f"no case fails a writer for which this doesn't hold: {it.rule}"
