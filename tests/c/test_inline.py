"""The inline functions of the header, which inline.c calls under the sanitizers, against the model (tests/model)."""

from pathlib import Path
from random import Random

import pytest

from tests.c import c_api
from tests.c.compiling import HERE, SANITIZERS, Words, compiled, printed
from tests.c.test_by_model import KEYS, NUMBERS, VALUES, encoding, is_inside, looked_up, stepped, wanted_problem
from tests.c.c_api import INVALID, MAX_BYTES, MAX_DEPTH, OK
from tests.json_reasons import TEXTS
from tests.model.encoding import TYPES, extent, field, is_utf8, lack
from tests.model.inputs import value_of
from tests.model.tables import odd_table

ADDED = {
    "bool": "t", "timestamp": "T", "void": "V", "float": "f", "double": "d", "string": "S", "bytes": "x", "array": "A",
    "table": "F", "decimal": "D",
}  # fmt: skip
WORDS = (
    "done", "none", "more bytes are needed", "unknown type tag", "a value is missing or truncated", "a key is truncated",
    "a key is not UTF-8", "a float is infinite or NaN", "nested too deep", "too large", "not UTF-8", "not JSON",
    "not the JSON of a value", "the value has no encoding", "invalid argument", "invalid key", "wrong type",
    "number out of range", "buffer too small", "out of memory",
)  # fmt: skip
Program = Path


@pytest.fixture(scope="module")
def inline(linked: Words, folder: Path) -> Program:
    return compiled(HERE / "inline.c", folder / "inline", linked, options=SANITIZERS)


def lines_of(program: Program, lines: list[str]) -> list[str]:
    return printed([program], input="".join(f"{it}\n" for it in lines)).splitlines()


def word(data: bytes | None) -> str:
    return "-" if data is None else f".{data.hex()}"


class Writer:
    """A writer as the model has it: without room it goes on counting, as if there were room."""

    def __init__(self, capacity: int, any_keys: int) -> None:
        self.capacity, self.any_keys, self.bytes, self.open = capacity, any_keys, bytearray(4), [("F", 4)]
        self.result, self.adds = OK, 0

    def append(self, key: bytes | None, it: bytes, wrong: int = OK) -> bool:
        """Appends an entry, unless something is wrong or was; whether it does."""
        name, in_table = key or b"", self.open[-1][0] == "F"
        self.adds += self.result == OK
        named = bytes([len(name) % 256]) + name if in_table else b""
        is_key = len(name) < 256 and (self.any_keys or is_utf8(name)) if in_table else not name
        if self.result == OK and in_table and key is None:
            self.result = c_api.BAD_KEY
        if self.result == OK and (wrong or not is_key):
            self.result = wrong if is_key or wrong == INVALID else c_api.BAD_KEY
        self.bytes += named + it if self.result == OK else b""
        return self.result == OK

    def copy(self, data: bytes, flags: int, key: tuple[int, int], value: tuple[int, int], is_untagged: bool) -> None:
        """Adds an entry of the bytes with the key and the value at these places."""
        if self.result != OK:
            return
        if not is_inside(key, len(data)) or not is_inside(value, len(data)):
            self.result, self.adds = INVALID, self.adds + 1
        elif (key[0] > 0) != (self.open[-1][0] == "F"):
            self.result, self.adds = c_api.BAD_KEY, self.adds + 1
        else:
            it, before = data[value[0] : sum(value)], self.any_keys
            by_reading = wanted_problem(it, flags & ~1 | is_untagged, MAX_BYTES, MAX_DEPTH)[0]
            whole = b"F" * is_untagged + it
            self.any_keys |= flags & 6
            self.append(data[key[0] : sum(key)], whole[: extent(whole)], INVALID if flags > 31 else by_reading)
            self.any_keys = before

    def begin(self, key: bytes | None, tag: str) -> None:
        if self.result == OK and len(self.open) == MAX_DEPTH:
            self.result, self.adds = c_api.TOO_DEEP, self.adds + 1
        if self.append(key, tag.encode() + b"\0" * 4):
            self.open.append((tag, len(self.bytes)))

    def end(self) -> None:
        if self.result == OK and len(self.open) == 1:
            self.result = INVALID
        if self.result == OK:
            self.close(self.open.pop()[1])

    def close(self, at: int) -> None:
        self.bytes[at - 4 : at] = (len(self.bytes) - at).to_bytes(4, "big")

    def finish(self) -> str:
        if self.result == OK and len(self.open) > 1:
            self.result = INVALID
        if self.result != OK:
            return f"{self.result} 0 0 {self.adds} "
        if len(self.bytes) > self.capacity:
            return f"{c_api.NO_ROOM} {len(self.bytes)} {len(self.bytes)} {self.adds} "
        self.close(4)
        return f"0 {len(self.bytes)} 0 {self.adds} {self.bytes.hex()}"


# Offsets and lengths that are in no bytes, or in few.
PLACES = [0, 1, 2, 7, 8, 9, 2**32, 2**63 - 1, 2**63, 2**64 - 8, 2**64 - 1]
READING = [0, 0, 1, 2, 4, 16, 32]


def some_entry(make: Random, writer: Writer) -> str:
    """A call by which a writer adds an entry of a container, or that container, or any bytes at wrong places."""
    data = make.choice([odd_table(make), value_of(make, 2), b"F\0\0\0\x0b\2\0\xffV\0t\1\2a\0V"])
    flags, step = make.choice(READING), 5
    key, value = (0, 0), (0, len(data))
    if chr(data[0]) in "AF" and make.random() < 0.9:
        result, found, left = stepped(data, (5, len(data) - 5), data[0])
        while result == OK:
            key, value = found[:2]
            result, found, left = stepped(data, left, data[0]) if make.random() < 0.5 else (c_api.NONE, None, left)
    elif data[:1] == b"F" and make.random() < 0.5:
        data, value, step = data[1:], (0, len(data) - 1), 4
    if make.random() < 0.1:
        changed = [*key, *value]
        changed[make.randrange(4)] = make.choice(PLACES)
        key, value = (changed[0], changed[1]), (changed[2], changed[3])
    tag = ord("F") if step == 4 or is_inside(value, len(data)) and data[value[0] : value[0] + 1] == b"F" else ord("V")
    writer.copy(data, flags, key, value, step == 4)
    return " ".join(map(str, ("entry", word(data), flags, *key, *value, tag, step)))


def some_line(make: Random, writer: Writer) -> str:
    """A call of a writer at random, which the model makes too."""
    in_array = writer.open[-1][0] == "A"
    key = None if make.random() < (0.9 if in_array else 0.02) else make.choice(KEYS)
    what = make.choice(["int", "int", "uint", "value", "entry", "entry", "end", *ADDED])
    if what == "entry":
        return some_entry(make, writer)
    if what == "end":
        writer.end()
        return what
    line, bits = f"{what} {word(key)}", make.choice(NUMBERS)
    if what in ("int", "uint"):
        tag = make.choice("bsIlbsIlB" if what == "int" else "BuiBuil")
        is_type, it = tag in ("bsIl" if what == "int" else "Bui"), encoding(tag, bits, 0)
        writer.append(key, it or b"", c_api.BAD_TAG if not is_type else OK if it else c_api.OUT_OF_RANGE)
        return f"{line} {ord(tag)} {bits}"
    if what in ("array", "table"):
        writer.begin(key, ADDED[what])
        return line
    if what in ("string", "bytes"):
        data = make.choice([None, b"", b"\0\xff", make.randbytes(9)])
        writer.append(key, field(ADDED[what].encode(), data or b""))
        return f"{line} {word(data)}"
    if what == "value":
        data, flags = make.choice(VALUES), make.choice(READING)
        by_reading = wanted_problem(data, flags, MAX_BYTES, MAX_DEPTH)[0]
        whole, wrong = b"F" * (flags & 1) + data, INVALID if flags > 31 else by_reading
        writer.append(key, whole[: extent(whole)], wrong)
        return f"{line} {word(data)} {flags}"
    scale = make.randrange(256) * (what == "decimal")
    kept = {"bool": int(bits % 2**32 != 0), "void": 0, "float": bits % 2**32, "decimal": bits % 2**32}.get(
        what, bits
    )
    writer.append(key, encoding(ADDED[what], kept, scale) or b"")
    return f"{line} {bits % 2**32 if what in ('bool', 'float', 'decimal') else bits} {scale}"


def test_writer(inline: Program, seed: int) -> None:
    """Calls in any order, in buffers of any size."""
    make, lines, wanted, results = Random(seed), list[str](), list[str](), set[int]()
    for _ in range(20_000):
        capacity, any_keys = make.choice([0, 3, 4, 5, make.randrange(100), 400, 400]), make.choice([0, 0, 1])
        writer = Writer(capacity, any_keys)
        lines.append(f"begin {capacity} {any_keys}")
        lines += [some_line(make, writer) for _ in range(make.randrange(9))]
        for _ in writer.open[1 + (make.random() < 0.1) :]:
            lines.append("end")
            writer.end()
        wanted.append(writer.finish())
        lines.append("finish")
        results.add(int(wanted[-1].split()[0]))
        if writer.result == OK and make.random() < 0.2:
            lines += [some_line(make, writer), "finish"]
            wanted.append(writer.finish())
    assert lines_of(inline, lines) == wanted
    assert {OK, INVALID, c_api.BAD_KEY, c_api.BAD_TAG, c_api.OUT_OF_RANGE, c_api.NO_ROOM, c_api.KEY_NOT_UTF8} <= results


def test_levels_of_writer(inline: Program) -> None:
    for levels, result in ((MAX_DEPTH - 1, OK), (MAX_DEPTH, c_api.TOO_DEEP)):
        lines = ["begin 400 0", *["table .6b"] * levels, *["end"] * levels, "finish"]
        assert lines_of(inline, lines)[0].split()[0] == str(result)


def converted(tag: str, bits: int, scale: int) -> str:
    """What is printed of an entry's conversions."""
    is_small, narrow = bits < 2**32, OK
    truth = (OK, bits) if tag == "t" and bits < 2 else (c_api.OUT_OF_RANGE if tag == "t" else c_api.BAD_TAG, 77)
    seconds = (OK, bits) if tag == "T" else (c_api.BAD_TAG, 77)
    result = (OK if is_small else c_api.OUT_OF_RANGE) if tag == "D" else c_api.BAD_TAG
    decimal = (result, bits, scale) if result == OK else (result, 77, 77)
    narrow = OK if tag == "d" or tag == "f" and is_small else c_api.OUT_OF_RANGE if tag == "f" else c_api.BAD_TAG
    return " ".join(map(str, (*truth, *seconds, *decimal, narrow)))


def test_conversions(inline: Program) -> None:
    asked = [(chr(tag), bits, tag % 5 * 60) for tag in range(256) for bits in NUMBERS]
    found = lines_of(inline, [f"convert {ord(tag)} {bits} {scale}" for tag, bits, scale in asked])
    assert [it.rpartition(" ")[0] for it in found] == [converted(*it) for it in asked]
    # (what a Float is as a Double is stated here)
    doubles = {
        ("f", 0x3FC00000): 0x3FF8000000000000,
        ("f", 0x80000000): 2**63,
        ("d", 2**64 - 1): 2**64 - 1,
        ("f", 2**32): 0x4053400000000000,
    }
    lines = [f"convert {ord(tag)} {bits} 0" for tag, bits in doubles]
    assert [int(it.split()[-1]) for it in lines_of(inline, lines)] == [*doubles.values()]


def test_places(inline: Program) -> None:
    """The bytes of corrupted spans."""
    tags = [(ord(tag), flags) for tag in "SxFAV" for flags in (0, 1, 9)]
    asked = [(length, one, other, *it) for length in (0, 1, 8) for one in PLACES for other in PLACES for it in tags]

    def placed(length: int, one: int, other: int, tag: int, flags: int) -> str:
        key, content = is_inside((one, other), length), is_inside((other, one), length)
        key_at, at = one if length and key else -1, other if length and content else -1
        is_text = tag in b"Sx"
        result = c_api.BAD_TAG if not is_text else OK if at >= 0 else INVALID
        string = f"{result} {at} {one}" if result == OK else f"{result} 0 {length}"
        value = f"{key_at} {other if key_at >= 0 else 0} {flags & ~1}"
        return f"{key_at} {at if is_text else -1} {string} {value}"

    lines = [" ".join(map(str, ("place", *it))) for it in asked]
    assert lines_of(inline, lines) == [placed(*it) for it in asked]


def listed(data: bytes, flags: int, places: int) -> str:
    """What is printed of the entries of a container."""
    whole = b"F" * (flags & 1) + data
    if whole and chr(whole[0]) not in TYPES:
        return f"{c_api.UNKNOWN_TAG} 77"
    if lack(whole):
        return f"{c_api.MORE} 77"
    if whole[:1] not in (b"A", b"F"):
        return f"{c_api.BAD_TAG} 77"
    body = 5 - (flags & 1), extent(whole) - 5
    outer, left, found = ((0, 0), (0, 0), body, 0, whole[0], 0), body, []
    while True:
        result, entry, left = stepped(data, left, whole[0])
        if result != OK:
            break
        found.append(entry)
    if result != c_api.NONE:
        return f"{result} 77"
    line = f"{OK if len(found) <= places else c_api.NO_ROOM} {len(found)}"
    for it in found[:places]:
        of_key, there = looked_up(data, outer, [data[it[0][0] : sum(it[0])]], flags & 8 != 0)
        line += f" {it[1][0]}:{of_key}:{there[1][0] if of_key == OK else 0}"
    return line


def test_lists(inline: Program, seed: int) -> None:
    make, lines, wanted = Random(seed), list[str](), list[str]()
    for _ in range(5000):
        data, flags, places = make.choice([odd_table(make), value_of(make, 2)]), make.choice([0, 8]), make.randrange(4)
        if data[:1] == b"F" and make.random() < 0.5:
            data, flags = data[1:], flags | 1
        lines.append(f"list {word(data)} {flags} {places}")
        wanted.append(listed(data, flags, places))
    assert lines_of(inline, lines) == wanted


def test_words(inline: Program) -> None:
    numbers = [*range(-300, 300)]
    results = {1 - n if n > 1 else n: it for n, it in enumerate(WORDS)}
    reasons = {number: TEXTS[name] for name, number in [*c_api.SYNTAX_ERRORS.items(), *c_api.MISMATCHES.items()]}
    reasons |= {0: "no reason"}
    assert {*TEXTS} == {*c_api.SYNTAX_ERRORS, *c_api.MISMATCHES}, "number it in tests/c/c_api.py as in the header"
    assert len(reasons) == 1 + len(TEXTS)
    wanted = [
        f"{results.get(n, 'unknown result')}; {TYPES.get(chr(n % 256), ('unknown',))[0]}; "
        f"{reasons.get(n % 256, 'unknown reason')}"
        for n in numbers
    ]
    assert lines_of(inline, [f"words {n}" for n in numbers]) == wanted
