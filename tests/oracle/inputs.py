"""`request`: a random request of crates/test_calls, which test_answers.py puts to the Rust crate and this library."""

import json
from collections.abc import Callable
from random import Random
from typing import Any

from tests.model.encoding import SIGNED, TYPES, Value, write

# By the name of a type its type tag; LongLongUInt and ShortString have none.
TAGS = {name: tag for tag, (name, _) in TYPES.items() if tag not in "UL"}
NAMES = [*TAGS, "LongLongUInt", "ShortString"]
# The parsers and generators of a payload, by their names after `parse_` and `gen_`, and its type tag.
PAYLOADS = {
    "boolean": "t", "short_short_int": "b", "short_short_uint": "B", "short_int": "s", "short_uint": "u", "id": "u",
    "long_int": "I", "long_uint": "i", "long_long_int": "l", "long_long_uint": "T", "timestamp": "T", "float": "f", "double": "d",
    "decimal_value": "D", "long_string": "S", "byte_array": "x", "field_array": "A", "field_table": "F",
}  # fmt: skip
# Pieces of text: each width of UTF-8, and its least and greatest characters.
LETTERS = "ab x-\0\x7f\x80é߿ࠀ漢￿𐀀🐇\U0010ffff"
# Bytes that aren't UTF-8: too long forms, halves of pairs, cut characters, what is past the last one.
NOT_UTF8 = [
    *(b"\x80", b"\xc0\x80", b"\xc3", b"\xe0\x80\x80", b"\xed\xa0\x80"),
    *(b"\xf4\x90\x80\x80", b"\xf0\x9f\x90", b"\xff", b"\xf8\x88\x80\x80\x80"),
]
NAMES_OF_FLAGS = ["a", "b", "flag", "Z9", "é漢🐇", ""]


# ---- words


def digits(data: bytes) -> str:
    return data.hex() or "-"


def word(value: Value) -> str:
    """A value, as encoding.py has it: its type tag, and its content."""
    tag, content = value
    if tag in "AF":
        return held(value)
    return "Void" if tag == "V" else f"{TYPES[tag][0]}({held(value)})"


def held(value: Value) -> str:
    """What a value holds."""
    tag, content = value
    if tag == "A":
        return f"[{','.join(map(word, content))}]"
    if tag == "F":
        return f"{{{','.join(f'{digits(key)}:{word(it)}' for key, it in content.items())}}}"
    if tag in "Sx":
        return digits(content)
    if tag == "t":
        return str(content != b"\0").lower()
    if tag == "D":
        return f"{content[0]}/{int.from_bytes(content[1:], 'big')}"
    return str(int.from_bytes(content, "big", signed=TYPES[tag][0] in SIGNED))


# ---- values and their encodings


def text(make: Random, most: int = 12) -> bytes:
    return "".join(make.choices(LETTERS, k=make.randrange(most))).encode()


def number(make: Random, width: int) -> bytes:
    """The bytes of a number: ends of ranges, and any. A Void has none."""
    if not width:
        return b""
    ends = [b"\0" * width, b"\xff" * width, ((1 << 8 * width - 1) - 1).to_bytes(width, "big")]
    ends += [b"\x80" + b"\0" * (width - 1), b"\0" * (width - 1) + b"\1"]
    return make.choice([*ends, make.randbytes(width), make.randbytes(width)])


def value(make: Random, depth: int = 3) -> Value:
    """A value of any type and depth, with infinities and NaNs too."""
    return value_of(make, make.choice("tbBsuIilfdDSxTV" + "AF" * 3 * (depth > 0)), depth)


def value_of(make: Random, tag: str, depth: int = 3) -> Value:
    if tag == "A":
        return tag, [value(make, depth - 1) for _ in range(make.choice([0, 1, 2, 3, 6]))]
    if tag == "F":
        return tag, {text(make): value(make, depth - 1) for _ in range(make.choice([0, 1, 2, 3, 6]))}
    if tag in "Sx":
        return tag, make.choice([text(make), make.randbytes(make.randrange(20)), make.choice(NOT_UTF8)])
    if tag == "t":
        return tag, make.choice([b"\0", b"\1"])
    return tag, number(make, TYPES[tag][1] or 0)


def encoding(make: Random) -> bytes:
    """A value's bytes, often with what isn't canonical, or broken."""
    data = write(value(make, make.choice([0, 1, 2, 3, 5])))
    data = changed(make, nested(make) if make.random() < 0.1 else data, make.choice([0, 0, 0, 1, 1, 2, 5]))
    return cut(make, data + make.randbytes(make.randrange(4) * (make.random() < 0.2)), 0.2)


def changed(make: Random, data: bytes, count: int) -> bytes:
    """Changes so many bytes, or takes them out, or puts one after them."""
    for _ in range(count if data else 0):
        at = make.randrange(len(data))
        byte = data[at]
        near, flipped = (byte + make.choice([-1, 1])) % 256, byte ^ 1 << make.randrange(8)
        new = bytes([make.choice([make.randrange(256), near, make.choice(b"tbBsUuIilLfdDSAFxTV_z"), flipped])])
        piece = make.choice([new] * 4 + [b"", bytes([byte, make.choice(b"tV\0\1\xff")])])
        data = data[:at] + piece + data[at + 1 :] or new
    return data


def cut(make: Random, data: bytes, how_often: float) -> bytes:
    return data[: make.randrange(len(data) + 1)] if make.random() < how_often else data


def nested(make: Random) -> bytes:
    """Containers in one another, the innermost with anything. Rarely a pair lacks its key, or a value has one."""
    data = make.choice([b"", b"V", b"z", b"\1aV", b"\1aV\1at\2", b"\1\xffV"])
    for _ in range(make.randrange(1, make.choice([10, 60, 200]))):
        tag, is_broken = make.choice([b"A", b"F"]), make.random() < 0.01
        body = data if (tag == b"A") != is_broken else b"\1k" + data
        data = tag + len(body).to_bytes(4, "big") + body
    return data


def equal_keys(make: Random) -> bytes:
    """A table, each of whose keys may come again; once in a while a large one, which is read in another way."""
    names, count = make.choices([(3, make.randrange(6)), (300, make.randrange(1000, 2000))], [500, 1])[0]
    keys = make.choices([text(make, 3) for _ in range(names)], k=count)
    body = b"".join(bytes([len(key)]) + key + write(value(make, 1)) for key in keys)
    return b"F" + len(body).to_bytes(4, "big") + body


# ---- requests


def read(make: Random) -> str:
    data = make.choice([encoding, encoding, encoding, equal_keys])(make)
    return f"{make.choice(['parse_value', 'parse_value', 'wire'])} {digits(data)}"


def message(make: Random) -> str:
    """What has no value: an error has a text."""
    return f"message {make.choice(['7a', '410000000' + make.choice('12') + '7a', '53' + make.randbytes(4).hex(), '-', '44'])}"


def parse(make: Random) -> str:
    call, tag = make.choice([*PAYLOADS.items(), ("type", ""), ("short_string", "")])
    if call == "short_string":
        data = make.choice([text(make), make.choice(NOT_UTF8), text(make) + make.choice(NOT_UTF8)])
        data = bytes([make.choice([len(data), len(data), make.randrange(256)])]) + data
    else:
        data = changed(make, write(value_of(make, tag))[1:], make.randrange(3)) if tag else b""
    return f"parse_{call} {digits(cut(make, data + make.randbytes(make.randrange(3)), 0.4))}"


def parse_raw_value(make: Random) -> str:
    return f"parse_raw_value {make.choice(NAMES)} {digits(encoding(make)[1:])}"


def flags(make: Random) -> str:
    count = make.choice([0, 1, 2, 7, 8, 9, 16, 17, make.randrange(40)])
    names = [make.choice(NAMES_OF_FLAGS) if at else "first" for at in range(count)]
    given = ",".join(make.choice(["", "!"]) + it for it in names) or "-"
    data = digits(make.randbytes(max(0, (count + 7) // 8 + make.choice([-1, 0, 0, 0, 1]))))
    some = make.choice([*names, "a"]) or "b"
    calls = [f"{it} {','.join(names) or '-'} {data}" for it in ("parse_flags", "from_bytes")]
    calls += [f"get_flag {given} {some}", f"get_bytes {given}", f"clone_flags {given}"]
    calls += [f"add_flag {given} {some} {make.choice(['true', 'false'])}"]
    return make.choice([*calls, f"gen_flags {room(make, (count + 7) // 8, True)} {given}"])


def room(make: Random, needs: int, is_any: bool) -> str:
    """Where a generator writes that needs so many bytes: a slice, a vector, or, if it writes to anything, a device."""
    before = make.randbytes(make.choice([0, 0, 0, 1, 3]))
    spare = make.choice([0, 0, 0, 0, 1, 100, -1, -2, -make.randrange(needs + 1)])
    slices = [str(len(before) + max(0, needs + spare))] * 5
    to = make.choice([*slices, "vec", *["io"] * is_any])
    if to == "io":
        return make.choice(["io:9999", "io:BrokenPipe", "io:TimedOut"])
    return f"{before.hex()}/{to}" if before else to


def generate(make: Random) -> str:
    call, tag = make.choice([*PAYLOADS.items()] * 2 + [("value", "")] * 16 + [("raw_value", "")] * 4)
    it = value_of(make, tag) if tag else value(make)
    needs = len(write(it)) - (call != "value")
    return f"gen_{call} {room(make, needs, bool(tag) and tag not in 'AF')} {held(it) if tag else word(it)}"


def generate_others(make: Random) -> str:
    data, short = make.randbytes(make.randrange(6)), make.choice(
        [text(make), b"a" * make.randrange(250, 260), text(make, 90)]
    )
    return make.choice(
        [
            f"gen_type {room(make, 1, True)} {make.choice(NAMES)}",
            f"gen_with_len {room(make, 4 + len(data), False)} {digits(data)}",
            f"gen_short_string {room(make, 1 + len(short), True)} {digits(short)}",
            f"gen_value {room(make, 2 + len(short[:255]), False)} ShortString({digits(b'a' * len(short[:255]))})",
        ]
    )


def values(make: Random) -> str:
    one = value(make, 2)
    other = make.choice([one, one, value(make, 2), value_of(make, one[0], 2)])
    array, table = value_of(make, "A", 2), value_of(make, "F", 2)
    key = digits(make.choice([*table[1], text(make)]))
    calls = [f"{it} {word(one)}" for it in ("getters", "from", "get_type", "clone")]
    calls += [f"equal {word(one)} {word(other)}"] * 2 + [f"contains_key {word(table)} {key}"]
    calls += [f"push {word(array)} {word(one)}", f"insert {word(table)} {key} {word(one)}"]
    return make.choice(calls)


def types(make: Random) -> str:
    code = make.choice([make.randrange(256), make.randrange(0xD800), make.randrange(0xE000, 0x110000)])
    return make.choice([f"from_id {code}", f"from_id {code}", f"get_id {make.choice(NAMES)}"])


def try_from(make: Random) -> str:
    """JSON of numbers at the ends of each type's range, of texts, and of others. No space is in it."""
    whole = make.choice([1, -1]) * (1 << make.choice([0, 7, 8, 15, 16, 31, 32, 53, 63, 64])) + make.randrange(-2, 3)
    texts = ["", text(make).decode().replace(" ", ""), "a" * make.choice([254, 255, 256])]
    json_of: Any = make.choice(
        [None, True, False, whole, whole, whole, whole / 3, 1e300, *texts, [], [1], {}, {"a": None}]
    )
    written = json.dumps(json_of, ensure_ascii=make.random() < 0.5, separators=(",", ":"))
    return f"try_from {make.choice(NAMES)} {written}"


def strings(make: Random) -> str:
    one = text(make)
    short = make.choice([text(make), text(make, 200), b"a" * make.randrange(250, 260)])
    # (an answer is a line)
    any_ = b"".join(make.choices([text(make), make.randbytes(3), *NOT_UTF8], k=4)).replace(b"\n", b"")
    calls = [f"try_new {digits(short)}", f"long_string {digits(any_)}", f"byte_array {digits(any_)}"]
    return make.choice([*calls, f"order {digits(one)} {digits(make.choice([one, text(make), one + b'a']))}"])


# What makes requests, and how often.
MAKERS: dict[Callable[[Random], str], int] = {
    read: 30, parse: 14, parse_raw_value: 8, generate: 18, generate_others: 6, values: 12, try_from: 6, flags: 6, strings: 4,
    types: 3, message: 1,
}  # fmt: skip


def request(make: Random) -> str:
    """Any of them."""
    return make.choices([*MAKERS], [*MAKERS.values()])[0](make)
