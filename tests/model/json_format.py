"""`value_of_json` and `json_of` of the model: the value that a JSON text means, and a value's text, by docs/JSON.md.

They share nothing with the crates. Below them is what makes values and texts to try.
"""

import json
import math
import re
import struct
from collections.abc import Iterable, Iterator
from contextlib import suppress
from decimal import Decimal
from fractions import Fraction
from random import Random
from typing import Any

# The type tag that a value is written with, and its content: of a table a dict, or a list of pairs, of an array a list, else bytes.
Value = tuple[str, Any]

# How many arrays and objects may be open in a text.
LEVELS = 127
# The types under whose name is a number: the type tag, how many bytes there are, and whether it is signed.
INTEGERS = {
    "ShortShortInt": ("b", 1, True), "ShortShortUInt": ("B", 1, False), "ShortInt": ("s", 2, True),
    "ShortUInt": ("u", 2, False), "LongInt": ("I", 4, True), "LongUInt": ("i", 4, False),
    "LongLongInt": ("l", 8, True), "Timestamp": ("T", 8, False),
}  # fmt: skip
# The types under whose name are hexadecimal digits, of a float also a number: the type tag, and how many bytes, or None for any
# number.
DIGITS = {"Float": ("f", 4), "Double": ("d", 8), "LongString": ("S", None), "ByteArray": ("x", None)}
NAMES = {tag: name for name, (tag, *_) in [*INTEGERS.items(), *DIGITS.items()]}
# How many bytes a value has of each type without a length before it.
WIDTHS = {"V": 0, "t": 1, "D": 5, "f": 4, "d": 8, **{tag: width for tag, width, _ in INTEGERS.values()}}
SPACE = b" \t\n\r"
STRING_OR_BRACKET = re.compile(r'"(?:[^"\\]|\\.)*(?:"|\\?\Z)|[][{}]', re.DOTALL)
# (which escapes a string may have, Python's own reader knows)
STRING = re.compile(rb'"(?:[^"\\]|\\.)*"', re.DOTALL)
# What is neither a string nor punctuation goes on to what ends it.
WORD = re.compile(rb'[^ \t\n\r{}\[\]:,"]+')
NUMBER = re.compile(rb"-?(?:0|[1-9][0-9]*)(?:\.[0-9]+)?(?:[eE][+-]?[0-9]+)?")


# What completes the beginning of a JSON text up to its open brackets: what is left of a string, an escape, a word or a number,
# and then a value, a colon and a value, or a member.
TAILS = [
    tail + end
    for tail in ("", '"', 'n"', '0000"', '000"', '00"', '0"', *('00\\udc00"'[n:] for n in range(8)), "rue", "ue", "e", "alse", "lse",
                 "se", "ull", "ll", "l", "0")
    for end in ("", "0", ":0", '"":0')
]  # fmt: skip


class Rejected(Exception):
    """A text means no value: the byte where it doesn't, and the mismatch there, or nothing if it isn't JSON."""

    def __init__(self, at: int, mismatch: str = "") -> None:
        super().__init__(at, mismatch)
        self.at, self.mismatch = at, mismatch


class Number(str):
    """The text of a number."""


# Reading


class Text:
    """A text that is being read."""

    def __init__(self, text: bytes) -> None:
        self.text, self.at = text, 0

    def peek(self) -> bytes:
        """The next byte that isn't white space, or nothing at the end."""
        while self.text[self.at : self.at + 1] and self.text[self.at] in SPACE:
            self.at += 1
        return self.text[self.at : self.at + 1]

    def take(self, mark: bytes) -> bool:
        """Whether this byte is next, which is then passed."""
        is_next = self.peek() == mark
        self.at += is_next
        return is_next

    def string(self) -> str:
        found = STRING.match(self.text, self.at)
        try:
            read: str = json.loads(found[0]) if found else ""
            # (half of a surrogate pair has no UTF-8)
            read.encode()
        except ValueError:
            found = None
        if not found:
            raise Rejected(self.at)
        self.at = found.end()
        return read

    def key(self) -> tuple[int, str]:
        """A key and its colon: the offset, and the key."""
        self.peek()
        at, name = self.at, self.string()
        if not self.take(b":"):
            raise Rejected(at)
        return at, name

    def scalar(self) -> tuple[int, Any]:
        """Null, a boolean, a number or a string, and its offset."""
        mark, at = self.peek(), self.at
        if mark == b'"':
            text = self.string()
            # (what has a colon is a key)
            if self.peek() == b":":
                raise Rejected(at)
            return at, text
        found = WORD.match(self.text, at)
        words: dict[bytes, Any] = {b"null": None, b"true": True, b"false": False}
        # (a string doesn't end a word)
        if not found or self.text[found.end() : found.end() + 1] == b'"':
            raise Rejected(at)
        self.at = found.end()
        if found[0] in words:
            return at, words[found[0]]
        if not NUMBER.fullmatch(found[0]):
            raise Rejected(at)
        return at, Number(found[0].decode())

    def value(self, levels: int) -> Value:
        mark, at = self.peek(), self.at
        if mark not in (b"[", b"{"):
            return plain(*self.scalar())
        if not levels:
            raise Rejected(at, "TooDeep")
        self.at += 1
        return ("A", self.items(levels - 1)) if mark == b"[" else self.members(levels - 1)

    def goes_on(self, end: bytes) -> bool:
        """Passes a comma or the closing bracket, and returns whether it was a comma."""
        if self.take(end):
            return False
        if not self.take(b","):
            raise Rejected(self.at)
        return True

    def items(self, levels: int) -> list[Value]:
        if self.take(b"]"):
            return []
        found = [self.value(levels)]
        while self.goes_on(b"]"):
            found.append(self.value(levels))
        return found

    def members(self, levels: int) -> Value:
        found: dict[bytes, Value] = {}
        has_more = not self.take(b"}")
        while has_more:
            at, key = self.key()
            name = key.removeprefix("$").encode()
            if is_name(key) and not found:
                return self.named(at, key[1:])
            if is_name(key):
                raise Rejected(at, "NotAlone")
            if len(name) > 255:
                raise Rejected(at, "KeyTooLong")
            found[name] = self.value(levels)
            has_more = self.goes_on(b"}")
        return "F", found

    def named(self, at: int, name: str) -> Value:
        """The value under the name of its type, which is an object's only key."""
        if name not in [*INTEGERS, *DIGITS, "DecimalValue"]:
            raise Rejected(at, "UnknownType")
        if self.peek() in (b"[", b"{"):
            raise Rejected(self.at, "NotANumber" if takes_numbers(name) else "NotAString")
        found = of_type(name, *self.scalar())
        if self.goes_on(b"}"):
            raise Rejected(self.key()[0], "NotAlone")
        return found


def is_name(key: str) -> bool:
    return key.startswith("$") and not key.startswith("$$")


def plain(at: int, content: Any) -> Value:
    """The value of null, a boolean, a number or a string that is under no name."""
    if isinstance(content, Number):
        return of_type("Double" if re.search("[.eE]", content) else "LongLongInt", at, content)
    if isinstance(content, str):
        return "S", content.encode()
    return ("V", b"") if content is None else ("t", bytes([content]))


def of_type(name: str, at: int, content: Any) -> Value:
    """The value of what is under a type's name."""
    is_number = isinstance(content, Number)
    if is_number and takes_numbers(name):
        tag = (INTEGERS.get(name) or DIGITS[name])[0]
        number = integer(content, *INTEGERS[name][1:]) if name in INTEGERS else float_of(content, tag)
        if number is None:
            raise Rejected(at, "OutOfRange")
        return tag, number
    if is_number or name in INTEGERS or not isinstance(content, str):
        raise Rejected(at, "NotANumber" if takes_numbers(name) else "NotAString")
    if name == "DecimalValue":
        value, _, scale = content.partition("e-")
        number, exponent = integer(value, 4, False), integer(scale, 1, False)
        if number is None or exponent is None:
            raise Rejected(at, "NotADecimal")
        return "D", exponent + number
    tag, size = DIGITS[name]
    count = len(content.encode())
    if count % 2:
        raise Rejected(at, "OddDigits")
    if size is not None and count != 2 * size:
        raise Rejected(at, "DigitCount")
    if not re.fullmatch("[0-9a-fA-F]*", content):
        raise Rejected(at, "NotHexadecimal")
    return tag, bytes.fromhex(content)


def takes_numbers(name: str) -> bool:
    return name in INTEGERS or name in ("Float", "Double")


def float_of(text: str, tag: str) -> bytes | None:
    """The float of a type that is nearest to a number, or nothing if it is too large."""
    number = float(text)
    if tag == "f" and 2.0**-160 < abs(number) < 2.0**130 and struct.pack(">d", number)[-1] % 2 == 0:
        # (a Double that may be in the middle of two Floats goes to the side of it on which the number is)
        off = Fraction(Decimal(text)) - Fraction(number)
        number = math.nextafter(number, math.copysign(math.inf, (off > 0) - (off < 0))) if off else number
    try:
        return struct.pack(f">{tag}", number) if math.isfinite(number) else None
    except OverflowError:
        return None


def integer(text: str, width: int, is_signed: bool) -> bytes | None:
    """An integer of so many bytes; `-0` is none."""
    if not re.fullmatch("-?(0|[1-9][0-9]*)", text) or text == "-0":
        return None
    try:
        return int(text).to_bytes(width, "big", signed=is_signed)
    except (OverflowError, ValueError):
        # (what has thousands of digits is no integer in Python)
        return None


def value_of_json(text: bytes, levels: int = LEVELS) -> Value:
    """The value that a text means."""
    reader = Text(text)
    try:
        found = reader.value(levels)
        if reader.peek():
            raise Rejected(reader.at)
    except Rejected as why:
        raise (why if why.mismatch else Rejected(first_wrong(text))) from None
    return found


def first_wrong(text: bytes) -> int:
    """The first byte of a text with which it can't be completed to JSON any more, or its end: by Python's own reader."""
    least, most = 0, len(text)
    while least < most:
        middle = (least + most + 1) // 2
        # (a character is complete with its last byte)
        end = middle
        while end < len(text) and text[end] & 0xC0 == 0x80:
            end += 1
        if begins_json(text[:end].decode()):
            least = middle
        else:
            most = middle - 1
    return least


def begins_json(start: str) -> bool:
    """Whether a text can be completed to JSON."""
    open_brackets = []
    for it in STRING_OR_BRACKET.findall(start):
        if it in ("[", "{"):
            open_brackets.append("]" if it == "[" else "}")
        elif it in ("]", "}") and (not open_brackets or open_brackets.pop() != it):
            return False
    end = "".join(reversed(open_brackets))
    return any(is_json(start + tail + end) for tail in TAILS)


def is_json(text: str) -> bool:
    try:
        # (half of a surrogate pair has no UTF-8, also under a key that comes again)
        found = json.loads(text, parse_int=str, parse_constant=int, object_pairs_hook=list)
        json.dumps(found, ensure_ascii=False).encode()
    except (ValueError, RecursionError):
        return False
    return True


# Writing


def json_of(value: Value) -> str:
    """The text that is written for a value, with a table's pairs as they are listed, or else by their keys."""
    tag, content = value
    match tag:
        case "V":
            return "null"
        case "t":
            return "true" if content != b"\0" else "false"
        case "A":
            return f"[{','.join(map(json_of, content))}]"
        case "F":
            pairs = content if isinstance(content, list) else sorted(content.items())
            return "{" + ",".join(f"{json_of_key(key)}:{json_of(it)}" for key, it in pairs) + "}"
        case "D":
            return f'{{"$DecimalValue":"{int.from_bytes(content[1:], "big")}e-{content[0]}"}}'
        case "S":
            with suppress(UnicodeDecodeError):
                return quoted(content.decode())
    name = NAMES[tag]
    if tag in "fd" and (text := decimal_of(tag, content)):
        return text if tag == "d" else f'{{"${name}":{text}}}'
    if name in DIGITS:
        return f'{{"${name}":"{content.hex()}"}}'
    number = int.from_bytes(content, "big", signed=INTEGERS[name][2])
    return str(number) if tag == "l" else f'{{"${name}":{number}}}'


def decimal_of(tag: str, content: bytes) -> str:
    """The number with the fewest digits after the point that is read as a float, or nothing."""
    (number,) = struct.unpack(f">{tag}", content)
    if not math.isfinite(number) or abs(number) >= 2**64:
        return ""
    sign = "-" if content[0] & 128 else ""
    for places in range(1, 19):
        whole, fraction = divmod(math.floor(abs(Fraction(number)) * 10**places + Fraction(1, 2)), 10**places)
        text = f"{sign}{whole}.{fraction:0{places}}"
        if float_of(text, tag) == content:
            return text
    return ""


def json_of_key(key: bytes) -> str:
    return quoted(("$" if key.startswith(b"$") else "") + key.decode())


def quoted(text: str) -> str:
    return json.dumps(text, ensure_ascii=False)


# Values

# Keys and strings: with a dollar sign, with each kind of escape, and as long as a key may be.
WORDS = [
    "", "a", "b", "$", "$$", "$ShortInt", "ShortInt", "\u00e9", '"', "\\", "/\x7f", "\b\f\n\r\t", "\x00\x1f", "\u2028",
    "\U0001f407", "k" * 255, "$" + "k" * 254, "plain text of more than sixteen bytes", 'with a quote at the end "',
]  # fmt: skip


def some_value(make: Random, levels: int) -> Value:
    """A value of any type, in which containers nest no deeper."""
    tag = make.choice("bBsuIilTfdDtVSSSx" + "AF" * levels)
    if tag in "AF":
        return container(make, tag, [some_value(make, levels - 1) for _ in range(make.randrange(4))])
    if tag == "t":
        return tag, bytes([make.randrange(2)])
    if tag in "Sx":
        return tag, make.choice([make.randbytes(make.randrange(6)), make.choice(WORDS).encode()])
    width = WIDTHS[tag]
    if tag in "fd" and make.random() < 0.5:
        return tag, struct.pack(f">{tag}", round(make.uniform(-1, 1) * 10 ** make.randrange(19), make.randrange(20)))
    # (of any number of digits)
    number = make.getrandbits(8 * width) >> make.randrange(8 * width + 1)
    others = [bytes(width), b"\xff" * width, (b"\x80" + bytes(width))[:width]]
    return tag, make.choice([number.to_bytes(width, "big"), make.randbytes(width), *others])


def container(make: Random, tag: str, content: list[Value]) -> Value:
    """An array of these values, or a table."""
    if tag == "A":
        return tag, content
    # (of many values most have a key with a number)
    keys = [make.choice(WORDS).encode() for _ in content[:10]]
    keys += [f"{make.choice(WORDS[:7])}{number}".encode() for number in range(10, len(content))]
    return tag, dict(zip(keys, content))


def large_values(make: Random, count: int) -> Iterator[Value]:
    """So many values, of which some nest up to 30 levels, and some have up to 10,000 entries."""
    for number in range(count):
        value = some_value(make, 3)
        for _ in range(make.randrange(1, 28) if number % 10 == 0 else 0):
            others = [some_value(make, 0) for _ in range(make.randrange(3))]
            value = container(make, make.choice("AF"), [*others, value])
        if number % 500 == 0:
            size = make.choice([100, 1000, 10_000])
            value = container(make, make.choice("AF"), [some_value(make, 1) for _ in range(size)])
        yield value


# Texts

SCALAR = re.compile(r'"(?:[^"\\]|\\.)*"(?!\s*:)|-?\d+|null|true|false')
TOKEN = re.compile(r'("(?:[^"\\]|\\.)*")|([][{}:,])')
# Texts that mean a value.
VALUES = [
    "null", "true", "0", "-1", "9223372036854775807", "-9223372036854775808", '""', '"a"', "[]", "{}", '{"$LongLongInt":5}',
    '{"$LongString":"6f"}', '{"$ByteArray":"fF"}', '{"$$ShortInt":5}', '{"ShortInt":5}', '{"$DecimalValue":"1e-255"}',
    '{"$Timestamp":18446744073709551615}', '{"$Float":"7FC00000"}', "2.5", "-0.0", "1E-7", '{"$Float":1}', '{"$Double":-1e-400}',
]  # fmt: skip
# What is put in the place of something in a text.
ODD = [
    "", "{", "}", "[", "]", ",", ":", '"', "\\", "\\u", "\\ud800", "0", "-", "-0", ".5", "1.5", "e", "E9", "1e999", "256",
    "18446744073709551616", "9" * 5000, "nul", "$", "$$", '"$', '"$ShortInt"', '"$Float"', '"$Boolean"', '"$DecimalValue":"1e-2"',
    '{"$LongLongUInt":5}', '{"$ByteArray":"f"}', '{"$ByteArray":"fg"}', '{"$Float":"00"}', '{"$Float":1}', '{"$Void":null}',
    '{"$Float":-1e999}', '{"$Float":"000000000"}', '{"$Double":"\u00e9"}', '{"$ShortInt":"5"}', '{"$ShortInt":[]}',
    '{"$Timestamp":-1}', '{"$ShortShortInt":128}', '{"$ShortInt":5,"a":1}', '{"a":1,"$ShortInt":5}', '{"$FieldTable":{}}',
    '{"$DecimalValue":"01e-2"}', '{"$DecimalValue":"1e2"}', '{"$DecimalValue":314}', '{"$DecimalValue":"4294967296e-2"}',
    '{"$ShortString":"a"}', f'{{"{"k" * 256}":1}}', f'{{"$${"k" * 255}":1}}', "[" * LEVELS + "]" * LEVELS, "[" * (LEVELS + 1), "\0", " ",
    "\u00e9", *VALUES,
]  # fmt: skip


def text_for(make: Random, value: Value) -> str:
    """A text that means a value: with white space and escapes, keys in any order and again, and names that needn't be."""
    return TOKEN.sub(lambda it: spelled(make, it), f"{blank(make)}{respelled(make, value)}{blank(make)}")


def respelled(make: Random, value: Value) -> str:
    tag, content = value
    if tag == "A":
        return f"[{','.join(respelled(make, it) for it in content)}]"
    if tag == "F":
        members = [f"{json_of_key(key)}:{respelled(make, it)}" for key, it in content.items()]
        again = [f"{json_of_key(key)}:{make.choice(VALUES)}" for key in content if make.random() < 0.05]
        make.shuffle(members)
        return "{" + ",".join([*again, *members]) + "}"
    if tag == "l" and make.random() < 0.2:
        return f'{{"$LongLongInt":{json_of(value)}}}'
    if tag in "fd" and make.random() < 0.2 and math.isfinite(number := struct.unpack(f">{tag}", content)[0]):
        return f'{{"${NAMES[tag]}":{make.choice([repr(number), f"{number:.60e}"])}}}'
    if tag in "Sxfd" and make.random() < 0.2:
        return f'{{"${NAMES[tag]}":"{make.choice([content.hex(), content.hex().upper()])}"}}'
    return json_of(value)


def blank(make: Random) -> str:
    return make.choice(["", "", "", "", "", "", " ", "\n\t", "\r "])


def spelled(make: Random, token: re.Match[str]) -> str:
    """Punctuation with white space around it, or a string, in which a character may be escaped though it needn't be."""
    if token[2]:
        return f"{blank(make)}{token[2]}{blank(make)}"
    if make.random() < 0.8:
        return token[1]
    text = json.loads(token[1])
    at = make.randrange(len(text) + 1)
    units = text[at : at + 1].encode("utf-16-be")
    escape = "".join(f"\\u{units[n]:02x}{units[n + 1]:02X}" for n in range(0, len(units), 2))
    before, after = (quoted(it)[1:-1].replace("/", "\\/") for it in (text[:at], text[at + 1 :]))
    return f'"{before}{escape}{after}"'


def damaged_text(make: Random, text: str) -> str:
    """A text with something odd in the place of a few characters, or of a string, a number or a word."""
    begin = make.randrange(len(text) + 1)
    end = begin + make.choice([0, 1, 1, 2, 5])
    scalars = [it.span() for it in SCALAR.finditer(text)]
    if scalars and make.random() < 0.5:
        begin, end = make.choice(scalars)
    return text[:begin] + make.choice(ODD) + text[end:]


def texts(make: Random, values: Iterable[Value]) -> Iterator[bytes]:
    """For each of these values a text that means it, and one that is changed in one place."""
    for value in values:
        text = text_for(make, value)
        yield text.encode()
        yield damaged_text(make, text).encode()
