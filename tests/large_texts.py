"""JSON texts that are wrong beyond byte 65,536, and beyond 1 MiB, which the suites of C, Python and Rust try."""

from collections.abc import Iterator

# A text, how it is wrong if one array or object may be open at once, at which byte, and why as amqp_json calls it.
Wrong = tuple[bytes, str, int, str]
NOT_JSON, TOO_DEEP, NOT_A_VALUE, NOT_UTF8 = "not JSON", "too deep", "not a value", "not UTF-8"


def wrong_texts() -> Iterator[Wrong]:
    for count in (66_000, 1_100_000):
        space, letters = b" " * count, b"a" * count
        yield b"[" + space, NOT_JSON, count + 1, "UnexpectedEnd"
        yield b"[" + space + b"x]", NOT_JSON, count + 1, "UnexpectedCharacter"
        yield b'["' + letters + b'\n"]', NOT_JSON, count + 2, "ControlCharacter"
        yield b"[" + space + b"[]]", TOO_DEEP, count + 1, ""
        yield b'{"a":"' + letters + b'","b":{}}', TOO_DEEP, count + 12, ""
        yield b"[" + space + b"-0]", NOT_A_VALUE, count + 1, "OutOfRange"
        yield b"{" + space + b'"$Int":5}', NOT_A_VALUE, count + 1, "UnknownType"
        yield b"[" + space + b"\xff]", NOT_UTF8, count + 1, ""
