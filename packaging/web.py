#!/usr/bin/env python3
"""Makes the page that shows a field table, one file that holds everything: packaging/web.py PATH

It has the scripts and the style of bindings/web, the numbers and names of amqp_values.h, and the calls of the C API that don't
allocate, as the two WebAssembly modules of generated/ in base64. Rattle's compiler makes the first, with 64-bit addresses, and is
trusted as for other targets. `wasm-opt --memory64-lowering` makes the second of it, with 32-bit addresses, for browsers that lack
the other. The second isn't proved, but tested. A policy in the page allows these scripts and this style, by their SHA-256, and no
request.

The page draws what amqpv_proved_read, amqpv_next, amqpv_peek, amqpv_is_canonical and amqpv_proved_to_json return. They are
proved, and the scripts aren't. The scripts read only what is typed (hexadecimal, base64, literals of Python), set a cursor of
amqpv_next to what a cut container has, and have amqpv_peek read a lone number. The module allocates nothing. If it ends, for
example since a stack is too small, the page makes it anew and says so. tests/web drives the page in Chromium, with both modules.
"""

import base64
import hashlib
import html
import json
import re
import sys
from pathlib import Path

from dependencies import TOP

FOLDER = TOP / "bindings/web"
# Each after those that it imports.
SCRIPTS = ("module.js", "reading.js", "words.js", "hexadecimal.js", "text.js", "page.js")
# What one script has of another, which all are one in the page.
IMPORT = re.compile(r"(?ms)^import \{.*?\} from \"\./\w+\.js\";\n")
EXPORT = re.compile(r"(?m)^export ")
HEADER, INLINE = TOP / "include/amqp_values.h", TOP / "include/amqp_values_inline.h"
# A number of an enum of the header; and of amqpv_tag_name a case, of a constant or a letter, or what is returned.
NUMBER = re.compile(r"AMQPV_(\w+) = (-?\d+|'.')")
TAG = re.compile(r"case (?:AMQPV_(\w+)|'(.)'):|return \"(\w+)\"")
DATA = TOP / "crates/amqp_show/data"
CAPTURED = TOP / "vectors/cases/real-world.json"
# The module whose addresses have 64 bits, and the one whose have 32.
WIDE, NARROW = (TOP / "generated/wasm" / it for it in ("amqp_c.wasm", "amqp_c-32.wasm"))


def digits(name: str) -> str:
    """The hexadecimal of a file of amqp_show's data, or of a table that was captured."""
    if name.endswith(".hex"):
        lines = (it.partition("#")[0] for it in (DATA / name).read_text().splitlines())
        return "".join("".join(lines).split())
    (found,) = (it["bytes"] for it in json.loads(CAPTURED.read_text())["cases"] if it["id"] == name)
    return f"46{found}"


def examples() -> list[tuple[str, str]]:
    """The examples of the page: a name, and hexadecimal."""
    hostile = "460000002e0161530000000a1b5b33316de280ae68690162410000000a4100000005410000000001614100000005530fffffff"
    return [
        ("x-death, dead-lettered twice", digits("x-death-after-2")),
        ("arguments of a queue", digits("queue_arguments.hex")),
        ("properties of a server", digits("rabbitmq-server-properties")),
        ("properties of a client, cut", digits("client-properties")[:240]),
        ("hostile: a length beyond its array, equal keys, controls", hostile),
        ("a value of every type", digits("each_type.hex")),
    ]


def header() -> str:
    """A script of what the header has: AMQPV the numbers of its enums by their names without AMQPV_, NAMES that of each type."""
    text = HEADER.read_text()
    numbers = {name: ord(it[1]) if it[0] == "'" else int(it) for name, it in NUMBER.findall(text)}
    names, tags = dict[int, str](), list[int]()
    body = INLINE.read_text().partition("amqpv_tag_name(uint8_t tag) {")[2].partition("default:")[0]
    for case, letter, name in TAG.findall(body):
        if name:
            names |= dict.fromkeys(tags, name)
            tags = []
        else:
            tags.append(ord(letter) if letter else numbers[case])
    return f"const AMQPV = {json.dumps(numbers)};\nconst NAMES = {json.dumps(names)};"


def script() -> str:
    """The scripts as one."""
    parts = [header(), *(EXPORT.sub("", IMPORT.sub("", (FOLDER / it).read_text())) for it in SCRIPTS)]
    return "\n".join(parts)


def allowed(text: str) -> str:
    return f"'sha256-{base64.b64encode(hashlib.sha256(text.encode()).digest()).decode()}'"


def page() -> str:
    """The page."""
    style, code = (FOLDER / "style.css").read_text(), script()
    policy = f"default-src 'none'; script-src {allowed(code)} 'wasm-unsafe-eval'; style-src {allowed(style)}"
    found = re.search(r'(?m)^#define AMQPV_VERSION "(.*)"$', HEADER.read_text())
    assert found
    parts = {
        "POLICY": f"{policy}; base-uri 'none'; form-action 'none'",
        "STYLE": style,
        "SCRIPT": code,
        "VERSION": found[1],
        "LICENCES": html.escape("\n".join((TOP / it).read_text() for it in ("LICENSE", "THIRD-PARTY"))),
        "EXAMPLES": "\n".join(f'<option value="{value}">{name}</option>' for name, value in examples()),
        "WASM64": base64.b64encode(WIDE.read_bytes()).decode(),
        "WASM32": base64.b64encode(NARROW.read_bytes()).decode(),
    }
    # (in one pass, since a part may have another's name)
    return re.sub(r"@([A-Z0-9]+)@", lambda it: parts[it[1]], (FOLDER / "index.html").read_text())


def main() -> None:
    path, text = Path(sys.argv[1]), page()
    path.parent.mkdir(parents=True, exist_ok=True)
    path.write_text(text)
    print(f"web: {path} has {len(text.encode())} bytes")


if __name__ == "__main__":
    main()
