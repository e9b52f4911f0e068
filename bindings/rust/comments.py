#!/usr/bin/env python3
"""Has the comments of C that bindgen gives its declarations as comments of Rust: a filter, for bindings/rust/declarations.

A call that shares the comment of the one before refers to that.
"""

import ast
import re
import sys
from collections.abc import Iterator

# An attribute with a line of a comment, a call, and the head of a section.
LINE, CALL, SECTION = re.compile(r'\s*#\[doc = (".*")\]'), re.compile(r"\s*pub fn (\w+)"), re.compile(r" *---- .* ----")
# A line of a list of calls, each with its meaning.
ITEM = re.compile(r" {3}(amqpv_\w+) +(.*)")


def lines_of(comment: list[str]) -> Iterator[str]:
    """The lines of a comment, as Markdown has them."""
    is_item = False
    for line in comment:
        found = ITEM.fullmatch(line)
        is_item = bool(found) or is_item and line.startswith("   ")
        yield f"- `{found[1]}`: {found[2]}" if found else "  " * is_item + line.strip()


def written(source: str) -> Iterator[str]:
    comment, last = list[str](), ""
    for line in source.splitlines():
        if found := LINE.fullmatch(line):
            # (what is escaped is escaped alike in Python)
            comment += [text for text in [ast.literal_eval(found[1])] if not SECTION.fullmatch(text)]
            continue
        if "#[must_use]" in line:
            yield line
            continue
        if found := CALL.match(line):
            comment = comment or [f"See [`{last}`]."]
            last = found[1] if not comment[0].startswith("See ") else last
        yield from (f"/// {it}".rstrip() for it in lines_of(comment))
        comment = []
        yield line


if __name__ == "__main__":
    print("\n".join(written(sys.stdin.read())))
