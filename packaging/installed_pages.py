#!/usr/bin/env python3
"""Copies pages as they are installed, without what is only about the sources: packaging/installed_pages.py FOLDER PAGE..

Left out is what is between the marks `of the sources` and `end`, and links to pages that aren't installed, except their text.
"""

import re
import sys
from pathlib import Path

TOP = Path(__file__).resolve().parent.parent
OF_SOURCES = re.compile(r"(?ms)^<!-- of the sources -->\n.*?^<!-- end -->\n|<!-- of the sources -->.*?<!-- end -->")
LINK = re.compile(r"\[([^\]]+)\]\(([^)#]+)(#[^)]*)?\)")
to, pages = Path(sys.argv[1]), sys.argv[2:]


def linked(link: re.Match[str]) -> str:
    if "://" in link[2]:
        return link[0]
    name = Path(link[2]).name
    return f"[{link[1]}]({name}{link[3] or ''})" if name in pages else link[1]


to.mkdir(parents=True, exist_ok=True)
for it in pages:
    found = next(path for path in (TOP / it, TOP / "docs" / it) if path.exists())
    (to / it).write_text(LINK.sub(linked, OF_SOURCES.sub("", found.read_text())))
