"""`CALLS`: the names of the functions of the C API, by library, as the header declares them, for three modules here.

Those that allocate are in a section of the header of their own. c_api.py calls the functions.
"""

import re

from tests.c.compiling import ALLOCATING, HEADER, PLAIN


def declared(text: str) -> set[str]:
    """The names of the calls that a part of the header declares."""
    return {*re.findall(r"(?m)^(?:amqpv_result|uint32_t) (\w+)\(", re.sub(r"(?s)/\*.*?\*/", "", text))}


BEFORE, _, SECTION = HEADER.read_text().partition("calls that allocate ---- */")
OF_ALLOCATING, _, AFTER = SECTION.partition("/* ====")
CALLS = {PLAIN: declared(BEFORE) | declared(AFTER), ALLOCATING: declared(OF_ALLOCATING)}
