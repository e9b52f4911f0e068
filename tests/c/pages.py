"""Extracts from docs/C.md and other installed pages what tests try: commands, their output, C code, and names of files.

Suites c and packages use it. (tests/pages.py compares all pages with the sources.)
"""

import re
from pathlib import Path

# What a page names that has to be there: what is in `code` and a path, or a file's name.
NAMED = re.compile(r"`([\w./-]+\.(?:[ch]|py|so|a|md|antt|rt|rows|t|pc|cmake)|[\w.-]+/[\w./-]+)`|\]\(([^)#]+)")
# What is no file, though it looks like one, or is one that a reader makes.
NO_FILES = {"/usr/local", "CMakeLists.txt"}
# How docs/C.md links a consumer with the library before librabbitmq, which test_before_librabbitmq.py does.
LINKS_CONSUMER = "cc -o consumer"
# What isn't run: what needs to be root, or another program.
NOT_RUN = ("sudo ", "LD_PRELOAD", LINKS_CONSUMER)


def names_that_lack(doc: Path, top: Path) -> list[str]:
    """The names that the pages of a folder have, of what isn't below another."""
    installed = {it.name for it in top.rglob("*")} | {str(it.relative_to(top)) for it in top.rglob("*")}

    def is_there(name: str) -> bool:
        return name in installed or (doc / name).exists() or name.rstrip("/") in installed

    pages = sorted(doc.glob("*.md"))
    assert pages, f"{doc.name} has no page"
    named = [(it.name, code or link) for it in pages for code, link in NAMED.findall(it.read_text())]
    return sorted(
        {f"{page}: {it}" for page, it in named if it not in NO_FILES and "://" not in it and not is_there(it)}
    )


def commands_of_first(page: str) -> tuple[str, str]:
    """The commands of a page's first example, and what they print."""
    block = page.partition("```console\n")[2].partition("```")[0].splitlines()
    commands = "\n".join(it[2:] for it in block if it.startswith("$ "))
    return commands, "".join(f"{it}\n" for it in block if not it.startswith("$ "))


def commands_of_building(page: str) -> list[str]:
    """The commands of docs/C.md about building in a clone."""
    section = page.partition("**Build.**")[2].partition("<!-- end -->")[0]
    return [
        it
        for block in re.findall(r"(?ms)^```console\n(.*?)^```", section)
        for it in re.findall(r"(?m)^\$ (.*)$", block)
    ]


def command_of_consumer(page: str) -> str:
    """The command of docs/C.md that links a consumer with the library before librabbitmq."""
    (found,) = re.findall(rf"(?m)^\$ ({LINKS_CONSUMER} .*)$", page)
    return str(found)


def blocks_of_cmake(page: str, program: str = "program") -> list[str]:
    """What docs/C.md has for a project that uses CMake, and has a program of this name."""
    blocks = re.findall(r"(?ms)^```cmake\n(.*?)^```", page)
    return [it for it in blocks if f"target_link_libraries({program} " in it]


def commands_of_linking(page: str) -> tuple[list[str], str]:
    """The commands of docs/C.md about linking, and what they print."""
    section = page.partition("## Install and link")[2]
    tried, wanted, is_shown = list[str](), "", False
    for line in "\n".join(re.findall(r"(?ms)^```console\n(.*?)^```", section)).splitlines():
        if line.startswith("$ "):
            is_shown = not line[2:].startswith(NOT_RUN)
            # (once the page has the program look there by itself, nothing else does)
            tried += ["unset LD_LIBRARY_PATH"] * ("-rpath" in line) + [line[2:]] * is_shown
        elif is_shown:
            wanted += f"{line}\n" if line else ""
    return tried, wanted


# Around the blocks of docs/C.md: what they call, and what calls them on headers with a death. A block that includes the header
# is part of a file, each other the body of a function.
BEFORE = """
#include "amqp_values.h"
#include <stdio.h>
#include <stdlib.h>
static void send_bytes(const uint8_t *bytes, size_t length) {
    printf("%zu bytes from %02x\\n", length, bytes[3]);
}
"""
AFTER = """
int main(void) {
    static const uint8_t bytes[] = "\\0\\0\\0\\x26\\7x-deathA\\0\\0\\0\\x14" "F\\0\\0\\0\\xf\\5" "countl\\0\\0\\0\\0\\0\\0\\0\\3\\3keyV";
    static uint8_t buffer[256];
    printf("%d deaths\\n", (int)deaths(bytes, 42));
    printf("%zu, then %zu bytes\\n", write_arguments(buffer, 256, 7, "quorum"), write_arguments(buffer, 20, 7, "quorum"));
    size_t length = set_retries(bytes, 42, 7, buffer, 128);
    size_t again = set_retries(buffer, length, 8, buffer + 128, 128);
    printf("%zu, then %zu bytes, of which the last is %d\\n", length, again, buffer[127 + again]);
"""
PRINTED = """\
3 deaths
63, then 0 bytes
57, then 57 bytes, of which the last is 8
x-death: FieldArray
key: Void
42 bytes from 26
{"x-death":[{"count":3}],"key":null}
"""


# What a block of C includes that is about the library before librabbitmq.
INCLUDES_BEFORE = '#include "amqp_values_rabbitmq.h"'


def blocks_of_c(page: str) -> list[str]:
    return re.findall(r"(?ms)^```c\n(.*?)^```", page)


def program_of_page(page: str) -> str:
    """A program of all blocks of C of a page over the library, as docs/C.md has them."""
    blocks = [it for it in blocks_of_c(page) if not it.startswith(INCLUDES_BEFORE)]
    files = [it.replace('#include "amqp_values.h"\n', "") for it in blocks if it.startswith("#include")]
    bodies = [it for it in blocks if not it.startswith("#include")]
    functions = [
        f"static void body_{n}(const uint8_t *bytes, size_t length) {{\n{it}}}\n" for n, it in enumerate(bodies)
    ]
    called = "".join(f"    body_{n}(bytes, 42);\n" for n in range(len(bodies)))
    return "".join([BEFORE, *files, *functions, AFTER, called, "    return 0;\n}\n"])
