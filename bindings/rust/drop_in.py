#!/usr/bin/env python3
"""Makes a drop-in of the Rust crate amq-protocol-types 10.6.x: bindings/rust/drop_in.py CRATE OUT [--keep-version]

CRATE is a folder with the crate, as `cargo vendor` or cargo's registry has it, and stays as it is. OUT is made: a crate of the same
name with the same public items, which checks each array and table within limits before it parses it. Its version is one higher,
unless it is to be kept. docs/RUST.md has the line that makes a client use it.

The sources are edited by the names of their functions. If one isn't as it is known, nothing is made, and its place is printed.
OUT has copies of the crates amqp-values and amqp-values-sys, by which it checks, and of the compiled code that they link.
"""

import argparse
import re
import shutil
import sys
from pathlib import Path
from typing import NoReturn

HERE = Path(__file__).resolve().parent
TOP = HERE.parents[1]
# How a manifest asks for nom: as its author has written it, or as cargo has for its registry.
NOM = r'(?m)^(?:nom = [^"\n]*|\[dependencies\.nom\]\n(?:[^\[\n]*\n)*?version = )"[=^~]?8\b'
VERSION = r'(?m)^version = "10\.6\.(\d+)"$'
# Our modules, and the crates that they use.
MODULES = ("checked.rs", "limits.rs")
CRATES = ("amqp-values-sys", "amqp-values")
# The licences of the compiled code.
NOTICES = ("LICENSE", "THIRD-PARTY")
DEPENDENCY = '\n[dependencies.amqp-values]\nversion = "0.1.0"\npath = "amqp-values"\n'
# What cargo keeps with a crate, and would no longer be right.
LEFT_OUT = (".cargo-checksum.json", ".cargo-ok", ".cargo_vcs_info.json", "Cargo.lock", "Cargo.toml.orig", "target")
# The functions that parse arrays and tables, and call each other.
RECURSIVE = ("parse_raw_value", "parse_value", "parse_field_array", "parse_field_table")
HEADS = {
    "parse_raw_value": "pub fn parse_raw_value<I: ParsableInput>(",
    "parse_value": "pub fn parse_value<I: ParsableInput>(i: I) -> ParserResult<I, AMQPValue> {",
    "parse_field_array": "pub fn parse_field_array<I: ParsableInput>(i: I) -> ParserResult<I, FieldArray> {",
    "parse_field_table": "pub fn parse_field_table<I: ParsableInput>(i: I) -> ParserResult<I, FieldTable> {",
    "gen_short_string": "pub fn gen_short_string<'a, W: Write + 'a>(s: &'a str) -> impl SerializeFn<W> + 'a {",
}
# What their bodies become.
BODIES = {
    "parse_field_array": '    context("parse_field_array", crate::checked::parse_container::<I, FieldArray>).parse(i)\n',
    "parse_field_table": '    context("parse_field_table", crate::checked::parse_container::<I, FieldTable>).parse(i)\n',
    "gen_short_string": """\
    move |x| {
        let length = crate::checked::short_length(s)?;
        pair(gen_short_short_uint(length), slice(s.as_bytes()))(x)
    }
""",
}
WITHIN_LIMITS = """
/// The parsers of arrays and tables that were found to be within the limits.
pub(crate) mod within_limits {{
    use super::*;

{functions}}}
"""
PARSING = "pub mod parsing;"
MODULES_OF_ROOT = """\
pub mod parsing;
mod checked;
/// Limits on what is parsed.
pub mod limits;
"""


class Function:
    """A function of a source: where it begins and ends, and its head and body."""

    def __init__(self, found: re.Match[str]) -> None:
        self.begin, self.end = found.span()
        self.head, self.body = found["head"], found["body"]


class Source:
    """A source of the crate that is edited."""

    def __init__(self, crate: Path, name: str) -> None:
        self.name, path = name, crate / name
        self.text = path.read_text(encoding="utf-8") if path.is_file() else ""
        if not crate.is_dir():
            sys.exit(f"{crate}: there is no such folder")
        if not self.text:
            sys.exit(f"{name}: it isn't in {crate}")

    def unknown(self, at: int, why: str) -> NoReturn:
        sys.exit(f"{self.name}:{self.text.count(chr(10), 0, at) + 1}: {why}")

    def only(self, pattern: str, what: str) -> re.Match[str]:
        """The only match of a pattern."""
        found = [*re.finditer(pattern, self.text)]
        if len(found) != 1:
            self.unknown(found[1].start() if found else 0, f"{what} is there {len(found)} times, and not once")
        return found[0]

    def function(self, name: str) -> Function:
        """A function by its name, with the comments and the attributes above it."""
        pattern = rf"(?ms)^(?P<head>(?:(?:///|#\[)[^\n]*\n)*pub fn {name}\b.*?\{{\n)(?P<body>.*?)^\}}\n"
        found = Function(self.only(pattern, name))
        if HEADS[name] not in " ".join(found.head.split()):
            self.unknown(found.begin, f"{name} has another head, and not {HEADS[name]}")
        return found

    def replace(self, begin: int, end: int, by: str) -> None:
        self.text = self.text[:begin] + by + self.text[end:]

    def give_body(self, name: str) -> None:
        """Gives a function its new body."""
        it = self.function(name)
        self.replace(it.begin, it.end, f"{it.head}{BODIES[name]}}}\n")


def tests_of(text: str) -> int:
    """Where the tests of a source begin."""
    found = re.search(r"(?m)^#\[cfg\(test\)\]$", text)
    return found.start() if found else len(text)


def edit_manifest(manifest: Source, keeps_version: bool) -> None:
    """Raises the version unless it is kept, and adds the dependency."""
    manifest.only(r'(?m)^name = "amq-protocol-types"$', 'name = "amq-protocol-types"')
    manifest.only(NOM, "nom 8")
    version = manifest.only(VERSION, 'version = "10.6.x"')
    manifest.replace(*version.span(), f'version = "10.6.{int(version[1]) + (not keeps_version)}"')
    manifest.text += DEPENDENCY


def edit_root(root: Source) -> None:
    """Adds our modules."""
    root.only(r"(?m)^#!\[deny\([^)]*unsafe_code[^)]*\)\]$", "deny(unsafe_code)")
    root.replace(*root.only(rf"(?m)^{PARSING}\n", PARSING).span(), MODULES_OF_ROOT)


def copied(function: Function) -> str:
    """A function for the module `within_limits`."""
    lines = f"{function.head}{function.body}}}\n".replace("pub fn", "pub(crate) fn", 1).splitlines(True)
    return "".join(f"    {it}" if it.strip() else it for it in lines)


def edit_parsing(parsing: Source) -> None:
    """Has arrays and tables checked; the parsers of what was checked become a module, in which they call each other."""
    functions = [parsing.function(it) for it in RECURSIVE]
    end = tests_of(parsing.text)
    for use in re.finditer(rf"\b(?:{'|'.join(RECURSIVE)})\b(?!\")", parsing.text[:end]):
        if not any(it.begin <= use.start() < it.end for it in functions):
            parsing.unknown(use.start(), f"{use[0]} is used by another function than those that are known")
    parsing.replace(end, end, WITHIN_LIMITS.format(functions="\n".join(map(copied, functions))).lstrip("\n") + "\n")
    for name in ("parse_field_table", "parse_field_array"):
        parsing.give_body(name)


def main() -> int:
    reader = argparse.ArgumentParser(description=__doc__, formatter_class=argparse.RawDescriptionHelpFormatter)
    reader.add_argument("crate", type=Path, metavar="CRATE")
    reader.add_argument("out", type=Path, metavar="OUT")
    reader.add_argument("--keep-version", action="store_true")
    given = reader.parse_args()
    crate, out = given.crate, given.out
    if out.exists():
        sys.exit(f"{out}: it is there already")
    manifest, root = Source(crate, "Cargo.toml"), Source(crate, "src/lib.rs")
    parsing, generation = Source(crate, "src/parsing.rs"), Source(crate, "src/generation.rs")
    edit_manifest(manifest, given.keep_version)
    edit_root(root)
    edit_parsing(parsing)
    generation.give_body("gen_short_string")
    for name in (*CRATES, *(f"src/{it}" for it in MODULES)):
        if (crate / name).exists():
            sys.exit(f"{name}: it is there already, in {crate}")
    shutil.copytree(crate, out, ignore=shutil.ignore_patterns(*LEFT_OUT))
    for edited in (manifest, root, parsing, generation):
        (out / edited.name).write_text(edited.text, encoding="utf-8")
    for name in MODULES:
        shutil.copyfile(HERE / "drop_in" / name, out / "src" / name)
    for name in CRATES:
        shutil.copytree(HERE / name, out / name, ignore=shutil.ignore_patterns("tests", "examples", *LEFT_OUT))
    sys_crate = out / CRATES[0]
    shutil.copytree(TOP / "generated", sys_crate / "generated", ignore=shutil.ignore_patterns("wasm"))
    for name in NOTICES:
        shutil.copyfile(TOP / name, sys_crate / name)
    return 0


if __name__ == "__main__":
    sys.exit(main())
