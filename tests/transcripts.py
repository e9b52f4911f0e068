r"""Parses transcripts, *.t of tests/show and examples/c, into `cases`: what is typed, and what a program then prints.

    stream_no_hex
      $ echo 74 01 zz | amqp_show --stream --hex
      Boolean true
      = a value of 2 bytes at 0
      2> amqp_show: "-": line 1, column 7: no hexadecimal
      [2]

A case has a name of letters, digits and `_`, and one command, which a shell takes as it is. Standard input is what
`echo` or `printf` writes, or a here-document, whose lines begin with `> `; after `xxd -r -p` it is the bytes that
these digits denote; otherwise it is empty. `NAME=VALUE` before the program is a variable. `>/dev/tty` makes standard
output a terminal, `>/dev/full` a device that is full, and `| true` a pipe that nobody reads. Lines that begin with `#`
are comments.

Below the command are the lines of standard output, those of standard error, each after `2> `, and the exit status in
brackets if it isn't 0. A line that ends with ` (no-eol)` has no line end, and one that ends with ` (esc)` has escapes,
such as `\x1b`. It is written so if not all of it is printable, or if it can be taken for something else, such as
`[1] (esc)`.
"""

import re
import shlex
from collections.abc import Iterator, Mapping
from dataclasses import dataclass
from enum import Enum
from itertools import takewhile
from pathlib import Path

# A case: its name, its command, its here-document, and its output.
CASE = re.compile(r"^(\w+)\n  \$ (.*)\n((?:  > ?.*\n)*)((?:\n*  .*\n)*)", re.MULTILINE)
# A word with escapes.
WITH_ESCAPES = re.compile(r"\$'((?:[^'\\]|\\.)*)'")
# Lines of output that are written with escapes although all of them is printable.
MISTAKEN = re.compile(r"2?>|\[\d+\]$|.*(?:\s| \(esc\)| \(no-eol\))$")


class Malformed(Exception):
    """A transcript that isn't one."""


class Output(Enum):
    """What standard output is."""

    PIPE = ""
    TERMINAL = "/dev/tty"
    FULL = "/dev/full"
    CLOSED = "| true"


@dataclass(frozen=True)
class Ending:
    """What a program wrote to standard output and to standard error, and its exit status."""

    out: bytes
    error: bytes
    status: int

    def lines(self) -> list[str]:
        """What a transcript has of it."""
        errors = [f"2> {it}".rstrip() for it in _lines(self.error)]
        lines = [*_lines(self.out), *errors, *[f"[{self.status}]"] * (self.status != 0)]
        # an empty line at the end would be one between two cases
        return [*lines[:-1], lines[-1] or " (esc)"] if lines else []


@dataclass(frozen=True)
class Case:
    """A case: its name, the program and its words, its variables, what comes in, and how it has to end."""

    name: str
    program: str
    words: tuple[str, ...]
    variables: Mapping[str, str]
    given: bytes
    output: Output
    wants: Ending


def cases(place: Path) -> dict[str, Case]:
    """The cases of a transcript, or of those of a folder, in order, by their names. They have one program."""
    found: dict[str, Case] = {}
    for case in (_case(it) for path in sorted(place.glob("*.t")) or [place] for it in _matches(path)):
        if case.name in found:
            raise Malformed(f"two cases are called {case.name}")
        found[case.name] = case
    if len(programs := {it.program for it in found.values()}) != 1:
        raise Malformed(f"the cases of {place.name} have one program, and not {sorted(programs)}")
    return found


def rewritten(text: str, endings: Mapping[str, Ending]) -> str:
    """A transcript whose cases end so, by their names."""

    def with_ending(found: re.Match[str]) -> str:
        lines = [f"  {it}" if it else "" for it in endings[found[1]].lines()]
        return text[found.start() : found.start(4)] + "".join(f"{it}\n" for it in lines)

    return CASE.sub(with_ending, text)


def _matches(path: Path) -> Iterator[re.Match[str]]:
    """The cases of a transcript, which has nothing else but comments."""
    text = path.read_text()
    if others := [it for it in CASE.sub("", text).splitlines() if it and not it.startswith("#")]:
        raise Malformed(f"{path.name}: it is part of no case: {others[0]}")
    return CASE.finditer(text)


def _case(found: re.Match[str]) -> Case:
    """The case that a part of a transcript has."""
    name, command, document, output = found.groups()
    tokens, lines = _tokens(command), [it[4:] for it in document.split("\n")[:-1]]
    end, to = _taken(tokens, "<<"), Output(_taken(tokens, ">"))
    if lines[-1:] != [end] * bool(end):
        raise Malformed(f"{name}: its here-document doesn't end as its command says")
    if tokens[-2:] == ["|", "true"]:
        to, tokens = Output.CLOSED, tokens[:-2]
    given = "".join(f"{it}\n" for it in lines[:-1]).encode()
    while "|" in tokens:
        at = tokens.index("|")
        given, tokens = _written(tokens[:at], given), tokens[at + 1 :]
    named = [*takewhile(lambda it: "=" in it, tokens)]
    variables = {name: value for name, _, value in (it.partition("=") for it in named)}
    program, *words = tokens[len(named) :] or [""]
    return Case(name, program, tuple(words), variables, given, to, _ending(output))


def _tokens(command: str) -> list[str]:
    """The words of a command and its signs."""
    plain = WITH_ESCAPES.sub(lambda it: shlex.quote(_unescaped(it[1]).decode()), command)
    reader = shlex.shlex(plain, posix=True, punctuation_chars="|<>")
    reader.whitespace_split, reader.commenters = True, ""
    return [*reader]


def _taken(tokens: list[str], sign: str) -> str:
    """Takes a sign and the word after it from a command, and returns that word; if it isn't there, nothing."""
    if sign not in tokens:
        return ""
    at = tokens.index(sign)
    _, word = tokens.pop(at), tokens.pop(at)
    return word


def _written(words: list[str], given: bytes) -> bytes:
    """What a command that comes before the program writes."""
    match words:
        case ["echo", *said]:
            return f"{' '.join(said)}\n".encode()
        case ["printf", form]:
            return _unescaped(form)
        case ["xxd", "-r", "-p"]:
            return bytes.fromhex(given.decode())
    raise Malformed(f"no command that writes a case's input: {shlex.join(words)}")


def _ending(output: str) -> Ending:
    """The ending that a transcript has."""
    lines = [it.removeprefix("  ") for it in output.split("\n")[:-1]]
    status = int(lines.pop()[1:-1]) if lines and re.fullmatch(r"\[\d+\]", lines[-1]) else 0
    errors = [*takewhile(lambda it: it.startswith("2>"), reversed(lines))][::-1]
    out = lines[: len(lines) - len(errors)]
    return Ending(b"".join(map(_line, out)), b"".join(_line(it[3:]) for it in errors), status)


def _lines(data: bytes) -> list[str]:
    """The lines of a transcript that have these bytes."""
    *whole, rest = map(_shown, data.split(b"\n"))
    return [*whole, *[f"{rest} (no-eol)"] * (rest != "")]


def _shown(data: bytes) -> str:
    """A line as a transcript has it, by which `_line` reads it."""
    text = data.decode(errors="replace")
    if text.encode() == data and text.isprintable() and not MISTAKEN.match(text):
        return text
    escaped = data.decode("latin-1").encode("unicode_escape").decode()
    return escaped.replace(">", r"\x3e") + " (esc)"


def _line(line: str) -> bytes:
    """The bytes of a line of output in a transcript."""
    text = line.removesuffix(" (no-eol)")
    plain = text.removesuffix(" (esc)")
    data = plain.encode() if plain == text else _unescaped(plain)
    return data + b"\n" * (text == line)


def _unescaped(text: str) -> bytes:
    """The bytes of what has escapes."""
    return text.encode().decode("unicode_escape").encode("latin-1")
