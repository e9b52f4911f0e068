#!/usr/bin/env python3
"""Checks the pages against the sources, and which source may use which: tests/pages.py

What a page names exists: files, links, functions, definitions, clauses, targets of make, suites. Code that a page quotes is in
a source file. No page, comment or message has a word of this project's own. docs/PROMISES.md lists the file of each public
call, which has a comment. Each public function of a library has a mutant (tests/mutants.py). Each call that may run out of memory
is made with much. A crate uses only what is below it, and no module one that uses it. No source makes up that memory ran out
(tests/false_oom.py). Numbers that are repeated are those of where they are made (tests/figures.py). Other suites run the
commands that pages show.
"""

import ast
import re
import subprocess
import sys
from collections.abc import Collection, Iterator
from functools import cache
from os.path import commonprefix
from pathlib import Path
from typing import NamedTuple

TOP = Path(__file__).resolve().parent.parent
sys.path[:0] = [str(TOP), str(TOP / "packaging"), str(TOP / "bench")]

from dependencies import Crates  # noqa: E402

from tests import false_oom, figures  # noqa: E402

PROMISES, VERIFICATION, CONTRIBUTING = "docs/PROMISES.md", "docs/VERIFICATION.md", "CONTRIBUTING.md"
DIFFERENCES, SHOWN = "docs/DIFFERENCES.md", "crates/test_calls/data/differences.calls"
# A name, as sources, definitions and C have them; what is in backquotes; a path; a file of specs/, in italics; a link.
WORD = r"[A-Za-z_][A-Za-z0-9_]*"
QUOTED, PATH = re.compile(r"`([^`]+)`"), re.compile(r"[\w.*+-]*/[\w./*+-]*")
ITALIC, LINK = re.compile(r"(?<!\*)\*([A-Z]\w*)\*(?!\*)"), re.compile(r"\]\(([^)\s]+)\)")
# The files whose names pages use, and the names that aren't the project's: of programs, the Rust crate, other languages.
SOURCES = ("crates/*/src/**/*.rt", "crates/*/proofs/**/*.antt", "crates/*/specs/**/*.antt", "include/*.h", "c/*.c")
BINDINGS = """examples/**/*.[ch] bindings/**/*.rs bindings/python/**/*.[chp]* packaging/amqp_*
    Makefile vectors/*.py vectors/schema.json""".split()
NOT_OURS = set(
    """git nm ryu venv BCC FetchContent add_subdirectory CC_aarch64_unknown_linux_gnu inf mine MINE PYTHONPATH UseNumber time_t memmove memset HANDLES Compare CompareResult Default SerializeFn readTable
    writeTable amqp_ IsBounded length_of_text ctypes TryFrom AMQ_PROTOCOL_TYPES crates/arguments/src/main.rt codecs""".split()
)
# The folders from which a page may name a file.
FOLDERS = ("", "crates/", "crates/*/", "bindings/rust/*/", "generated/", "vectors/")
# The code of which README.md has paragraphs, and the first of it the comments of items; docs/VERIFICATION.md and CALLING.md have
# those of SOURCES.
EXAMPLES = ("crates/examples/src/*.rt", "examples/c/*.c", "bindings/rust/amqp-values/examples/*.rs")
# What calls public functions, outside of the crates.
CALLERS = """include/*.h c/*.c bindings/**/*.rs bindings/**/*.[chp]* examples/**/*.c tests/**/*.c tests/**/*.py
    crates/test_calls/data/*.calls""".split()
# The crates whose public calls docs/PROMISES.md is about, and whose functions have mutants.
LIBRARIES = "amqp_value_core amq_protocol_types amqp_in_place amqp_json amqp_c amqp_c_alloc".split()
# The functions and modules that can't have a mutant, and why.
UNTRIED = {
    "laws": "what a law states is proved of definitions; its body is empty",
    "FieldTable::inner": "there is no other map that it could return a reference to",
    "FieldTable::insert": "its proof, written by hand, follows this body; `lend`, which it calls, has one",
    "NeededDisplay::fmt": "its contract doesn't state the text",
}
# Words that a reader would have to ask for, and what is written instead; of the second only on pages for users.
PRIVATE = {
    "(?i:calls) for C\\b": "the C API",
    "\\b(?i:but) for\\b": "except, or except for",
    "(?i:wrong) bodies": "mutants",
    "(?i:departure)": "difference",
    "\\b(?i:the) gate\\b": "CI",
    "Rattle kit\\b": "Rattle toolchain",
}
PRIVATE_TO_SOURCES = {
    "(?i:the) kit\\b": "the toolchain",
    "\\b(?i:the|a) model\\b": "the reference implementation",
    "(?i:wrong) body": "mutant",
    "\\b(?i:landing)\\b": "merge",
}
FOR_MAINTAINERS = ("CONTRIBUTING.md", "docs/DECISIONS.md")
COMMENT = re.compile(r"(?m)^[ \t]*//.*$|(?:^|[ \t])-- .*$")
# The head of a definition or a field; that of a function; the block of a method; a clause that has a name.
DEFINITION = rf"(?m)^\s*(?:(?:abbrev|pub|data|record|opaque|unfoldable|mutual)\s+)*({WORD})\s*[:({{]"
FUNCTION = rf"(?m)^( *)(pub )?(?:pub\(crate\) )?(?:extern \"C\" )?fn ({WORD})"
BLOCK = re.compile(rf"(?m)^((?:pub )?(?:impl|trait))\b(?:<[^>]*>)? ({WORD})([^{{;]*)\{{$")
CLAUSE = rf"\bensures\*? ({WORD}) ?\{{"
TYPE = rf"(?m)^pub (?:struct|enum|trait) ({WORD})"
# Where the body of a function begins.
BODY = re.compile(r"(?m)^ *\{|\{$")
# A call in backquotes, by the last part of its name.
CALL = rf"`(?:{WORD}::)*({WORD})(?:\([^`]*\))?`"


def files(*patterns: str) -> list[Path]:
    return sorted(it for pattern in patterns for it in TOP.glob(pattern) if it.is_file())


@cache
def read(path: Path) -> str:
    return path.read_text(errors="replace")


def code(*paths: Path) -> str:
    """Sources without their comments; each line keeps its number."""
    return "\n".join(COMMENT.sub("", read(it)) for it in paths)


def words(text: str) -> set[str]:
    return {*re.findall(WORD, text)}


def tracked(pattern: str) -> list[Path]:
    """The files that git tracks."""
    done = subprocess.run(["git", "ls-files", pattern], cwd=TOP, capture_output=True, text=True, check=True)
    return [TOP / it for it in done.stdout.split("\n") if it]


def place(path: Path, text: str, at: int) -> str:
    """The file and the line of a place in its text."""
    return f"{path.relative_to(TOP)}:{text.count(chr(10), 0, at) + 1}"


# What a page names exists.


def is_file(name: str) -> bool:
    """Whether a path that a page names leads to a file; NAME stands for any. What is outside of the repository isn't looked for."""
    pattern = re.sub(r"\b(?:NAME|PROGRAM)\b", "*", name).rstrip("/")
    return name[0] == "/" or any(it for folder in FOLDERS for it in TOP.glob(folder + pattern))


def is_target(page: Path, link: str) -> bool:
    """Whether a link leads to a file, and to a heading if it names one."""
    name, _, heading = link.partition("#")
    path = page.parent / name if name else page
    heads = re.findall(r"(?m)^#+ (.*)$", read(path)) if heading and path.exists() else [""]
    return path.exists() and heading in [re.sub(r"[^\w\- ]", "", it.lower()).replace(" ", "-") for it in heads]


def unknown_commands(command: str) -> Iterator[str]:
    """Yields what a command names of this repository and isn't there."""
    makefiles = read(TOP / "Makefile") + read(TOP / ".ci/steps.mk")
    lists = re.findall(r"(?m)^(?:OVER_\w+|ALONE) := (.*)", makefiles)
    suites = {f"test-{it.removeprefix('test-')}" for names in lists for it in names.split()}
    for target in re.findall(r"\bmake(?: -\S+)* ([a-z][a-z-]*)", command):
        if target not in suites and not re.search(rf"(?m)^{target}:", makefiles):
            yield f"there is no target {target}: make help lists them"
    for folder, module in re.findall(r"\btests/run (?!NAME)(\w+)/?([\w-]*)", command):
        if not files(f"tests/{folder}/test_{module.replace('-', '_') or '*'}.py"):
            yield f"there is no suite {folder}{module and f'/{module}'}: tests/run lists them"
    for script in re.findall(r"(?:^|&& |sudo )((?:\.ci|tests|packaging|bindings|bench)/[\w./-]+)(?= |$)", command):
        if not is_file(script):
            yield f"there is no {script}: name a script that is there"


def missing() -> Iterator[str]:
    """Yields the files, links, names and commands of pages that aren't there."""
    known = {it for path in files(*SOURCES, *BINDINGS) for it in words(read(path))} | NOT_OURS
    known |= {it.name for it in TOP.glob("crates/*")} | {it.stem for it in files("examples/**/*")}
    for page in tracked("*.md"):
        # (blocks of code and quotations keep their lines)
        prose = re.sub(r"(?ms)^```.*?^```", lambda it: "\n" * it[0].count("\n"), read(page))
        for number, (line, shown) in enumerate(zip(prose.splitlines(), read(page).splitlines()), 1):
            quoted, is_quotation, at = QUOTED.findall(line), line.startswith("> "), f"{page.relative_to(TOP)}:{number}"
            for it in quoted if not is_quotation else ():
                if re.fullmatch(rf"{WORD}(?:::{WORD})*", it) and not {*it.split("::")} <= known:
                    yield f"{at}: no source has the name {it}: correct it, or add it to NOT_OURS of tests/pages.py"
                if PATH.fullmatch(it) and it not in known and not is_file(it):
                    yield f"{at}: there is no file {it}: name it from the top of the repository or of a crate"
            # (next to a page of packaging/ is what a release has)
            for it in LINK.findall(line) if page.parent.name != "packaging" else ():
                if "://" not in it and not is_target(page, it):
                    yield f"{at}: the link {it} leads to no file or heading: correct it"
            for it in ITALIC.findall(line) if page == TOP / PROMISES else ():
                if not files(f"crates/*/specs/**/{it}.antt"):
                    yield f"{at}: there is no file {it}.antt in a crate's specs/: correct the name"
            for command in [shown[2:]] if shown.startswith("$ ") else quoted:
                yield from (f"{at}: {it}" for it in unknown_commands(command))


def wrong_lengths() -> Iterator[str]:
    """Yields the files of specs/ that a list of them gives another number of lines: without comments, imports and blank ones."""
    for path in files("crates/*/specs/**/*.antt"):
        for lines, name in re.findall(r"\((\d+) lines\)\npub mod (\w+)", read(path)):
            at = path.parent / (path.stem if path.stem != "Lib" else "") / f"{name}.antt"
            count = len(re.findall(r"(?m)^(?! *(?:--|(?:pub )?use |$))", read(at)))
            if count != int(lines):
                yield f"{path.relative_to(TOP)}: {name} has {count} lines, and not {lines}: correct the number"


# Code that a page quotes is in a source.


def plain(text: str) -> str:
    """Code on one line, however it was laid out."""
    return re.sub(r"(?<=[(\[{]) |,? (?=[)\]}])", "", " ".join(text.split()))


def misquoted() -> Iterator[str]:
    """Yields the paragraphs of quoted code that no source has."""
    of_crates = [TOP / VERIFICATION, *files("crates/*/CALLING.md")]
    for pages, languages, forms in (
        ([TOP / "README.md"], "rust|c", EXAMPLES),
        (of_crates, "rust|antt", SOURCES[:3]),
        (files("crates/*/src/**/*.rt"), "rust", EXAMPLES[:1]),
    ):
        sources = [plain(read(it)) for it in files(*forms)]
        for page in pages:
            # (comments keep their lines)
            text = re.sub(r"(?m)^ *//[!/] ?|^(?! *//[!/]).*", "", read(page)) if page.suffix == ".rt" else read(page)
            for block in re.finditer(rf"```(?:{languages})\n(.*?)```", text, re.DOTALL):
                # (tests/run vendor runs the program of a page)
                for part in block[1].split("\n\n") if "fn main(" not in block[1] else ():
                    if not any(plain(part) in it for it in sources):
                        at = place(page, text, block.start())
                        yield f"{at}: no source has '{plain(part)[:60]}': copy it from {' or '.join(forms)}"


def private() -> Iterator[str]:
    """Yields the words that only their authors know, wherever they are, and on pages those of PRIVATE_TO_SOURCES too."""
    for path in (it for it in tracked("*") if it.is_file() and it != Path(__file__).resolve()):
        is_page = path.suffix == ".md" and str(path.relative_to(TOP)) not in FOR_MAINTAINERS
        for word, instead in (PRIVATE | PRIVATE_TO_SOURCES if is_page else PRIVATE).items():
            # (a line may end between two words, and the next one begin as a comment)
            for it in re.finditer(word.replace(" ", r"(?: |\W*\n\W*)"), read(path)):
                yield f"{place(path, read(path), it.start())}: '{it[0]}' is a word of this project: write {instead}"


def unlisted() -> Iterator[str]:
    """Yields what differs from the Rust crate by docs/DIFFERENCES.md or by differences.calls, and not by the other."""
    section = read(TOP / DIFFERENCES).partition("\n## From the Rust crate")[2].partition("\n## ")[0]
    told = {it.strip() for it in re.findall(r"(?m)^\| (?!There \|)(.*?)(?<!\\)\|", section)}
    shown = {*re.findall(r"(?m)^# - (.*)$", read(TOP / SHOWN))}
    for name, other, lacks in ((DIFFERENCES, SHOWN, told - shown), (SHOWN, DIFFERENCES, shown - told)):
        yield from (f"{name}: '{it}' isn't in {other}: add it there, or take it out here" for it in sorted(lacks))


# docs/PROMISES.md lists the file of each public call, whose comment says in words what its contract states.


class Call(NamedTuple):
    """A function: where it is, the type whose method it is, its name, also after that of its type or module, its arguments and
    result, and its clauses that have a name."""

    at: str
    start: int
    type: str
    name: str
    path: str
    # whether callers of the crate reach it by its name; whether it has a body; whether it is that of a trait for a type
    is_public: bool
    has_body: bool
    is_of_trait: bool
    head: str
    clauses: list[str]


class Crate:
    """The functions of a crate, the names in its sources, and those of its definitions, functions and types."""

    def __init__(self, name: str) -> None:
        lib, sources = files(f"crates/{name}/src/lib.rt"), files(f"crates/{name}/src/**/*.rt")
        modules = [lib[0].with_name(f"{it}.rt") for it in re.findall(r"(?m)^pub mod (\w+);", code(*lib))]
        exports = re.findall(r"pub use ([^;]+);", code(*lib, *(it for it in modules if it.exists())))
        exported = words(re.sub(r"\w+::", "", " ".join(exports)))
        exported |= {*re.findall(TYPE, code(*(it for it in modules if it.exists())))}
        self.calls = [call for it in sources for call in calls_in(it, exported, it in [*lib, *modules])]
        definitions = {*re.findall(DEFINITION, code(*files(f"crates/{name}/specs/**/*.antt")))}
        self.words = words(code(*sources)) | definitions
        self.defined = definitions | {it for it in self.words if it[0].isupper()} | {it.name for it in self.calls}


def calls_in(path: Path, exported: Collection[str], is_module: bool) -> Iterator[Call]:
    """Yields the functions of a file; a method is public if its type is."""
    text = code(path)
    found = [*re.finditer(FUNCTION, text)]
    for it, after in zip(found, [*(it.start() for it in found[1:]), len(text)]):
        block = [None, *BLOCK.finditer(text, 0, it.start())][-1] if it[1] else None
        is_public = bool(it[2] or block and block[1] == "pub trait")
        is_of_trait = bool(block and " for " in block[3])
        is_reached = not is_of_trait and block[2] in exported if block else is_module or it[3] in exported
        whole = text[it.end() : after]
        head = " ".join(re.split(r"\b(?:requires|ensures)\b|\{|;\n", whole)[0].split())
        own = owner_of(block[2] + block[3]) if block else path.parent.parent.name if path.stem == "lib" else path.stem
        names, has_body = (block[2] if block else "", it[3], f"{own}::{it[3]}"), BODY.search(whole.partition("\n}")[0])
        kinds = is_public and is_reached, bool(has_body), is_of_trait
        yield Call(place(path, text, it.start(3)), it.start(), *names, *kinds, head, re.findall(CLAUSE, whole))


def owner_of(head: str) -> str:
    """What `rt check` calls the type of a block, or a trait for a type, as `VecU8Output` of `Output for Vec<u8>`."""
    trait, _, type_ = head.rpartition(" for ")
    if not trait:
        return words_of(head)[0]
    return ("".join(words_of(type_)) or "Any") + "".join(words_of(trait))


def words_of(text: str) -> list[str]:
    """The words of a type, each with a capital: not the modules, lifetimes and parameters, which have one letter."""
    text = re.sub(r"\w+::", "", text.replace("&", "Ref "))
    return [it[0].upper() + it[1:] for it in re.findall(rf"(?<!')\b{WORD}", text) if len(it) > 1]


def wrong_clauses() -> Iterator[str]:
    """Yields the clauses that docs/PROMISES.md explains and no call has, and public calls whose file it doesn't list, or that have
    no comment."""
    crates, page = {it: Crate(it) for it in Crates().below}, read(TOP / PROMISES)
    clauses = {name for crate in crates.values() for call in crate.calls for name in call.clauses}
    known = clauses | {name for crate in crates.values() for name in crate.defined}
    table = page.partition("|Words|Clause|Meaning|\n")[2].partition("\n\n")[0]
    for row in table.splitlines()[1:]:
        for it in QUOTED.findall(row.split("|")[2]):
            if it not in known:
                yield f"{PROMISES}: no call has a clause {it}, and no source defines it: correct the row of {row.split('|')[1]}"
    listed = [f"crates/{it}" for it in QUOTED.findall(page) if "/src" in it]
    for call in (it for name in LIBRARIES for it in crates[name].calls if it.is_public):
        name, _, line = call.at.partition(":")
        if not any(name == it or name.startswith(f"{it}/") for it in listed) and not name.endswith("/laws.rt"):
            yield f"{call.at}: {PROMISES} doesn't list this file, of {call.name}: add it where the contracts are"
        before = [it.strip() for it in read(TOP / name).splitlines()[: int(line) - 1]]
        if not [it for it in before if not it.startswith("#[")][-1].startswith("///"):
            yield f"{call.at}: {call.name} has no comment: say in words what its contract states"


def uncalled() -> Iterator[str]:
    """Yields public functions of libraries, laws apart, whose name no other crate, binding, test or row has."""
    outside = words("".join(map(read, files(*CALLERS))))
    for name in LIBRARIES:
        others = (it for it in files("crates/*/src/**/*.rt") if it.relative_to(TOP).parts[1] != name)
        called = outside | words(code(*others))
        for call in Crate(name).calls:
            if call.is_public and call.name not in called and "/laws.rt:" not in call.at:
                yield f"{call.at}: nothing outside of {name} calls {call.name}: call it in a test, or delete it"


# Each public function of a library has a mutant.


def tried(name: str) -> set[str]:
    """The functions of a crate that have a mutant, each after its type or module."""
    folder = TOP / "crates" / name
    found = {"::".join(it.split("::")[-2:]) for it in re.findall(r"(?m)^refused: (.*)", read(folder / "mutants"))}
    for edit in files(f"crates/{name}/must-fail/*.edit"):
        lines = dict(it.partition(": ")[::2] for it in read(edit).splitlines())
        source = folder / lines["file"]
        before = [it.path for it in calls_in(source, (), True) if it.start < code(source).find(lines["old"])]
        found |= {*before[-1:]}
    return found


def untried() -> Iterator[str]:
    """Yields the public functions of the libraries, and those of traits for their types, that have no mutant."""
    calls = [
        (name, it) for name in LIBRARIES for it in Crate(name).calls if it.has_body and it.is_public | it.is_of_trait
    ]
    has = {(name, path) for name in LIBRARIES for path in tried(name)}
    lacks = [(name, it) for name, it in calls if (name, it.path) not in has]
    excused = {path for _, it in lacks for path in (it.path, it.path.partition("::")[0])} & {*UNTRIED}
    for name, it in lacks:
        if not {it.path, it.path.partition("::")[0]} & excused:
            yield f"{it.at}: {it.path} has no mutant: add one to crates/{name}/mutants"
    for path in {*UNTRIED} - excused:
        yield f"tests/pages.py: {path} has a mutant, or isn't there: take it out of UNTRIED"


# What is used is below.

# A path to what the same crate has, or to several such, in code, a contract or a proof; and one by which a module passes on
# what another has.
CITED = re.compile(r"\b(?:(crate|self|super(?:::super)*)::|Rattle\.(\w+)\.)((?:\w+(?:::|\.))*)(?:\{([^}]*)\}|(\w+))")
PASSED_ON = re.compile(r"(?m)^pub(?:\(crate\))? use [\w:.]*(?:\{[^}]*\})?")
# What has to be defined by each other: an array and a table have values, and a value may be either.
RECURSIVE = {("src/types/field_array", "src/value"), ("src/types/field_table", "src/value")}
# The modules in Python, and the folders that they are imported from, as pyproject.toml has it, and the package's.
PYTHON = [f"{it}/**/*.py" for it in ("bench", "bindings", "packaging", "tests", "vectors")]
IMPORTED_FROM = ("", "bench/", "packaging/", "vectors/", "bindings/python/")


def wrong_figure() -> Iterator[str]:
    """Yields the crates that the figure of CONTRIBUTING.md has otherwise than crates.txt, or not above what they use."""
    crates, layers, layer = Crates(), dict[str, int](), 0
    for number, line in enumerate(read(TOP / CONTRIBUTING).splitlines(), 1):
        found = re.fullmatch(rf"(\d?) +({WORD})((?: +{WORD})*)(?: +#.*)?", line)
        if found and (name := found[2]) in crates.below:
            layers[name] = layer = int(found[1] or layer)
            if {*crates.needed(*found[3].split())} != {*crates.needed(*(below := crates.below[name]))}:
                yield f"{CONTRIBUTING}:{number}: by crates.txt {name} uses {' '.join(below) or 'no crate'}: write that"
    for name, below in crates.below.items():
        if name not in layers or max((layers.get(it, 0) for it in below), default=0) >= layers[name]:
            yield f"{CONTRIBUTING}: the figure has to have {name}, in a layer above what it uses: {' '.join(below)}"


def cited(crate: str, own: str, text: str, modules: Collection[str]) -> Iterator[tuple[int, str]]:
    """Yields the places in its crate that a module cites, as src/parsing/values/parse_value, each after the line."""
    below = "|".join(it.rpartition("/")[2] for it in modules if it.rpartition("/")[0] == own) or "$^"
    text = re.sub(rf"(?<![\w:.])({below})::", r"self::\1::", text)
    for it in (it for it in CITED.finditer(text) if it[2] in (None, crate)):
        above = own.split("/") if it[1] and it[1] != "crate" else []
        steps = above[: len(above) - (it[1] or "").count("super")] + re.findall(r"\w+", it[3])
        if steps[:2] in (["specs", "declared"], ["specs", "contracts"]):
            steps[:2] = ["src"]
        whole = steps if steps[:1] in (["src"], ["specs"], ["proofs"]) else ["src", *steps]
        for name in re.findall(r"[\w:]+", it[4] or it[5] or ""):
            yield text.count("\n", 0, it.start()) + 1, "/".join([*whole, *name.split("::")])


def uses_in(crate: str) -> dict[str, dict[str, str]]:
    """What each module of a crate uses of src/, or of specs/ and proofs/, as it does itself, each with the file and line."""
    paths = files(*(f"crates/{crate}/{it}" for it in ("src/**/*.rt", "specs/**/*.antt", "proofs/**/*.antt")))
    names = (it.relative_to(TOP / "crates" / crate).with_suffix("").as_posix() for it in paths)
    modules = {re.sub("/(lib|main|Lib)$", "", it): path for it, path in zip(names, paths)}
    passed, found = dict[str, str](), {it: dict[str, str]() for it in modules}
    for own, path in modules.items():
        lines = "\n".join(PASSED_ON.findall(code(path)))
        passed |= {f"{own}/{it.rpartition('/')[2]}": it for _, it in cited(crate, own, lines, modules)}
    for own, path in modules.items():
        text = PASSED_ON.sub(lambda it: "\n" * it[0].count("\n"), code(path))
        for line, it in cited(crate, own, text, modules):
            while it not in modules:
                it = passed.get(it) or it.rpartition("/")[0]
            if it != own and it.startswith("src") == own.startswith("src") and (own, it) not in RECURSIVE:
                upper, lower = own.split("/"), it.split("/")
                apart = len(commonprefix([upper, lower])) + 1
                # (to those outside, a module and what is below it are one)
                for user, used in ((own, it), ("/".join(upper[:apart]), "/".join(lower[:apart]))):
                    found.setdefault(user, {}).setdefault(used, f"{path.relative_to(TOP)}:{line}")
    return found


def imported() -> dict[str, dict[str, str]]:
    """What each module in Python imports of the others, each with the file and line."""
    modules = {it.relative_to(TOP).with_suffix("").as_posix(): it for it in files(*PYTHON)}
    found = {it: dict[str, str]() for it in modules}
    for own, path in modules.items():
        for it in ast.walk(ast.parse(read(path))):
            of = f"{it.module}." if isinstance(it, ast.ImportFrom) else ""
            names = [f"{of}{each.name}" for each in it.names] if isinstance(it, ast.Import | ast.ImportFrom) else []
            for name in (each for name in names for each in (name, of.rstrip("."))):
                for used in (f"{root}{name.replace('.', '/')}" for root in IMPORTED_FROM):
                    if used in modules:
                        found[own].setdefault(used, f"{path.relative_to(TOP)}:{it.lineno}")
    return found


def circular() -> Iterator[str]:
    """Yields the modules that use, even indirectly, a module that uses them, each circle once."""
    for uses in (*map(uses_in, Crates().below), imported()):
        told = set[str]()
        for own in uses:
            ways, todo = dict[str, list[str]](), [[own]]
            for way in todo:
                for it in sorted(uses.get(way[-1], {}).keys() - ways):
                    ways[it] = [*way, it]
                    todo.append(ways[it])
            if own in ways and told.isdisjoint(ways[own]):
                told |= {*ways[own]}
                yield f"{uses[own][ways[own][1]]}: {' uses '.join(ways[own])}: move what they share to a module of its own"


# Each call of C, Python and Rust that may run out of memory is made with a mebibyte in a test that names it.

# Where the calls are listed, each by its name; and the file whose test_much_memory makes them.
BOUND = (
    ("include/*.h", r"AMQPV_NO_MEMORY(?:(?!\*/)[^{])*\*/\namqpv_result amqpv_(\w+)", "tests/c/test_by_model.py"),
    ("bindings/python/src/module.c", r"(?m)^    CALL\(\s*(\w+),", "tests/python/test_package.py"),
    ("bindings/python/src/codec.c", r"\{\"(\w+)\", (?:\(PyCFunction|\w+, METH_)", "tests/python/test_package.py"),
    (
        "bindings/rust/*/src/*.rs",
        r"Error::OutOfMemory`\](?:(?!pub fn)[^{}])*pub fn (\w+)\(",
        "bindings/rust/amqp-values/tests/reading.rs",
    ),
)
MUCH = r"(?ms)^(?:def|fn) test_much_memory\b.*?(?=^\S|\Z)"


def allocating() -> Iterator[str]:
    """Yields the calls that may run out of memory and aren't made with much."""
    for source, pattern, test in BOUND:
        tests = "".join(it[0] for it in re.finditer(MUCH, read(TOP / test)))
        names = re.findall(pattern, "".join(map(read, files(source))))
        if not names:
            yield f"{source}: no call is found that may run out of memory: correct the pattern in tests/pages.py"
        for name in (it for it in names if not re.search(rf"\b{it}\(", tests)):
            yield f"{source}: {name} may run out of memory: call it in test_much_memory of {test}, with 1 MiB"


# Each call of Rattle that may run out of memory is made with as much, by crates/test_large.

# The crates whose calls these are; those of C are in BOUND. What a call's result has that may run out of memory, or, if it is
# passed an allocator, what that of a parser has.
OF_RATTLE = "amqp_value_core amq_protocol_types amqp_in_place amqp_json".split()
MAY_RUN_OUT = (
    r"\bGenResult\b|\bResult<.*\b(?:AllocError|TryCopyError|GenError|StreamError|EncodeError|DecodeError|JsonError)>"
)
PARSED = r"\bParserResult<|\bParserError>"
# The calls that it doesn't make, and why; and those that it makes with less.
NOT_MADE = {
    "json_of_view": "json_of_encoding makes it, with as much; a call of it alone needs a proof of what it requires",
    "IoOutputOutput": "only a buffer without fixed capacity returns OutOfMemory, by clause `memory` of `Writes`",
    "SliceOutputOutput": "the same",
    "SliceOutputBackToTheBuffer": "the same",
}
WITH_LESS = {
    "ShortString::try_copy": "a short string has at most 255 bytes: it is made with so many",
    "ShortString::clone": "the same",
    "parse_short_string": "the same",
}
LARGE = "crates/test_large"


def may_run_out(call: Call) -> bool:
    """Whether a function's head says that memory may run out."""
    arguments, _, returned = call.head.partition("->")
    return bool(re.search(MAY_RUN_OUT, returned) or "alloc: Global" in arguments and re.search(PARSED, returned))


def not_with_much() -> Iterator[str]:
    """Yields the calls of Rattle that may run out of memory and have no line in crates/test_large; and wrong lines and reasons."""
    calls = [it for name in OF_RATTLE for it in Crate(name).calls if it.has_body and it.is_public | it.is_of_trait]
    may = {it.path if it.type else it.name: it for it in calls if may_run_out(it)}
    made, source = read(TOP / LARGE / "stdin").split(), code(*files(f"{LARGE}/src/*.rt"))
    reasons = {path for path in may for path in (path, path.partition("::")[0])} & {*NOT_MADE, *WITH_LESS}
    for path, it in may.items():
        if path.partition("::")[0] not in NOT_MADE and not (path in made and re.search(rf"\b{it.name}\(", source)):
            yield f"{it.at}: {path} may run out of memory: call it in {LARGE} with 1 MiB, and name it in stdin and stdout there"
    yield from (f"{LARGE}/stdin: {it} isn't a call that may run out of memory: take it out" for it in {*made} - {*may})
    if read(TOP / LARGE / "stdout") != "".join(f"{it} done\n" for it in made):
        yield f"{LARGE}/stdout: it isn't that each call of stdin is done: correct it"
    for path in {*NOT_MADE, *WITH_LESS} - reasons:
        yield f"tests/pages.py: {path} isn't a call that may run out of memory: take it out of NOT_MADE or WITH_LESS"


def main() -> int:
    checks = [missing, wrong_lengths, misquoted, private, unlisted, wrong_clauses, untried, uncalled, allocating]
    checks += [not_with_much, wrong_figure, circular, false_oom.faults, figures.faults]
    found = [[*check()] for check in checks]
    print("".join(f"{it}\n" for wrong in found for it in wrong), end="")
    failed = sum(map(bool, found))
    print(f"{len(found) - failed} passed, {failed} failed")
    return 1 if failed else 0


if __name__ == "__main__":
    sys.exit(main())
