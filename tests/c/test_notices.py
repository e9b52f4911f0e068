"""THIRD-PARTY has the notices of the kit's libraries that are linked into what is built here, and each artefact has it.

tests/packages/test_tool.py has the same of amqp_show's symbols.
"""

import re
from collections.abc import Iterator
from pathlib import Path

import pytest
from building import C_API
from dependencies import TOP, Crates, kit

from tests.c.compiling import Words, printed
from tests.c.places import NAME

TEXT = (TOP / "THIRD-PARTY").read_text()
HEAD, *SECTIONS = re.split(r"(?m)^-{78}\n", TEXT)
LIBRARIES = kit() / "rattle"
# The libraries without a licence file that may be linked too, as the head says; and one that clap has inside, by the symbols.
UNLISTED, INSIDE = {"core", "io", "libc"}, {"clap": "strsim"}

needs_kit = pytest.mark.needs("rt")


def listed(title: str) -> list[str]:
    """The names below a line of the head that ends in a colon."""
    found = re.search(rf"{title}:\n((?: +\S.*\n)+)", HEAD)
    assert found, title
    return found[1].split()


def notices() -> Iterator[tuple[str, str]]:
    """Yields each licence file that THIRD-PARTY names, and its text."""
    for it in SECTIONS:
        names, _, text = it.partition("\n\n")
        yield from ((name, text.strip("\n")) for name in names.replace(",", " ").split())


def linkable(*crates: str) -> set[str]:
    """The kit's libraries that crates may link: those that crates.txt names, and those below them."""
    all_crates, found = Crates(), set[str]()
    following = {it for crate in all_crates.needed(*crates) for it in all_crates.of_kit[crate]}
    while following := following - found:
        found |= following
        below = {it.name for lib in following for it in (kit() / f"rlibs/{lib}.rlib/below").glob("*")}
        following = below | {INSIDE[it] for it in following & {*INSIDE}}
    return found - UNLISTED


def linked_by_symbols(*paths: str | Path) -> set[str]:
    """The kit's libraries of which files have functions, as of crates of this repository."""
    found = {*re.findall(r"(?m)^[\da-f]+ [tT] (\w+)::", printed(["nm", *paths]))}
    own = {*Crates().below}
    assert found & own
    return found - own - UNLISTED


def licences(library: str) -> set[str]:
    """The licence files of a library in the kit, without Apache's where there is MIT's to choose."""
    names = {it.name for it in (LIBRARIES / library).glob("LICENSE*")}
    return {f"{library}/{it}" for it in names - ({"LICENSE-APACHE"} if "LICENSE-MIT" in names else set())}


@needs_kit
def test_libraries_are_those_of_crates_txt() -> None:
    of_calls, all_linked = linkable(*C_API), linkable(*C_API, "amqp_show")
    assert listed("Used by all of these") == sorted(of_calls)
    assert listed("Used by amqp_show besides") == sorted(all_linked - of_calls)


@needs_kit
def test_each_library_has_its_notices() -> None:
    """And one without a licence file is named as that."""
    libraries = linkable(*C_API, "amqp_show")
    assert sorted(name for name, _ in notices()) == sorted(it for lib in libraries for it in licences(lib))
    assert listed("for itself") == sorted(it for it in libraries if not licences(it))


def test_what_is_linked_is_listed(linked: Words) -> None:
    """Also by the symbols of the objects, where a library that is inlined has none."""
    assert linked_by_symbols(*linked) <= {*listed("Used by all of these")}
    assert UNLISTED <= {*re.findall(r"\w+", HEAD)}


@needs_kit
@pytest.mark.parametrize(("name", "text"), [*notices()], ids=[name for name, _ in notices()])
def test_notice_is_that_of_the_kit(name: str, text: str) -> None:
    assert text == (LIBRARIES / name).read_text().strip("\n")


@needs_kit
def test_copyright_of_debian_names_each_library() -> None:
    words = re.findall(r"\w+", (TOP / "debian/copyright").read_text())
    assert sorted(linkable(*C_API, "amqp_show") - {*words}) == []


def test_notices_are_installed(prefix: Path) -> None:
    assert (prefix / f"share/doc/{NAME}/THIRD-PARTY").read_text() == TEXT
