"""amqp_show as it is installed: CMake and `make` install it if it is built, with its manual, and nothing else differs."""

import re
from pathlib import Path

from dependencies import TOP

from tests.c.compiling import assert_well, printed, run, version
from tests.c.places import PATH, WITHOUT_TOOL, assert_needs_glibc, files_in, installed
from tests.c.test_notices import linked_by_symbols, listed

MANUAL = "share/man/man1/amqp_show.1"


def test_tool(prefix: Path) -> None:
    assert printed([prefix / "bin/amqp_show", "--version"], env={"PATH": PATH}) == f"amqp_show {version()}\n"


def test_glibc(prefix: Path) -> None:
    assert_needs_glibc(prefix / "bin/amqp_show", "2.34")


def test_manual(prefix: Path) -> None:
    """It is as mandoc wants it."""
    assert printed(["mandoc", "-Tlint", "-Wwarning", prefix / MANUAL]) == ""


def test_manual_has_each_option(prefix: Path) -> None:
    # (tests/show holds the tool against its transcript)
    usage = (TOP / "tests/show/usage.t").read_text().partition("Options:")[2].partition("Examples:")[0]
    items = "".join(re.findall(r"(?m)^\.It (.*)$", (prefix / MANUAL).read_text()))
    assert {*re.findall(r"Fl -([a-z-]+)", items)} == {*re.findall(r"--([a-z-]+)", usage)}


def test_library_without_the_tool(prefix: Path, tmp_path: Path) -> None:
    """It is left out by a flag."""
    assert files_in(prefix) - files_in(installed(tmp_path / "library", WITHOUT_TOOL)) == {"bin/amqp_show", MANUAL}


def test_make_installs_it(repository: Path, prefix: Path, tmp_path: Path) -> None:
    root = tmp_path / "root"
    to = [f"DESTDIR={root}", "PREFIX=/usr"]
    assert_well(run(["make", "install", *to], cwd=repository))
    assert files_in(root / "usr") == files_in(prefix)
    assert (root / "usr/bin/amqp_show").stat().st_mode & 0o777 == 0o755
    assert_well(run(["make", "uninstall", *to], cwd=repository))
    assert files_in(root) == set()


def test_make_leaves_out_what_is_not_built(clone: Path, prefix: Path, tmp_path: Path) -> None:
    assert_well(run(["make", "install", f"DESTDIR={tmp_path}", "PREFIX=/usr"], cwd=clone))
    assert files_in(prefix) - files_in(tmp_path / "usr") == {"bin/amqp_show", MANUAL}


def test_what_is_linked_is_listed(prefix: Path) -> None:
    """THIRD-PARTY has the kit's libraries that it is linked with, by the symbols, where one that is inlined has none."""
    listed_for_it = {*listed("Used by all of these"), *listed("Used by amqp_show besides")}
    assert linked_by_symbols(prefix / "bin/amqp_show") <= listed_for_it
