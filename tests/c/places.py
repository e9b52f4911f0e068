"""The `NAME` that the library is installed under, `installed`, a `PATH` with only Debian's programs, and `files_in` a folder.

The modules of tests/c and tests/packages use it that try what is installed without anything of this repository or of the kit.
"""

import re
from collections.abc import Mapping
from pathlib import Path

from dependencies import TOP

from tests.checks import assert_well, run

NAME = "amqp_values"
# Where only what Debian has is found.
PATH = "/usr/bin:/bin"
# CMake's flag for what needs nothing of crates/*/out.
WITHOUT_TOOL = "-DAMQP_SHOW=OFF"


def installed(to: Path, *flags: str, env: Mapping[str, str] | None = None) -> Path:
    """Builds what CMakeLists.txt installs, and installs it into a folder."""
    assert_well(run(["cmake", "-S", TOP, "-B", f"{to}-built", *flags], env=env))
    assert_well(run(["cmake", "--build", f"{to}-built"], env=env))
    assert_well(run(["cmake", "--install", f"{to}-built", "--prefix", to], env=env))
    return to


def files_in(folder: Path) -> set[str]:
    """The files of a folder, and its links, by the path in it."""
    return {str(it.relative_to(folder)) for it in folder.rglob("*") if it.is_symlink() or not it.is_dir()}


def assert_needs_glibc(path: Path, latest: str) -> None:
    """A program or library needs no later glibc than this, which docs/PLATFORMS.md names."""
    found = re.findall(r"@GLIBC_([\d.]+)", assert_well(run(["readelf", "--dyn-syms", "-W", path])))
    assert max([*map(int, it.split("."))] for it in found) <= [*map(int, latest.split("."))]
    assert f"glibc {latest}" in (TOP / "docs/PLATFORMS.md").read_text()
