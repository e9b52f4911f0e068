"""Makes wheels of the Python package, whose symbols tests/python/test_wheel.py checks: packaging/wheels.py TO [--all]

The wheel is for x86-64; with --all there is one for aarch64 too.
"""

import os
import shutil
import subprocess
import sys
import tempfile
from collections.abc import Sequence
from email.utils import parsedate_to_datetime
from pathlib import Path

from building import AARCH64, COMPILERS, FOLDERS, GENERATED, X86_64
from dependencies import TOP

PACKAGE, INCLUDE = TOP / "bindings/python", TOP / "include"
# Debian's Python, by which the package is built.
PYTHON = "/usr/bin/python3"
# The processors by their targets, as wheels name them.
PROCESSORS = {X86_64: "x86_64", AARCH64: "aarch64"}
# How pip builds and installs without a network, by setuptools and wheel of the system.
OFFLINE = ("--no-build-isolation", "--no-index", "--no-deps", "--no-cache-dir", "--disable-pip-version-check", "-q")
# What dates the files of a wheel, so that it has the same bytes whenever it is made: the day of the release, by debian/changelog.
DAY = (TOP / "debian/changelog").read_text().partition(">  ")[2].partition("\n")[0]
SOURCE_DATE_EPOCH = f"{parsedate_to_datetime(DAY).timestamp():.0f}"
Words = Sequence[str | Path]


def ran(words: Words, **others: object) -> tuple[str, str]:
    """What a command prints, and what is wrong if it doesn't end well."""
    done = subprocess.run([str(it) for it in words], capture_output=True, text=True, **others)  # type: ignore[call-overload]
    wrong = f"{Path(words[0]).name} failed: {(done.stderr or done.stdout)[-2000:]}" if done.returncode else ""
    return done.stdout, wrong


def copy_sources(to: Path, *targets: str) -> Path:
    """Copies all that the package is built of, for these targets; its own folder there.

    (setuptools writes next to what it builds, and finds all else by its place.)
    """
    unneeded = shutil.ignore_patterns("build", "*.egg-info", "*.so", "__pycache__")
    package = shutil.copytree(PACKAGE, to / PACKAGE.relative_to(TOP), ignore=unneeded)
    shutil.copytree(INCLUDE, to / INCLUDE.name)
    for it in targets:
        shutil.copytree(GENERATED / FOLDERS[it], to / GENERATED.name / FOLDERS[it])
    for name in ("LICENSE", "THIRD-PARTY", "docs/PYTHON.md", "packaging/installed_pages.py"):
        (to / name).parent.mkdir(exist_ok=True)
        shutil.copy(TOP / name, to / name)
    return Path(package)


def make_wheel(to: Path, target: str = X86_64) -> tuple[Path, str]:
    """Makes the wheel for a target in a folder; its path, and what went wrong."""
    to.mkdir(parents=True, exist_ok=True)
    tag = f"manylinux_2_17_{PROCESSORS[target]}"
    with tempfile.TemporaryDirectory(prefix="wheel-") as folder:
        copy = copy_sources(Path(folder), target)
        for it in copy.rglob("*"):
            os.utime(it, (int(SOURCE_DATE_EPOCH),) * 2)
        # (setup.py and setuptools build for the platform that sysconfig names, which this variable replaces)
        tools = dict(zip(("CC", "AR"), COMPILERS[target])) | {"_PYTHON_HOST_PLATFORM": f"linux-{PROCESSORS[target]}"}
        if target == AARCH64:
            tools["CPPFLAGS"] = f"-I{headers_of_aarch64(Path(folder) / 'python')}"
        words = [PYTHON, "-m", "pip", "wheel", *OFFLINE, f"--config-settings=--build-option=--plat-name={tag}"]
        env = {**os.environ, "SOURCE_DATE_EPOCH": SOURCE_DATE_EPOCH, **tools}
        wrong = ran([*words, "--wheel-dir", to, copy], env=env)[1]
    found = sorted(to.glob(f"amqp_values-*-cp310-abi3-{tag}.whl"))
    return (found[-1] if found else to), wrong or ("" if found else f"no wheel is in {to}")


def headers_of_aarch64(folder: Path) -> Path:
    """Puts the header of Debian's that differs between processors into a folder: both have the same sizes."""
    version = ran([PYTHON, "-c", "import sys; print('python%d.%d' % sys.version_info[:2])"])[0].strip()
    (folder / "aarch64-linux-gnu" / version).mkdir(parents=True)
    header = folder / "aarch64-linux-gnu" / version / "pyconfig.h"
    header.write_text(f'#include "/usr/include/x86_64-linux-gnu/{version}/pyconfig.h"\n')
    return folder


def main() -> None:
    """Makes the wheels."""
    to = Path(sys.argv[1]).absolute()
    shutil.rmtree(to, ignore_errors=True)
    for target in PROCESSORS if "--all" in sys.argv[2:] else [X86_64]:
        wheel, wrong = make_wheel(to, target)
        print(wrong or f"wheel: {wheel} is made", flush=True)
        if wrong:
            sys.exit(1)


if __name__ == "__main__":
    main()
