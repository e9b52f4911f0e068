#!/usr/bin/env python3
"""Builds from a clone as somebody does who has no toolchain, in each way, and runs an example: tests/clone.py [--root]

Here only Debian's programs are on the path. With --root, as root, debootstrap makes a Debian 13 with a C compiler, CMake, pip and cargo in a temporary
folder; nothing there has a network, and each way has 30 seconds.
"""

import os
import shutil
import subprocess
import sys
import tempfile
import time
from pathlib import Path

TOP = Path(__file__).resolve().parent.parent
sys.path += [str(TOP), str(TOP / "packaging")]

from tests.checks import Checks  # noqa: E402
from tests.processes import end_on_signals  # noqa: E402

# In the clone, each way's commands; and what the example prints.
HEADERS = "echo 0000001d 07782d6465617468 41 00000010 46 0000000b 05636f756e74 49 00000003"
WAYS = {
    "C": (
        "cmake -S . -B out/build && cmake --build out/build && cmake --install out/build --prefix out/prefix >out/log",
        'export PKG_CONFIG_PATH="$PWD/out/prefix/lib/pkgconfig" LD_LIBRARY_PATH="$PWD/out/prefix/lib"',
        "cc -std=c11 -o out/count_deaths examples/c/count_deaths.c $(pkg-config --cflags --libs amqp_values)",
        f"{HEADERS} | out/count_deaths",
    ),
    "Python": (
        "python3 -m venv --system-site-packages out/venv && . out/venv/bin/activate",
        "pip install --no-build-isolation --no-index --quiet ./bindings/python",
        f"{HEADERS} | python -m amqp_values --hex --table",
    ),
    "Rust": (
        "cargo build --offline --quiet --manifest-path bindings/rust/amqp-values/Cargo.toml --target-dir out/cargo --examples",
        f"{HEADERS} | out/cargo/debug/examples/count_deaths",
    ),
}
PRINTED = {"C": "3\n", "Python": '{"x-death":[{"count":{"$LongInt":3}}]}\n', "Rust": "3\n"}
# A Debian that has a Rust from 1.85.
SUITE, PACKAGES = (
    "trixie",
    "gcc,libc6-dev,make,cmake,pkg-config,python3-dev,python3-venv,python3-pip,python3-setuptools,",
)
PACKAGES += "python3-wheel,git,cargo"
SECONDS = 30


def in_clone(way: str, clone: Path, root: Path | None) -> subprocess.CompletedProcess[str]:
    """Runs a way's commands in the clone, and in the root if there is one, which has no network."""
    script = "\n".join(("set -eu", 'cd "$0"', "mkdir -p out", *WAYS[way]))
    if not root:
        env = {"HOME": os.environ["HOME"], "PATH": "/usr/bin:/bin", "LC_ALL": "C.UTF-8"}
        return subprocess.run(
            ["sh", "-c", script, clone], env=env, capture_output=True, text=True, stdin=subprocess.DEVNULL
        )
    inside = f"/{clone.relative_to(root)}"
    words = [
        "unshare",
        "--net",
        "env",
        "-i",
        "PATH=/usr/bin:/bin",
        "HOME=/root",
        "LC_ALL=C.UTF-8",
        "/usr/sbin/chroot",
        str(root),
    ]
    return subprocess.run(
        [*words, "sh", "-c", script, inside], capture_output=True, text=True, stdin=subprocess.DEVNULL
    )


def main(words: list[str]) -> int:
    checks = Checks("clone")
    with tempfile.TemporaryDirectory(prefix="clone-") as name:
        end_on_signals(lambda: shutil.rmtree(name, ignore_errors=True))
        root = Path(name) / "root" if words == ["--root"] else None
        if root:
            made = ["debootstrap", "--variant=minbase", f"--include={PACKAGES}", SUITE, str(root)]
            subprocess.run(made, check=True, stdout=sys.stderr)
        clone = (root or Path(name)) / "srv-clone"
        subprocess.run(["git", "clone", "-q", TOP, clone], check=True)
        for way in WAYS:
            if way.lower() in os.environ.get("WITHOUT", "").split():
                continue
            begun = time.monotonic()
            done = in_clone(way, clone, root)
            took = time.monotonic() - begun
            wrong = (
                "" if (done.returncode, done.stdout.endswith(PRINTED[way])) == (0, True) else done.stdout + done.stderr
            )
            late = f"it took more than {SECONDS} s" if root and took > SECONDS else ""
            checks.tell(f"{way}, in {took:.1f} s", wrong[-2000:] or late)
    return checks.ended()


if __name__ == "__main__":
    sys.exit(main(sys.argv[1:]))
