#!/usr/bin/env python3
"""Runs a page's commands on a machine that has only the kit, python3, make and git: tests/fresh.py [PAGE], as root

debootstrap makes a root of Debian 12 with these packages in a temporary folder. The committed state is cloned into it, the kit
is mounted read-only, and the commands of the page (README.md) are run there, to the end of the console block with `make test`.
Each must end with status 0 and print on standard output what the page shows, where `...` is any lines, and the
line after that may begin otherwise.
"""

import re
import shutil
import subprocess
import sys
import tempfile
from collections.abc import Sequence
from pathlib import Path

TOP = Path(__file__).resolve().parent.parent
sys.path += [str(TOP), str(TOP / "packaging")]

from dependencies import kit  # noqa: E402
from tests.processes import end_on_signals  # noqa: E402

from tests.checks import Checks  # noqa: E402

PACKAGES = "python3,make,git"
# The clone in the root, and the file that has the folder which the last command left.
CLONE, PLACE = "/project/clone", "/project/place"
FIRST, LAST = "cd crates/amqp_wire && echo ", "make test"
SECONDS = 3600
Command = tuple[str, list[str]]


def commands(block: str) -> list[Command]:
    """The commands of a console block, each with the lines that are below it."""
    parts = (it.splitlines() for it in re.split(r"(?m)^\$ ", block)[1:])
    return [(re.sub(r"\s+#.*", "", command), lines) for command, *lines in parts]


def first_commands(page: str) -> list[Command]:
    """The commands of a page's console blocks, from that which runs amqp_wire to that which runs `make test`."""
    blocks = [commands(it) for it in re.findall(r"(?ms)^```console\n(.*?)^```", page)]
    begin = next((n for n, block in enumerate(blocks) for it, _ in block if it.startswith(FIRST)), None)
    end = next((n for n, block in enumerate(blocks) for it, _ in block if it.endswith(LAST)), None)
    if begin is None or end is None or begin > end:
        sys.exit(f"the page has no console block with `{FIRST}..` and then `{LAST}`")
    return [it for block in blocks[begin : end + 1] for it in block]


def as_shown(lines: Sequence[str]) -> str:
    """The regular expression of the output that a page shows."""
    return "".join(r"(?:.*\n)*(?:.*\b)?" if it == "..." else f"{re.escape(it)}\n" for it in lines)


def in_root(root: Path, command: str) -> subprocess.CompletedProcess[str]:
    """Runs a command in the clone, in the folder that the last one left. What is mounted for it goes with it."""
    mounts = 'mount --bind "$1" "$0$1" && mount -o remount,ro,bind "$0$1" && mount -t proc proc "$0/proc"'
    inner = f'cd "$(cat {PLACE})" && {command}\nstatus=$?; pwd >{PLACE}; exit $status'
    path = "PATH=/usr/local/bin:/usr/sbin:/usr/bin:/sbin:/bin"
    script = f'{mounts} && exec env -i {path} chroot "$0" /bin/sh -c "$2"'
    words = ["unshare", "--mount", "sh", "-c", script, str(root), str(kit()), inner]
    return subprocess.run(words, stdin=subprocess.DEVNULL, stdout=subprocess.PIPE, text=True, timeout=SECONDS)


def make_root(root: Path) -> None:
    """Makes the root, with a clone and an empty folder for the kit."""
    words = ["debootstrap", "--variant=minbase", f"--include={PACKAGES}", "bookworm", str(root)]
    subprocess.run(words, check=True, stdout=sys.stderr)
    (root / str(kit()).strip("/")).mkdir(parents=True)
    (root / "usr/local/bin/rt").symlink_to(kit() / "bin/rt")
    subprocess.run(["git", "clone", "-q", TOP, f"{root}{CLONE}"], check=True)
    (root / PLACE.strip("/")).write_text(CLONE)


def main(page: Path) -> int:
    checks, shown = Checks("fresh"), first_commands(page.read_text())
    with tempfile.TemporaryDirectory(prefix="fresh-") as folder:
        end_on_signals(lambda: shutil.rmtree(folder, ignore_errors=True))
        make_root(Path(folder) / "root")
        for command, lines in shown:
            done = in_root(Path(folder) / "root", command)
            print(done.stdout, end="")
            is_as_shown = re.fullmatch(as_shown(lines), done.stdout)
            wrong = f"status {done.returncode}" if done.returncode else "" if is_as_shown else f"the page shows {lines}"
            checks.tell(f"`{command}`", wrong)
    return checks.ended()


if __name__ == "__main__":
    sys.exit(main(Path(sys.argv[1]) if len(sys.argv) > 1 else TOP / "README.md"))
