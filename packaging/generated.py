#!/usr/bin/env python3
"""Makes the files of generated/ of what `rt ci` has proved here, and writes or compares them: packaging/generated.py [--compare]

These are the C API as assembly for each processor, and the modules of the page. Nothing else writes them. generated/README.md says
what they are, and names the versions of the toolchain and of wasm-opt that made them. With --compare each is made anew in a
temporary folder and compared byte by byte; the module with 32-bit addresses only if wasm-opt has the version that made it.

The toolchain builds nothing that isn't proved. clang_to_assembly stands for its clang, and writes the assembly.
"""

import re
import shutil
import sys
import tempfile
from collections.abc import Iterator
from concurrent.futures import ThreadPoolExecutor
from pathlib import Path

from building import AARCH64, C_API, FOLDERS, GENERATED, MALLOC, WASM64, X86_64, build_archive
from dependencies import TOP, Crates, kit, said_by
from programs import end_if_failed, run

README = GENERATED / "README.md"
PLAIN, ALLOCATING = C_API
WIDE, NARROW = f"{FOLDERS[WASM64]}/{PLAIN}.wasm", f"{FOLDERS[WASM64]}/{PLAIN}-32.wasm"
LOWERING = ("--enable-memory64", "--enable-bulk-memory", "--memory64-lowering", "--disable-memory64")
# What each crate is made for; a crate's proofs are read by one build at a time.
TARGETS = {ALLOCATING: (X86_64, AARCH64), PLAIN: (X86_64, AARCH64, WASM64)}


def stand_in(folder: Path, name: str) -> Path:
    """Makes a toolchain whose clang also writes assembly, with the C that becomes part of a crate's module."""
    own, sources = kit() / "toolchain", TOP / "c"
    shutil.copytree(TOP / "include", folder / "c")
    shutil.copytree(sources / "freestanding", folder / "c/freestanding")
    shutil.copy(sources / f"{name}.c", folder / "c/calls.c")
    if name == ALLOCATING:
        shutil.copy(MALLOC, folder / "c")
    for part in ("bin", "real"):
        (folder / part).mkdir()
    for it in (own / "bin").iterdir():
        (folder / "bin" / it.name).symlink_to(TOP / "packaging/clang_to_assembly" if it.name == "clang" else it)
    (folder / "real/clang").symlink_to(own / "bin/clang")
    (folder / "lib").symlink_to(own / "lib")
    return folder


def make(crates: Crates, name: str, target: str, to: Path) -> None:
    """Makes the files of a crate for a target below a folder."""
    with tempfile.TemporaryDirectory(prefix="generated-") as work:
        toolchain, archive = kit() / "toolchain", Path(work) / f"lib{name}.a"
        if target != WASM64:
            toolchain = stand_in(Path(work) / "toolchain", name)
        done = build_archive(crates, name, archive, target, toolchain)
        end_if_failed("generated", f"{name} for {target}", done)
        (to / FOLDERS[target]).mkdir(parents=True, exist_ok=True)
        if target != WASM64:
            shutil.move(toolchain / "module.s", to / FOLDERS[target] / f"{name}.s")
            return
        link = (f"{kit()}/bin/rattle-link", "--target", WASM64, "--toolchain", toolchain)
        run("generated", [*link, "-o", to / WIDE, archive])
        if shutil.which("wasm-opt"):
            run("generated", ["wasm-opt", *LOWERING, to / WIDE, "-o", to / NARROW])


def make_all(to: Path) -> None:
    """Makes all files below a folder."""
    crates = Crates()

    def make_each(name: str) -> None:
        for target in TARGETS[name]:
            make(crates, name, target, to)

    with ThreadPoolExecutor(len(TARGETS)) as pool:
        list(pool.map(make_each, TARGETS))


def files_in(folder: Path) -> set[str]:
    return {str(it.relative_to(folder)) for it in folder.rglob("*") if not it.is_dir()} - {README.name}


def with_versions(text: str) -> str:
    """The page of generated/ with the versions of the toolchain and of wasm-opt on this machine."""
    found = re.search(r"version \d+", said_by("wasm-opt", "--version"))
    text = re.sub(r"`rattle-kit-\S+ logic [\da-f]+`", f"`{said_by('rt', 'version')}`", text)
    return re.sub(r"`wasm-opt` version \d+", f"`wasm-opt` {found[0]}", text) if found else text


def has_its_wasm_opt(text: str) -> bool:
    """Whether wasm-opt here has the version that the page of generated/ names."""
    version = r"`wasm-opt` version \d+"
    return bool(shutil.which("wasm-opt")) and re.findall(version, text) == re.findall(version, with_versions(text))


def compared(made: Path, committed: Path = GENERATED) -> Iterator[tuple[str, str]]:
    """Yields each file of both folders, and what is wrong with the one that is committed."""
    is_lowered = has_its_wasm_opt((committed / README.name).read_text())
    for name in sorted(files_in(made) | files_in(committed)):
        if name == NARROW and not is_lowered:
            print(f"generated/{name}: not compared, since wasm-opt isn't of the version that made it")
        elif not (made / name).exists():
            yield name, "nothing makes it"
        elif not (committed / name).exists():
            yield name, "it isn't there"
        else:
            yield name, "" if (made / name).read_bytes() == (committed / name).read_bytes() else "it has other bytes"


def compare(made: Path) -> int:
    """Says how each file is, and how many are as they are made; the exit status."""
    found = dict(compared(made))
    for name, why in found.items():
        print(
            f"generated/{name}: {f'FAILED: {why}: run `make generated`, and commit the folder' if why else 'as it is made'}"
        )
    failed = sum(map(bool, found.values()))
    if failed and with_versions(README.read_text()) != README.read_text():
        print(f"(this is {said_by('rt', 'version')}: generated/README.md names what made the files)")
    print(f"{len(found) - failed} passed, {failed} failed")
    return 1 if failed or not found else 0


def write(made: Path) -> None:
    """Puts the files into generated/, and nothing else, and the versions of what made them into its page."""
    for folder in FOLDERS.values():
        shutil.rmtree(GENERATED / folder, ignore_errors=True)
    shutil.copytree(made, GENERATED, dirs_exist_ok=True)
    README.write_text(with_versions(README.read_text()))


def main(words: list[str]) -> int:
    if words not in ([], ["--compare"]):
        sys.exit(__doc__)
    if not words and not shutil.which("wasm-opt"):
        sys.exit("generated: wasm-opt is missing, which makes the module with 32-bit addresses: make setup installs it")
    with tempfile.TemporaryDirectory(prefix="generated-") as name:
        make_all(Path(name))
        if words:
            return compare(Path(name))
        write(Path(name))
    return 0


if __name__ == "__main__":
    sys.exit(main(sys.argv[1:]))
