"""Builds the C API's libraries of what generated/ has: `static_library`, `shared_object`, `before_librabbitmq`.

`build_archive` builds a crate's static library by the toolchain, for packaging/generated.py and bench.
"""

import os
import subprocess
from collections.abc import Iterable
from pathlib import Path

from dependencies import TOP, Crates, kit
from programs import run

# The crates of the C API: those that don't allocate, and those that do. The second uses the first as a library.
C_API = ("amqp_c", "amqp_c_alloc")
# What these are compiled for: a target, and the processor, of each target the one whose code every other runs.
X86_64, AARCH64, WASM64 = "x86_64-unknown-linux-gnu", "aarch64-unknown-linux-gnu", "wasm64-unknown-unknown"
TARGETS = {X86_64: "x86-64", AARCH64: "generic", WASM64: "lime1"}
# What has each target's files in generated/.
GENERATED = TOP / "generated"
FOLDERS = {X86_64: "x86_64-linux", AARCH64: "aarch64-linux", WASM64: "wasm"}
# What compiles and links C for each, and makes archives.
COMPILERS = {X86_64: ("cc", "ar"), AARCH64: ("aarch64-linux-gnu-gcc", "aarch64-linux-gnu-ar")}
# What a library of the toolchain's allocates by, over malloc, realloc and free.
MALLOC = TOP / "c/malloc.c"
LIBRARY = "libamqp_values.a"


def objects(folder: Path, target: str = X86_64, assembler: str = "") -> list[Path]:
    """Assembles what generated/ has for a target, into a folder; the objects, in the order of C_API."""
    made = [folder / f"{name}.o" for name in C_API]
    for it in made:
        source = GENERATED / FOLDERS[target] / f"{it.stem}.s"
        run("building", [assembler or COMPILERS[target][0], "-c", "-o", it, source])
    return made


def static_library(folder: Path, target: str = X86_64, assembler: str = "") -> Path:
    """Makes libamqp_values.a in a folder; its path."""
    run("building", [COMPILERS[target][1], "rcs", folder / LIBRARY, *objects(folder, target, assembler)])
    return folder / LIBRARY


def linked(path: Path, *words: str | Path) -> Path:
    """Links a shared object of these; its path."""
    run("building", ["cc", "-std=c11", "-shared", "-fPIC", "-O2", "-o", path, *words])
    return path


def shared_object(folder: Path, assembler: str = "") -> Path:
    """Makes the shared object of the C API in a folder; its path."""
    return linked(folder / "libamqp_values.so", *objects(folder, X86_64, assembler))


def before_librabbitmq(folder: Path) -> Path:
    """Makes the shared object that comes before librabbitmq in a folder; its path."""
    script = f"-Wl,--version-script={TOP}/packaging/amqp_values_rabbitmq.map"
    source, (plain, _) = TOP / "c/amqp_values_rabbitmq.c", objects(folder)
    return linked(folder / "libamqp_values_rabbitmq.so", f"-I{TOP}/include", script, source, plain)


def build_archive(
    crates: Crates, name: str, to: Path, target: str = X86_64, toolchain: Path | None = None
) -> subprocess.CompletedProcess[str]:
    """Builds a crate's static library over what `rt ci` has left here, by a toolchain (the kit's).

    The crate is proved, of which what was proved before is kept.
    """
    how = ["--incremental", "out/incremental", "--target", target, "--cpu", TARGETS[target]]
    how += [
        "--toolchain",
        str(toolchain or kit() / "toolchain"),
        "--jobs",
        str(min(4, os.cpu_count() or 1)),
        "-o",
        str(to),
    ]
    kind: Iterable[str] = [] if name in crates.static else ["--crate-type", "staticlib"]
    words = [f"{kit()}/bin/rattle", "build", *crates.words(name), *kind, *how]
    return subprocess.run(words, cwd=crates.folder(name), capture_output=True, text=True)
