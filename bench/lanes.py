"""`sides` builds and starts what bench/measure.py times, as processes that take the commands of bench/driver.rs.

A lane is a side and an operation, as `crate.read`: the Rust crate reading.
"""

import argparse
import json
import os
import re
import shutil
import subprocess
import sys
import time
from collections.abc import Sequence
from pathlib import Path

from building import build_archive, static_library
from dependencies import TOP, Crates, kit
from programs import end_if_failed, run
from wheels import PYTHON

from tests.compiling import compile_package

BEGIN = time.monotonic()
HERE, OUT = TOP / "bench", TOP / "out/bench"
RUST_CRATE, VERSION = "amq-protocol-types", "10.6.3"
GO_CLIENT = Path("/usr/share/gocode/src/github.com/rabbitmq/amqp091-go")
RABBIT_COMMON = Path("/usr/lib/rabbitmq/lib").glob("rabbitmq_server-*/plugins/rabbit_common-*/ebin")
CARGO = """\
[package]
name = "driver"
edition = "2024"
[[bin]]
name = "driver"
path = "driver.rs"
[dependencies]
{name} = {{ {place}version = "={version}" }}
cookie-factory = "0.3"
serde_json = "1"
[profile.release]
codegen-units = 1
[workspace]"""


def note(line: str) -> None:
    """Reports on standard error how far it is."""
    print(f"bench {time.monotonic() - BEGIN:4.0f} s: {line}", file=sys.stderr, flush=True)


class Process:
    """A process with some sides, which takes the commands of driver.rs."""

    def __init__(self, words: Sequence[str | Path], **more: str) -> None:
        """Starts it, with these words more in its environment."""
        self.words = [str(it) for it in words]
        pipe = subprocess.PIPE
        self.process = subprocess.Popen(self.words, stdin=pipe, stdout=pipe, text=True, cwd=OUT, env=os.environ | more)
        self.lanes = self.line().split() or sys.exit(f"bench: {self.words[0]} doesn't start")

    def line(self) -> str:
        """Its next line, or nothing if it has ended."""
        assert self.process.stdout
        return self.process.stdout.readline().strip()

    def ask(self, *words: object) -> str:
        """What it answers to a command."""
        print(*words, file=self.process.stdin, flush=True)
        return self.line() or sys.exit(f"bench: {self.words[0]} ended at {words}")


# By the name of a side and of an operation, the process that has both.
Lanes = dict[str, Process]


def built_library() -> Path:
    """Builds crates/amqp_bench, which `rt ci` has proved here, and returns its archive."""
    note("crates/amqp_bench")
    library = OUT / "libamqp_bench.a"
    end_if_failed("bench", library.name, build_archive(Crates(), "amqp_bench", library))
    return library


def objects() -> tuple[list[str], list[Path | str]]:
    """Builds what the driver is linked with: rustc's flags by which it knows of it, and the words for the linker."""
    found: list[Path | str] = [built_library(), static_library(OUT), kit() / "c/liblibc_c.a"]
    if not Path("/usr/include/amqp.h").exists():
        note("librabbitmq is left out: librabbitmq-dev isn't installed")
        return [], found
    run("bench", ["cc", "-O2", "-c", HERE / "rabbitmq.c", "-o", OUT / "rabbitmq.o"])
    run("bench", ["cc", "-O2", "-I", TOP / "include", "-c", HERE / "tasks.c", "-o", OUT / "tasks.o"])
    return ["--cfg", "rabbitmq"], [OUT / "tasks.o", *found, OUT / "rabbitmq.o", "-lrabbitmq"]


def build_driver(given: argparse.Namespace) -> Path:
    """Builds the sides that are one process, and returns the program."""
    flags, linked = objects()
    # (copied, it is newer than what cargo has built, which doesn't know the objects)
    shutil.copy(HERE / "driver.rs", OUT)
    place = f"path = {json.dumps(str(given.crate.resolve()))}, " if given.crate else ""
    (OUT / "Cargo.toml").write_text(CARGO.format(name=RUST_CRATE, place=place, version=VERSION))
    words = ["cargo", "rustc", "--release", "--quiet"]
    if given.packages:
        folder = f"source.given.directory={json.dumps(str(given.packages.resolve()))}"
        words += ["--offline", "--config", 'source.crates-io.replace-with="given"', "--config", folder]
    note("cargo: the Rust crate and the driver")
    run("bench", [*words, "--", *(f"-Clink-arg={it}" for it in linked), *flags], cwd=OUT)
    return OUT / "target/release/driver"


def build_go() -> Path | None:
    """Builds the Go client's files and the side in Go as one program, and returns it, or nothing."""
    if not shutil.which("go") or not GO_CLIENT.exists():
        note("Go is left out: golang-go or golang-github-rabbitmq-amqp091-go-dev isn't installed")
        return None
    shutil.rmtree(OUT / "go", ignore_errors=True)
    (OUT / "go").mkdir()
    for path in (HERE / "side.go", *(it for it in GO_CLIENT.glob("*.go") if not it.name.endswith("_test.go"))):
        (OUT / "go" / path.name).write_text(re.sub(r"(?m)^package amqp091$", "package main", path.read_text()))
    (OUT / "go/go.mod").write_text("module side\n\ngo 1.16\n")
    note("go: the client and its side")
    run(
        "bench",
        ["go", "build", "-o", "../side", "."],
        cwd=OUT / "go",
        env=os.environ | {"GOPROXY": "off", "GOFLAGS": "-mod=mod"},
    )
    return OUT / "side"


def sides(given: argparse.Namespace) -> Lanes:
    """Builds and starts all sides, and returns by each lane its process; the first is the driver's."""
    OUT.mkdir(parents=True, exist_ok=True)
    processes = [Process([build_driver(given)])]
    if client := build_go():
        processes.append(Process([client], GOMAXPROCS="1"))
    modules = next(RABBIT_COMMON, None)
    if shutil.which("erlc") and modules:
        run("bench", ["erlc", HERE / "side.erl"], cwd=OUT)
        processes.append(Process(["erl", "+S", "1", "-noshell", "-pa", modules, "-pa", OUT, "-s", "side", "main"]))
    else:
        note("Erlang is left out: erlang-base or rabbitmq-server isn't installed")
    return {lane: it for it in processes for lane in it.lanes}


def python_sides() -> Lanes:
    """Builds the package for Python, and starts it and the clients of Python as one process."""
    shutil.rmtree(OUT / "python", ignore_errors=True)
    if wrong := compile_package(OUT / "python"):
        sys.exit(f"bench: the package for Python isn't built: {wrong}")
    process = Process([PYTHON, "-B", HERE / "side.py"], PYTHONPATH=f"{OUT / 'python'}:{TOP}:{TOP / 'packaging'}")
    return {lane: process for lane in process.lanes}


def preloaded(driver: Process) -> Process:
    """The driver again, with its requests for memory counted."""
    run("bench", ["cc", "-O2", "-shared", "-fPIC", HERE / "heap.c", "-o", OUT / "heap.so"])
    return Process(driver.words, LD_PRELOAD=str(OUT / "heap.so"))


def load(data: bytes, lanes: Lanes) -> None:
    """Gives the processes an input."""
    (OUT / "input").write_bytes(data)
    for process in {*lanes.values()}:
        process.ask("load", "input")


def made(lane: str, lanes: Lanes) -> tuple[int, bytes]:
    """How many bytes a lane reads or writes of the input, and what it writes."""
    count = int(lanes[lane].ask("make", lane, "made"))
    return count, (OUT / "made").read_bytes() if count >= 0 else b""
