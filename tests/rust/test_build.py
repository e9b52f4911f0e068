"""build.rs of amqp-values-sys, which makes or finds the archive: alone, and by cargo in a clone of this repository.

Alone it gets the variables that cargo sets, also those for targets whose standard library isn't here. cargo gets a path that has no
toolchain of Rattle.
"""

import os
import re
from collections.abc import Callable
from pathlib import Path
from typing import NamedTuple

import pytest
from building import AARCH64, LIBRARY, X86_64
from dependencies import TOP

from tests.checks import Done
from tests.copies import copy_repository
from tests.rust.cargo import CRATES, NAMED_BY, RUST, assert_well, run

pytestmark = pytest.mark.needs("cargo")
# Runs build.rs for a target, on a host, with variables of a user.
Script = Callable[..., Done]
RISCV64, MACOS = "riscv64gc-unknown-linux-gnu", "aarch64-apple-darwin"
MUSL = {it: it.replace("gnu", "musl") for it in (X86_64, AARCH64)}
NOWHERE = "No such file or directory (os error 2)"
VERSION = "1.2.3"


@pytest.fixture(scope="session")
def program(tmp_path_factory: pytest.TempPathFactory) -> Path:
    path = tmp_path_factory.mktemp("build") / "build"
    how = {**os.environ, "CARGO_PKG_VERSION": VERSION}
    assert_well(run(["rustc", "--edition", "2021", "-o", path, RUST / CRATES[0] / "build.rs"], env=how))
    return path


@pytest.fixture
def script(program: Path, tmp_path: Path) -> Script:
    def run_for(target: str = X86_64, host: str = X86_64, **of_user: str) -> Done:
        processor, _, system = target.split("-")[:3]
        of_cargo = {
            "CARGO_CFG_TARGET_ARCH": processor.removesuffix("gc"),
            "CARGO_CFG_TARGET_OS": system.replace("darwin", "macos"),
            "CARGO_MANIFEST_DIR": str(RUST / CRATES[0]),
            "HOST": host,
            "OUT_DIR": str(tmp_path),
            "TARGET": target,
        }
        # (pkg-config knows no library)
        of_machine = {"PATH": os.environ["PATH"], "PKG_CONFIG_LIBDIR": str(tmp_path)}
        return run([program], env={**of_cargo, **of_machine, **of_user})

    return run_for


def linked(done: Done) -> Path:
    """The folder whose archive is linked."""
    (folder,) = re.findall(r"(?m)^cargo:rustc-link-search=native=(.*)$", assert_well(done))
    assert "cargo:rustc-link-lib=static=amqp_values\n" in done.stdout and (Path(folder) / LIBRARY).is_file()
    return Path(folder)


def sentence(done: Done) -> str:
    """All that is printed when a build fails."""
    assert done.returncode == 1 and "rustc-link" not in done.stdout, done
    assert done.stderr.count("\n") == 1, done.stderr
    return done.stderr.rstrip()


def unsupported(processor: str, system: str) -> str:
    only = "amqp_values has compiled code for x86_64 and aarch64 Linux only"
    return f"{only}, and not for {processor} {system}: see docs/PLATFORMS.md"


# What generated/ has is assembled


@pytest.mark.parametrize(
    ("target", "machine"),
    (
        (X86_64, "X86-64"),
        (MUSL[X86_64], "X86-64"),
        pytest.param(AARCH64, "AArch64", marks=pytest.mark.needs("aarch64")),
        pytest.param(MUSL[AARCH64], "AArch64", marks=pytest.mark.needs("aarch64")),
    ),
)
def test_archive(script: Script, tmp_path: Path, target: str, machine: str) -> None:
    """Both objects are in it, for the target, and have all calls."""
    archive = linked(script(target)) / LIBRARY
    assert archive.parent == tmp_path
    machines = re.findall(r"Machine: +(.*)", assert_well(run(["readelf", "-h", archive])))
    assert len(machines) == 2 and all(it.endswith(machine) for it in machines)
    calls = re.findall(r"pub fn (amqpv_\w+)", (RUST / CRATES[0] / "src/bindings.rs").read_text())
    defined = re.findall(r"(?m) T (\w+)$", assert_well(run(["nm", archive])))
    assert calls and {*calls} <= {*defined}


@pytest.mark.parametrize(
    ("target", "of_user", "usual"),
    (
        (X86_64, {}, "cc"),
        (X86_64, {"CC": "/bin/true"}, "ar"),
        (MUSL[X86_64], {}, "cc"),
        (AARCH64, {}, "aarch64-linux-gnu-gcc"),
        (MUSL[AARCH64], {"CC": "/bin/true"}, "aarch64-linux-gnu-ar"),
    ),
)
def test_program_is_missing(script: Script, tmp_path: Path, target: str, of_user: dict[str, str], usual: str) -> None:
    """The usual program is named, and the variables that name another."""
    variable = "AR" if usual.endswith("ar") else "CC"
    wanted = f"`{usual}` failed ({NOWHERE}): {variable} or {variable}_{target.replace('-', '_')} names another"
    assert sentence(script(target, PATH=str(tmp_path), **of_user)) == wanted


@pytest.mark.parametrize("variable", ("CC", "AR"))
@pytest.mark.parametrize(("target", "kind"), ((X86_64, "HOST"), (AARCH64, "TARGET")))
def test_program_is_named(script: Script, target: str, kind: str, variable: str) -> None:
    """The variable of the target comes first, and the one without a target last. An empty one names nothing. A name may have words."""
    names = [f"{variable}_{target.replace('-', '_')}", f"{kind}_{variable}", variable]
    named = {"CC": "true", **{it: f"env false {it}" for it in names}}
    for name in names:
        assert sentence(script(target, **named)).startswith(f"`env false {name}` failed (exit status: 1): ")
        named[name] = ""


def test_no_compiled_code(script: Script, tmp_path: Path) -> None:
    """As in the folder that cargo vendor makes."""
    wanted = f"{tmp_path}/../../../generated isn't there: {NAMED_BY} can name a folder with {LIBRARY}"
    assert sentence(script(CARGO_MANIFEST_DIR=str(tmp_path))) == wanted


# A library that is there


@pytest.mark.parametrize("target", (X86_64, RISCV64))
def test_library_that_is_named(script: Script, tmp_path: Path, target: str) -> None:
    """Nothing is assembled, and there may be no compiled code for the target."""
    (tmp_path / "named").mkdir()
    (tmp_path / "named" / LIBRARY).touch()
    done = script(target, AMQP_VALUES_LIB_DIR=str(tmp_path / "named"), CC="false")
    assert linked(done) == tmp_path / "named"
    assert f"cargo:rerun-if-changed={tmp_path}/named/{LIBRARY}\n" in done.stdout


def test_folder_is_relative(script: Script) -> None:
    done = script(AMQP_VALUES_LIB_DIR="out/build")
    assert sentence(done) == f"{NAMED_BY} has to be an absolute path, and is out/build"


def test_folder_has_no_library(script: Script, tmp_path: Path) -> None:
    done = script(AMQP_VALUES_LIB_DIR=str(tmp_path))
    assert sentence(done) == f"{NAMED_BY} is {tmp_path}, and that has no {LIBRARY}"


def install(folder: Path, version: str = VERSION) -> Path:
    """Has pkg-config know a library; its folder."""
    (folder / "lib").mkdir()
    (folder / "lib" / LIBRARY).touch()
    about = f"libdir={folder}/lib\nName: amqp_values\nDescription: it\nVersion: {version}\n"
    (folder / "amqp_values.pc").write_text(about)
    return folder / "lib"


def test_installed_library(script: Script, tmp_path: Path) -> None:
    assert install(tmp_path) == linked(script(RISCV64, RISCV64))


def test_compiled_code_comes_before_an_installed_library(script: Script, tmp_path: Path) -> None:
    assert install(tmp_path) != linked(script()) == tmp_path


def test_installed_library_is_for_another_machine(script: Script, tmp_path: Path) -> None:
    install(tmp_path)
    assert sentence(script(RISCV64, X86_64)) == unsupported("riscv64", "linux")


def test_installed_library_has_another_version(script: Script, tmp_path: Path) -> None:
    install(tmp_path, "1.2.4")
    assert sentence(script(RISCV64, RISCV64)) == unsupported("riscv64", "linux")


def test_only_the_shared_library_is_installed(script: Script, tmp_path: Path) -> None:
    (install(tmp_path) / LIBRARY).unlink()
    assert sentence(script(RISCV64, RISCV64)) == unsupported("riscv64", "linux")


def test_unsupported_system(script: Script) -> None:
    assert sentence(script(MACOS, MACOS)) == unsupported("aarch64", "macos")


# By cargo


@pytest.fixture(scope="session")
def clone(tmp_path_factory: pytest.TempPathFactory) -> Path:
    """This repository, with what isn't committed yet."""
    folder = tmp_path_factory.mktemp("clone") / "maolkint"
    copy_repository(folder)
    commands = "git init -q; git add -A; git -c user.name=test -c user.email=test commit -qm All"
    assert_well(run(["sh", "-ec", commands], folder))
    return folder


# A program that decodes a table with one key, by the calls that allocate too.
MAIN = r"""
fn main() {
    println!("{}", amqp_values::table_to_json(b"\0\0\0\x04\x01at\x01", amqp_values::Limits::DEFAULT, false).unwrap());
}
"""


class Mine(NamedTuple):
    """A user's crate next to a clone, and the variables of the user's machine."""

    folder: Path
    env: dict[str, str]

    def shell(self, commands: str, **more: str) -> str:
        """Runs commands in the crate's folder; what they print as progress."""
        done = run(["sh", "-ec", commands], self.folder, {**self.env, **more})
        assert_well(done)
        return done.stderr

    def builds(self, **more: str) -> bool:
        """Whether cargo builds amqp-values-sys now."""
        return "Compiling amqp-values-sys" in self.shell("cargo build", **more)

    def is_well(self) -> bool:
        return self.shell("cargo run --quiet >out") == "" and (self.folder / "out").read_text() == '{"a":true}\n'


@pytest.fixture
def mine(clone: Path, tmp_path: Path) -> Mine:
    folder = tmp_path / "mine"
    (tmp_path / clone.name).symlink_to(clone)
    (folder / "src").mkdir(parents=True)
    (folder / "src/main.rs").write_text(MAIN)
    (folder / "Cargo.toml").write_text('[package]\nname = "mine"\nedition = "2021"\nversion = "0.1.0"\n')
    path = [it for it in os.environ["PATH"].split(":") if not (Path(it) / "rt").exists()]
    outside = {name: value for name, value in os.environ.items() if name != NAMED_BY}
    return Mine(folder, {**outside, "CARGO_HOME": str(tmp_path / "home"), "PATH": ":".join(path)})


def blocks_of_page() -> list[str]:
    section = (TOP / "docs/RUST.md").read_text().partition("\n## Get it\n")[2].partition("\n## ")[0]
    return re.findall(r"```console\n(.*?)```", section, re.DOTALL)


@pytest.mark.parametrize("block", blocks_of_page())
def test_commands_of_page(mine: Mine, clone: Path, block: str) -> None:
    """Build a clone, by its folder and by its URL."""
    assert "Compiling amqp-values-sys" in mine.shell(
        re.sub("(?m)^[$] ", "", block).replace("/srv/maolkint", str(clone))
    )
    assert mine.is_well()


def test_is_built_again_after_changes(mine: Mine) -> None:
    """Of the compiled code, and of the variables that name programs."""
    mine.shell("cargo add --path ../maolkint/bindings/rust/amqp-values")
    assert mine.builds() and not mine.builds()
    mine.shell("touch ../maolkint/generated/x86_64-linux/amqp_c_alloc.s")
    assert mine.builds() and not mine.builds()
    assert mine.builds(CC="gcc") and not mine.builds(CC="gcc")


def test_vendored(mine: Mine, clone: Path) -> None:
    """With a copy of the compiled code."""
    mine.shell(f"cargo add --git file://{clone} amqp-values")
    mine.shell("cargo vendor >config; mkdir .cargo; mv config .cargo/config.toml")
    mine.shell("cp -r ../maolkint/generated vendor/amqp-values-sys")
    assert mine.is_well()
