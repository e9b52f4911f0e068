"""The package as pip builds it from the sources, and the wheel: made as `make wheel` makes it, checked, and installed from that file alone."""

import re
import shutil
from collections.abc import Callable
from pathlib import Path

import pytest
from building import AARCH64, X86_64
from dependencies import TOP
from pip._vendor.packaging.markers import Marker
from wheels import OFFLINE, PROCESSORS, PYTHON, Words, copy_sources, make_wheel, ran

from tests.conftest import WITHOUT
from tests.python.trying import FIRST, python_in, pythons, symbols_shown, try_packages, try_unpacked, try_wheel
from tests.python.trying import try_wheel_of_aarch64, wrong_symbols
from tests.rabbitmq.broker import DEBIAN_13, ROOTS

Record = Callable[[str, object], None]
PAGE = (TOP / "docs/PYTHON.md").read_text()
# What pip is run with: Debian's programs, among which rt isn't, and nothing that changes what pip or Python do.
CLEAN = {"PATH": "/usr/bin:/bin", "HOME": "/nonexistent", "LC_ALL": "C.UTF-8"}
NO_CODE = "amqp_values has compiled code for x86_64 and aarch64 Linux only, and not for {}: see docs/PLATFORMS.md"


def wheel_for(target: str, folder: Path) -> Path:
    """A wheel that is made in a folder, and whose symbols are right."""
    wheel, wrong = make_wheel(folder, target)
    assert not wrong, wrong
    assert wheel.name.endswith(f"-cp310-abi3-manylinux_2_17_{PROCESSORS[target]}.whl")
    assert not [*wrong_symbols(wheel, target)]
    return wheel


def test_wheel(tmp_path: Path, record_property: Record) -> None:
    """For each Python that is found, Debian 12's always, and Debian 13's in the root of the broker."""
    wheel = wheel_for(X86_64, tmp_path)
    found = pythons()
    assert found[0].resolve() == Path(PYTHON).resolve()
    for python in found:
        said, wrong = try_wheel(wheel, python)
        assert not wrong, f"{python}: {wrong}"
        record_property(f"the wheel is installed for {python}", said)
    if "broker" not in WITHOUT:
        said, wrong = try_unpacked(wheel, *python_in(ROOTS[DEBIAN_13]))
        assert not wrong and said.startswith("3.13."), f"{said} {wrong}"
        record_property("the wheel is tried by Debian 13's Python", said)
    assert f"$ pip install {wheel.name}\n" in PAGE


def test_same_bytes(tmp_path: Path) -> None:
    """A wheel that is made again, in another folder, has the same bytes."""
    assert wheel_for(X86_64, tmp_path / "one").read_bytes() == wheel_for(X86_64, tmp_path / "two").read_bytes()


def test_metadata(tmp_path: Path) -> None:
    """What PyPI shows: the page without what is only for the repository, and the addresses in the line that a release fills."""
    folder = copy_sources(tmp_path, X86_64)
    project = (folder / "pyproject.toml").read_text().split("\nurls = {}\n")
    (folder / "pyproject.toml").write_text('\nurls = { Source = "https://example.org" }\n'.join(project))
    assert ran([PYTHON, "setup.py", "-q", "egg_info"], cwd=folder, env=CLEAN)[1] == ""
    head, _, page = (folder / "amqp_values.egg-info/PKG-INFO").read_text().partition("\n\n")
    shown = {"Project-URL: Source, https://example.org", "Description-Content-Type: text/markdown"}
    assert {*shown, f"Classifier: Programming Language :: Python :: 3.{FIRST[1]}"} <= {*head.split("\n")}
    assert page.startswith("`amqp_values` reads") and not re.search(r"\]\(|clone|make ", page)


# From the sources, by pip


def from_folder(sources: Path) -> str:
    return f"{sources}/bindings/python"


def from_git(sources: Path) -> str:
    """What pip clones the sources by. They are committed."""
    git: Words = ["git", "-C", sources, "-c", "user.name=it", "-c", "user.email=it", "-c", "init.defaultBranch=main"]
    for words in (["init", "-q"], ["add", "-A"], ["commit", "-qm", "all"]):
        assert ran([*git, *words])[1] == ""
    return f"git+file://{sources}#subdirectory=bindings/python"


@pytest.mark.parametrize(
    ("place", "compiler"),
    (
        pytest.param(from_folder, "", id="folder"),
        pytest.param(from_git, "", id="git"),
        pytest.param(from_folder, "clang", id="clang", marks=pytest.mark.needs("clang")),
    ),
)
def test_install_from_the_sources(
    place: Callable[[Path], str], compiler: str, tmp_path: Path, record_property: Record
) -> None:
    """The module shows no symbol of the C API, and the tag is pip's own, which isn't for another machine's glibc."""
    assert not shutil.which("rt", path=CLEAN["PATH"])
    sources, packages = tmp_path / "sources", tmp_path / "site-packages"
    copy_sources(sources, X86_64, AARCH64)
    words: Words = [PYTHON, "-m", "pip", "install", *OFFLINE, "--target", packages, place(sources)]
    _, wrong = ran(words, env=CLEAN | ({"CC": compiler} if compiler else {}))
    assert not wrong, wrong
    said, wrong = try_packages(packages, [PYTHON], {})
    assert not wrong, wrong
    table, _ = ran(["readelf", "--dyn-syms", "-W", packages / "amqp_values/_native.abi3.so"])
    assert symbols_shown(table) == {"PyInit__native"}
    (tags,) = packages.glob("amqp_values-*.dist-info/WHEEL")
    assert re.findall("Tag: (.*)", tags.read_text()) == ["cp310-abi3-linux_x86_64"]
    record_property("the package is installed from the sources", said)


# pip as a machine without a network needs it, whatever its commands are: by Debian's setuptools and wheel.
WITHOUT_NETWORK = {"PIP_NO_BUILD_ISOLATION": "0", "PIP_NO_INDEX": "1", "PYTHONPATH": "/usr/lib/python3/dist-packages"}


def test_commands_of_the_page(tmp_path: Path) -> None:
    """The commands that install from a clone, and then those that run the package, print what the page shows."""
    clone = tmp_path / "clone"
    copy_sources(clone, X86_64)
    building, *running = [it for it in re.findall(r"(?ms)^```console\n(.*?)^```", PAGE) if ".whl" not in it]
    script = building.replace("$ ", "") + "exec 2>&1\n"
    shown = ""
    for command, lines in re.findall(r"(?m)^\$ (.*)\n((?:(?!\$ ).*\n)*)", "".join(running)):
        script += f"{command}\n"
        shown += lines
    said, wrong = ran(["bash", "-c", script], cwd=clone, env=CLEAN | WITHOUT_NETWORK)
    assert shown and said.endswith(f"\n{shown}"), f"{said} {wrong}"


@pytest.mark.parametrize(
    ("platform", "machine", "keeps"),
    (("linux", "x86_64", True), ("linux", "aarch64", True), ("linux", "armv7l", False), ("darwin", "x86_64", False)),
)
def test_marker_of_the_page(platform: str, machine: str, keeps: bool) -> None:
    (marker,) = re.findall(r"```text\namqp_values; (.*)\n```", PAGE)
    assert Marker(marker).evaluate({"sys_platform": platform, "platform_machine": machine}) is keeps


@pytest.mark.parametrize(
    ("platform", "named"),
    (
        ("linux-riscv64", "riscv64 Linux"),
        ("macosx-14.0-arm64", "arm64 macOS"),
        ("win-amd64", "amd64 Windows"),
        ("win32", "win32 Windows"),
    ),
)
def test_platform_without_compiled_code(platform: str, named: str, tmp_path: Path) -> None:
    """The whole message is one sentence."""
    env = CLEAN | {"_PYTHON_HOST_PLATFORM": platform}
    folder = copy_sources(tmp_path, X86_64, AARCH64)
    assert (
        ran([PYTHON, "setup.py", "--version"], cwd=folder, env=env)[1] == f"python3 failed: {NO_CODE.format(named)}\n"
    )


def test_platform_of_32_bits(tmp_path: Path) -> None:
    script = "import runpy, sys; sys.maxsize = 2**31 - 1; runpy.run_path('setup.py')"
    words: Words = [PYTHON, "-c", script, "--version"]
    _, wrong = ran(words, cwd=copy_sources(tmp_path, X86_64, AARCH64), env=CLEAN)
    assert wrong == f"python3 failed: {NO_CODE.format('32-bit x86_64 Linux')}\n"


def test_message_by_pip(tmp_path: Path) -> None:
    """pip shows the sentence, and no traceback."""
    words: Words = [PYTHON, "-m", "pip", "wheel", *OFFLINE, copy_sources(tmp_path, AARCH64)]
    _, wrong = ran(words, cwd=tmp_path, env=CLEAN)
    assert NO_CODE.format("x86_64 Linux") in wrong and "Traceback" not in wrong


def test_folder_outside_of_a_clone(tmp_path: Path) -> None:
    _, wrong = ran([PYTHON, "setup.py", "--version"], cwd=copy_sources(tmp_path), env=CLEAN)
    why = "amqp_values is built in a clone of its repository, by pip 21.3 or later: there is no"
    assert wrong == f"python3 failed: {why} {tmp_path}/generated\n"


@pytest.mark.whole
def test_wheel_for_aarch64(tmp_path: Path, record_property: Record) -> None:
    """By Debian's Python for that processor, under qemu."""
    said, wrong = try_wheel_of_aarch64(wheel_for(AARCH64, tmp_path))
    assert not wrong, wrong
    record_property("the wheel for aarch64 is tried by Debian's Python there", said)
