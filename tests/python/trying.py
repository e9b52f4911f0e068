"""Tries a wheel, for test_wheel.py: by each Python that is found (`try_wheel`), by Debian 13's, and by one for aarch64.

tests/rabbitmq and tests/vectors run the Python of a root of Debian by `python_in`.
"""

import os
import re
import shutil
import tempfile
from collections.abc import Iterator
from pathlib import Path

from building import X86_64
from wheels import PYTHON, Words, ran

# The first Python that the wheel is for.
FIRST = (3, 10)
# The latest GLIBC whose symbols a wheel of manylinux_2_17 may need.
GLIBC = (2, 17)
# What is tried of a wheel that is installed.
TRIED = """
import decimal, doctest, pathlib, sys
import amqp_values as av
assert "site-packages" in av.__file__, av.__file__
tried = 0
for it in (av, *(it for name, it in vars(av).items() if name[0] != "_")):
    for test in doctest.DocTestFinder(recurse=False).find(it, "it", globs=vars(av).copy()):
        results = doctest.DocTestRunner().run(test)
        assert not results.failed
        tried += results.attempted
assert tried >= 12, tried
for value in ({}, {"a": [None, True, -1, 1.5, "x", b"y", decimal.Decimal("1.5")]}, [[[]]] * 3):
    assert av.loads(av.dumps(value)) == value
for bytes_ in (b"", b"z", b"S\\0\\0\\0\\1", b"S\\0\\0\\0\\1\\xff", b"A" * 99):
    try:
        av.loads(bytes_)
    except av.Error:
        tried += 1
here = pathlib.Path(av.__file__).parent
assert (here / "py.typed").exists()
from amqp_values.adapters.shared import Client, Codec
codec = Codec(Client())
table, end = codec.read(codec.write({"a": [1, 2.5, decimal.Decimal("1.5")], "b": {"": None}}), 0)
assert table == {"a": [1, 2.5, decimal.Decimal("1.5")], "b": {"": None}} and codec.write(table) == table.raw and end == 44, end
for it in ("LICENSE", "THIRD-PARTY"):
    assert "Copyright" in next(here.parent.glob("amqp_values-*/" + it)).read_text()
if sys.version_info >= (3, 13):
    import _interpreters
    code = f"import sys; sys.path[:] = {sys.path}; import amqp_values"
    said = [_interpreters.run_string(_interpreters.create(it), code) for it in ("legacy", "isolated")]
    assert not said[0] and said[1].msg.endswith("_native does not support loading in subinterpreters"), said
print("%d.%d.%d: %d tried" % (*sys.version_info[:3], tried))
"""


def wrong_symbols(wheel: Path, target: str = X86_64) -> Iterator[str]:
    """Yields what the extension in a wheel needs or shows that it mustn't."""
    with tempfile.TemporaryDirectory(prefix="wheel-") as folder:
        shutil.unpack_archive(wheel, folder, "zip")
        (built,) = Path(folder).glob("amqp_values/*.so")
        if built.name != "_native.abi3.so":
            yield f"it is {built.name}"
        table = ran(["readelf", "--dyn-syms", "-W", built])[0]
        needed = re.findall(r"NEEDED.*\[(.*)\]", ran(["readelf", "-d", "-W", built])[0])
        machine = re.findall(r"Machine: *(.*)", ran(["readelf", "-h", built])[0])
    for version in sorted({*re.findall(r"@+GLIBC_([\d.]+)", table)}):
        if tuple(map(int, version.split("."))) > GLIBC:
            yield f"it needs GLIBC_{version}"
    if "@GLIBC" not in table:
        yield "no symbol of GLIBC was found"
    if not {*needed} <= {"libc.so.6", "ld-linux-aarch64.so.1"}:
        yield f"it needs {needed}"
    if (shown := symbols_shown(table)) != {"PyInit__native"}:
        yield f"it shows {sorted(shown)}"
    if ("X86-64" in machine[0]) != (target == X86_64):
        yield f"it is for {machine[0]}"


def symbols_shown(table: str) -> set[str]:
    """The symbols that a module shows, by what `readelf --dyn-syms -W` prints."""
    return {line.split()[7] for line in table.splitlines() if re.search(r" (GLOBAL|WEAK) +DEFAULT +\d", line)}


def pythons() -> list[Path]:
    """Debian's Python, and each other from 3.10 on that is found, of each version one."""
    names = [f"python3.{minor}" for minor in range(FIRST[1], 20)]
    places = [Path(it) for it in (*os.environ.get("PATH", "").split(":"), "/usr/local/bin")]
    found = [Path(PYTHON), *(place / name for name in names for place in places)]
    for pattern in (".pyenv/versions/*/bin/python3", ".local/share/uv/python/*/bin/python3"):
        found += sorted(Path.home().glob(pattern))
    found += sorted(Path("/opt/python").glob("cp3*/bin/python3"))
    kept: dict[str, Path] = {}
    for it in found:
        if not os.access(it, os.X_OK):
            continue
        said = ran([it, "-c", "import sys; print(sys.implementation.name, *sys.version_info[:2], sys.executable)"])[
            0
        ].split()
        # (a name of pyenv may be of no version that is chosen)
        if said[:1] == ["cpython"] and (int(said[1]), int(said[2])) >= FIRST:
            kept.setdefault(".".join(said[1:3]), Path(said[3]))
    return [*kept.values()]


def try_wheel(wheel: Path, python: Path) -> tuple[str, str]:
    """Installs a wheel into a fresh environment, from that file alone, and tries it; what was said, and what went wrong."""
    clean = {name: it for name, it in os.environ.items() if not name.startswith(("PYTHON", "PIP_"))}
    with tempfile.TemporaryDirectory(prefix="wheel-") as folder:
        own = Path(folder) / "env/bin/python"
        how = ["--no-index", "--no-deps", "--no-cache-dir", "--disable-pip-version-check", "-q"]
        # (of that Python's own pip, which needs no second one)
        steps: list[Words] = [
            [python, "-m", "venv", "--without-pip", Path(folder) / "env"],
            [python, "-m", "pip", "--python", own, "install", *how, wheel],
            [own, "-I", "-c", TRIED],
        ]
        for words in steps:
            said, wrong = ran(words, env=clean, cwd=folder)
            if wrong:
                return "", wrong
    return said.strip(), ""


def python_in(root: Path) -> tuple[list[str], dict[str, str]]:
    """The words that run the Python of a root of Debian, without its being entered, and the variables that it needs."""
    if root == Path("/"):
        return [PYTHON], {}
    own = [root / "lib64/ld-linux-x86-64.so.2", "--library-path", root / "usr/lib/x86_64-linux-gnu"]
    return [str(it) for it in (*own, *root.glob("usr/bin/python3.[0-9]*[0-9]"))], {"PYTHONHOME": str(root / "usr")}


def try_unpacked(wheel: Path, words: Words, env: dict[str, str]) -> tuple[str, str]:
    """Tries a wheel by a Python for which there is no pip: it is unpacked where pip would; what was said, and what went wrong."""
    with tempfile.TemporaryDirectory(prefix="wheel-") as folder:
        packages = Path(folder) / "site-packages"
        shutil.unpack_archive(wheel, packages, "zip")
        return try_packages(packages, words, env)


def try_packages(packages: Path, words: Words, env: dict[str, str]) -> tuple[str, str]:
    """Tries what was installed into a folder; what was said, and what went wrong."""
    clean = {"PATH": os.environ["PATH"], "PYTHONPATH": str(packages), **env}
    said, wrong = ran([*words, "-B", "-c", TRIED], env=clean)
    return said.strip(), wrong


# What Debian's Python for aarch64 needs to run; where apt gets Debian's packages; and the line that these come by.
OF_AARCH64 = (
    "python3.11-minimal libpython3.11-minimal libpython3.11-stdlib libc6 zlib1g libexpat1 libffi8 libgcc-s1 libuuid1"
)
MIRRORS = ["apt-get", "indextargets", "--format", "$(REPO_URI)", "Created-By: Packages", "Label: Debian"]
SOURCE = "deb [signed-by=/usr/share/keyrings/debian-archive-keyring.gpg] %s bookworm main\n"


def put_python_of_aarch64(root: Path) -> str:
    """Unpacks Debian's Python for aarch64 into a folder, by apt-get, which keeps nothing elsewhere; what went wrong."""
    state = root / "apt"
    for it in ("lists/partial", "archives/partial", "debs"):
        (state / it).mkdir(parents=True)
    (state / "sources.list").write_text(SOURCE % "".join(ran(MIRRORS)[0].split()[:1]))
    (state / "status").touch()
    places = {
        "APT::Architecture": "arm64",
        "APT::Architectures": "arm64",
        "APT::Sandbox::User": "root",
        "Dir::Cache": state,
        "Dir::Etc::sourcelist": state / "sources.list",
        "Dir::Etc::sourceparts": "-",
        "Dir::State::lists": state / "lists",
        "Dir::State::status": state / "status",
    }
    how = [word for name, it in places.items() for word in ("-o", f"{name}={it}")]
    for words in (["update"], ["download", *OF_AARCH64.split()]):
        wrong = ran(["apt-get", "-qq", *how, *words], cwd=state / "debs")[1]
        if wrong:
            return wrong
    wrongs = (ran(["dpkg", "-x", it, root])[1] for it in (state / "debs").glob("*.deb"))
    return "".join(wrongs)


def try_wheel_of_aarch64(wheel: Path) -> tuple[str, str]:
    """Tries a wheel, which is unpacked where pip would, by Debian's Python of that processor, which qemu runs."""
    with tempfile.TemporaryDirectory(prefix="wheel-") as folder:
        root = Path(folder)
        wrong = put_python_of_aarch64(root)
        if wrong:
            return "", wrong
        python = root / "usr/bin/python3.11"
        said, wrong = try_unpacked(wheel, ["qemu-aarch64", "-L", root, python], {"PYTHONHOME": str(root / "usr")})
        machine, _ = ran(["readelf", "-h", python])
        return f"{said} on {'aarch64' if 'AArch64' in machine else 'another'}", wrong
