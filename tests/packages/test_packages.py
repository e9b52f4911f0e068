"""Debian's packages (debian/) and the archives of a release, as someone uses them who has only these.

With --root a release is installed, used and removed in a fresh root, by tests/release.
"""

import os
import re
import shutil
import tarfile
from datetime import datetime, timezone
from pathlib import Path

import pytest
from dependencies import TOP

from tests.c.compiling import Words, assert_well, printed, run, version
from tests.c.pages import command_of_consumer, commands_of_first, names_that_lack
from tests.c.places import NAME, PATH, files_in

OF_LIBRARY = ["libamqp-values-dev", "libamqp-values0"]
PACKAGES = ["amqp-show", *OF_LIBRARY]

# Packages


def packed(repository: Path) -> Path:
    """Makes packages of Debian, in which lintian finds no error; the folder that has them."""
    assert_well(run(["make", "deb"], cwd=repository))
    path = repository / "out/deb"
    assert_well(run(["lintian", "--fail-on", "error", "--no-cfg", "--allow-root", *path.glob("*.deb")]))
    return path


@pytest.fixture(scope="module")
def packages(repository: Path) -> Path:
    return packed(repository)


@pytest.fixture(scope="module")
def unpacked(packages: Path, folder: Path) -> Path:
    """What is in them."""
    path = folder / "unpacked"
    for it in packages.glob("*.deb"):
        assert_well(run(["dpkg", "-x", it, path]))
    return path


@pytest.fixture(scope="module")
def of_packages(unpacked: Path) -> dict[str, str]:
    """The environment of a machine that has the packages."""
    lib = unpacked / "usr/lib/x86_64-linux-gnu"
    env = {"PATH": PATH, "LD_LIBRARY_PATH": str(lib), "PKG_CONFIG_PATH": str(lib / "pkgconfig")}
    return env | {"PKG_CONFIG_SYSROOT_DIR": str(unpacked)}


def names(packages: Path) -> list[str]:
    return sorted(it.name.partition("_")[0] for it in packages.glob("*.deb"))


def test_packages(packages: Path) -> None:
    assert names(packages) == PACKAGES


def test_packages_leave_no_links(repository: Path, packages: Path) -> None:
    """`rt ci` refuses links."""
    assert [
        it for folder in ("debian", "out/debian") for it in (repository / folder).rglob("*") if it.is_symlink()
    ] == []


def test_packages_have_the_version_of_the_header(packages: Path) -> None:
    assert {it.name.split("_")[1] for it in packages.glob("*.deb")} == {f"{version()}-1"}


def test_headers_need_the_same_library(packages: Path) -> None:
    (path,) = packages.glob("libamqp-values-dev_*.deb")
    needs = printed(["dpkg-deb", "-f", path, "Depends"]).strip().split(", ")
    assert f"libamqp-values0 (= {version()}-1)" in needs


def test_day_is_that_of_the_changes() -> None:
    """debian/changelog has the day of CHANGELOG.md, once there is one."""
    found = re.search(rf"(?m)^## {re.escape(version())}, (.*)$", (TOP / "CHANGELOG.md").read_text())
    stamp = printed(["dpkg-parsechangelog", "-l", TOP / "debian/changelog", "-S", "Timestamp"])
    day = datetime.fromtimestamp(int(stamp), timezone.utc).date().isoformat()
    assert found and found[1] in ("unreleased", day)


def test_packages_again(repository: Path, packages: Path, tmp_path: Path) -> None:
    """They are made of the same bytes again."""
    shutil.copytree(packages, tmp_path / "before")
    assert_well(run(["make", "deb"], cwd=repository))
    assert_well(run(["diff", "-r", packages, tmp_path / "before"]))


def test_packages_without_the_tool(clone: Path, packages: Path) -> None:
    """Where amqp_show isn't built, the library's have the same bytes."""
    found = packed(clone)
    assert names(found) == OF_LIBRARY
    for it in found.glob("*.deb"):
        assert it.read_bytes() == (packages / it.name).read_bytes()


@pytest.mark.parametrize("package", ("libamqp-values-dev", "amqp-show"))
def test_names_in_pages_of_package(unpacked: Path, package: str) -> None:
    assert names_that_lack(unpacked / f"usr/share/doc/{package}", unpacked) == []


@pytest.mark.parametrize("package", PACKAGES)
def test_notices_in_package(unpacked: Path, package: str) -> None:
    doc = unpacked / f"usr/share/doc/{package}"
    assert (doc / "THIRD-PARTY").read_text() == (TOP / "THIRD-PARTY").read_text()
    assert "THIRD-PARTY" in (doc / "copyright").read_text()


def test_program_over_packages(unpacked: Path, of_packages: dict[str, str], tmp_path: Path) -> None:
    """The first program of the page."""
    flags = printed(["pkg-config", "--cflags", "--libs", NAME], env=of_packages).split()
    # (a flag for a folder that a compiler knows isn't printed)
    flags += [f"-I{unpacked / 'usr/include'}", f"-L{unpacked / 'usr/lib/x86_64-linux-gnu'}"]
    program, source = tmp_path / "program", unpacked / "usr/share/doc/libamqp-values-dev/examples/c/print_value.c"
    words: Words = ["cc", "-std=c11", "-Wall", "-Wextra", "-Werror", "-o", program, source, *flags]
    assert_well(run(words, env=of_packages))
    assert printed([program], input="49 00000007", env=of_packages) == "5 bytes\nLongInt 7\n"


def test_consumer_over_packages(unpacked: Path, of_packages: dict[str, str], tmp_path: Path) -> None:
    """The command of the page keeps the library before librabbitmq, though the consumer doesn't call it."""
    (tmp_path / "consumer.c").write_text("#include <amqp.h>\nint main(void) { return amqp_version_number() == 0; }\n")
    command = command_of_consumer((unpacked / "usr/share/doc/libamqp-values-dev/C.md").read_text())
    # (a flag for a folder that a compiler knows isn't printed)
    folders = {"CPATH": f"{unpacked}/usr/include", "LIBRARY_PATH": f"{unpacked}/usr/lib/x86_64-linux-gnu"}
    assert_well(run(["sh", "-ec", command], cwd=tmp_path, env={**of_packages, **folders}))
    needed = re.findall(r"NEEDED.*\[(.*?)\.so", printed(["readelf", "-d", tmp_path / "consumer"]))
    assert needed[:2] == [f"lib{NAME}_rabbitmq", "librabbitmq"]


def test_tool_of_package(unpacked: Path, of_packages: dict[str, str]) -> None:
    said = printed([unpacked / "usr/bin/amqp_show", "--hex"], input="49 00000007", env=of_packages)
    assert said == "LongInt 7\n= a value of 5 bytes\n"


@pytest.mark.parametrize("page", ("man3/amqp_values.3.gz", "man1/amqp_show.1.gz"))
def test_manual_of_packages(unpacked: Path, of_packages: dict[str, str], page: str) -> None:
    words: Words = ["man", "--warnings", "-l", unpacked / "usr/share/man" / page]
    done = run(words, env={**of_packages, "MANWIDTH": "80"})
    assert_well(done)
    assert done.stderr == ""


# A release


@pytest.fixture(scope="module")
def committed(repository: Path) -> Path:
    """The repository, in which all is committed."""
    day = {"GIT_AUTHOR_DATE": "2026-01-01T00:00:00Z", "GIT_COMMITTER_DATE": "2026-01-01T00:00:00Z"}
    for words in ("init -q", "add -A", "-c user.name=nobody -c user.email=nobody@example.org commit -qm all"):
        assert_well(run(["git", "-C", repository, *words.split()], env={**os.environ, **day}))
    return repository


def released(repository: Path, to: Path, **env: str) -> Path:
    assert_well(run([repository / "packaging/release", "--checked", to], env={**os.environ, **env}))
    return to


@pytest.fixture(scope="module")
def release(committed: Path, folder: Path) -> Path:
    """What a release consists of."""
    return released(committed, folder / "release", TZ="UTC")


@pytest.fixture(scope="module")
def archive(release: Path, folder: Path) -> Path:
    """The folder of the archive for x86-64, as it is unpacked."""
    (name,) = release.glob("*-x86_64-linux-gnu.tar.gz")
    assert_well(run(["tar", "-xzf", name, "-C", folder]))
    return folder / name.name.removesuffix(".tar.gz")


@pytest.mark.needs("aarch64")
class TestRelease:
    """A release is made, and what the README of an archive says is done in it."""

    def test_files(self, release: Path) -> None:
        name, wheel = f"amqp_values-{version()}", f"amqp_values-{version()}-cp310-abi3-manylinux_2_17"
        archives = {f"{name}{it}.tar.gz" for it in ("", "-x86_64-linux-gnu", "-aarch64-linux-gnu")}
        packages = {f"{it}_{version()}-1_amd64.deb" for it in PACKAGES}
        others = {"amqp.html", "SHA256SUMS", f"{wheel}_x86_64.whl", f"{wheel}_aarch64.whl"}
        assert files_in(release) == archives | packages | others

    def test_again(self, committed: Path, release: Path, tmp_path: Path) -> None:
        """It has the same bytes, with another umask and in another time zone, and is made in another folder."""
        before = os.umask(0o077)
        try:
            again = released(committed, tmp_path / "again", TZ="Asia/Kathmandu", LC_ALL="C.UTF-8")
        finally:
            os.umask(before)
        assert (again / "SHA256SUMS").read_text() == (release / "SHA256SUMS").read_text()

    @pytest.mark.needs("--root")
    def test_on_a_fresh_machine(self, release: Path) -> None:
        assert_well(run([TOP / "tests/release", release]))

    def test_checksums(self, release: Path) -> None:
        said = printed(["sha256sum", "--check", "SHA256SUMS"], cwd=release)
        assert len(said.splitlines()) == len(files_in(release)) - 1

    def test_nothing_else_than_what_is_committed(self, committed: Path, tmp_path: Path) -> None:
        (committed / "other").touch()
        done = run([committed / "packaging/release", "--checked", tmp_path / "release"])
        (committed / "other").unlink()
        assert done.returncode == 1
        assert "?? other" in done.stderr

    @pytest.mark.parametrize("name", ("LICENSE", "THIRD-PARTY"))
    def test_notices(self, archive: Path, name: str) -> None:
        assert (archive / name).read_text() == (TOP / name).read_text()

    def test_commands_of_readme(self, archive: Path) -> None:
        commands, wants = commands_of_first((archive / "README.md").read_text())
        assert wants
        assert printed(["sh", "-ec", commands], cwd=archive, env={"PATH": PATH}) == wants

    def test_archives_without_the_tool(self, clone: Path, release: Path) -> None:
        """Where amqp_show isn't built, those of `make dist` have all else."""
        assert_well(run(["make", "dist"], cwd=clone))
        for it in sorted((clone / "out/packed").iterdir()):
            with tarfile.open(it) as found, tarfile.open(release / it.name) as wanted:
                lacks = {*wanted.getnames()} - {*found.getnames()}
            top = it.name.removesuffix(".tar.gz")
            tool = {
                f"{top}/{name}" for name in ("bin", "bin/amqp_show", "share/man/man1", "share/man/man1/amqp_show.1")
            }
            assert lacks == (tool if "x86_64" in top else set())
