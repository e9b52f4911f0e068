"""Builds the extension with a C compiler and ar: the C API, whose assembly is in generated/, and the C of src over it."""

import re
import shutil
import subprocess
import sys
import sysconfig
import tempfile
from pathlib import Path
from typing import Any

from setuptools import Extension, setup
from setuptools.command.build_ext import build_ext
from setuptools.command.egg_info import egg_info

HERE = Path(__file__).resolve().parent
TOP = HERE.parents[1]
INCLUDE, GENERATED = TOP / "include", TOP / "generated"
NAMES = {"linux": "Linux", "macosx": "macOS", "win": "Windows", "win32": "Windows"}
SOURCES = ("codec", "errors", "json", "module", "read", "write")
# (on no other path the C API is among the module's own symbols)
LINKING = ["-Wl,-s", "-Wl,--exclude-libs,ALL", "-Wl,--gc-sections", "-Wl,-z,relro,-z,now"]


def assembly() -> list[str]:
    """The files of generated/ for the platform that is built for."""
    if not GENERATED.is_dir():
        sys.exit(f"amqp_values is built in a clone of its repository, by pip 21.3 or later: there is no {GENERATED}")
    platform = sysconfig.get_platform()
    system, processor = platform.partition("-")[0], platform.rpartition("-")[2]
    if sys.maxsize < 2**32:
        processor = f"32-bit {processor}"
    found = sorted(map(str, (GENERATED / f"{processor}-{system}").glob("*.s")))
    return found or sys.exit(
        "amqp_values has compiled code for x86_64 and aarch64 Linux only, and not for"
        f" {processor} {NAMES.get(system, system)}: see docs/PLATFORMS.md"
    )


def description() -> str:
    """docs/PYTHON.md without its heading, and without links and text that are only for the repository."""
    with tempfile.TemporaryDirectory() as folder:
        subprocess.run([sys.executable, TOP / "packaging/installed_pages.py", folder, "PYTHON.md"], check=True)
        return (Path(folder) / "PYTHON.md").read_text(encoding="utf-8").removeprefix("# Python\n\n")


class BuildExtension(build_ext):
    """Makes the C API an archive, of which the linker leaves no symbol in the module."""

    def build_extension(self, ext: Extension) -> None:
        self.compiler.src_extensions = [*self.compiler.src_extensions, ".s"]
        objects = self.compiler.compile(ASSEMBLY, output_dir=self.build_temp)
        self.compiler.create_static_lib(objects, "amqp_values", output_dir=self.build_temp)
        ext.extra_objects = [str(Path(self.build_temp) / "libamqp_values.a")]
        super().build_extension(ext)


class NameNotices(egg_info):
    """Has the package contain the notices. (Of some versions of setuptools `setup` ignores them.)"""

    distribution: Any

    def finalize_options(self) -> None:
        super().finalize_options()
        self.distribution.metadata.license_files = NOTICES


ASSEMBLY, NOTICES = assembly(), ["LICENSE", "THIRD-PARTY"]
for name in NOTICES:
    # (setuptools takes them only from here)
    shutil.copyfile(TOP / name, HERE / name)
found = re.search(r'(?m)^#define AMQPV_VERSION "(.*)"$', (INCLUDE / "amqp_values.h").read_text())

setup(
    version=found[1] if found else sys.exit("the header has no version"),
    license="BSD-2-Clause",
    long_description=description(),
    long_description_content_type="text/markdown",
    cmdclass={"build_ext": BuildExtension, "egg_info": NameNotices},
    ext_modules=[
        Extension(
            "amqp_values._native",
            [f"src/{it}.c" for it in SOURCES],
            depends=["src/values.h", *map(str, INCLUDE.glob("*.h")), *ASSEMBLY],
            include_dirs=[str(INCLUDE)],
            extra_compile_args=[
                "-std=c11",
                "-O2",
                "-fvisibility=hidden",
                "-Wall",
                "-Wextra",
                "-Wpedantic",
                "-Wconversion",
            ],
            extra_link_args=LINKING,
            py_limited_api=True,
        )
    ],
    options={"build": {"build_base": str(TOP / "out/python")}, "bdist_wheel": {"py_limited_api": "cp310"}},
)
