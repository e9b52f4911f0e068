"""`compile_package` compiles the Python package of bindings/python into a folder, for tests and bench."""

import shutil
import tempfile
from pathlib import Path

from building import static_library
from wheels import INCLUDE, PACKAGE, PYTHON, Words, ran

WARNINGS = ("-Wall", "-Wextra", "-Wpedantic", "-Wconversion", "-Wshadow", "-Werror")


def compile_package(folder: Path, options: Words = ()) -> str:
    """Puts the package into a folder, for Debian's Python and tests; what went wrong. Options are the compiler's."""
    made = folder / "amqp_values"
    shutil.copytree(PACKAGE / "amqp_values", made, ignore=shutil.ignore_patterns("*.so", "__pycache__"))
    python = ran([PYTHON, "-c", "import sysconfig; print(sysconfig.get_path('include'))"])[0].strip()
    flags = ["-std=c11", "-O2", "-g", "-fPIC", "-fvisibility=hidden", *WARNINGS, f"-I{INCLUDE}", f"-I{python}"]
    sources = sorted((PACKAGE / "src").glob("*.c"))
    with tempfile.TemporaryDirectory(prefix="library-") as name:
        words = ["cc", "-shared", *flags, *options, "-o", made / "_native.abi3.so", *sources]
        return ran([*words, static_library(Path(name))])[1]
