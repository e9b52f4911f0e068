"""`copy_repository` copies the repository, for tests that change or build it elsewhere."""

import shutil
from pathlib import Path

from dependencies import TOP, said_by


def copy_repository(to: Path) -> None:
    """Copies the files that git tracks or would track."""
    for name in said_by("git", "-C", str(TOP), "ls-files", "-co", "--exclude-standard", "-z").split("\0"):
        if name and (TOP / name).exists():
            (to / name).parent.mkdir(parents=True, exist_ok=True)
            shutil.copy2(TOP / name, to / name)
