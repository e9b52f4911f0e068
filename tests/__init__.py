"""Puts packaging/, whose modules the tests share with CI and with what is packed, on `sys.path`."""

import sys
from pathlib import Path

sys.path.append(str(Path(__file__).resolve().parent.parent / "packaging"))
