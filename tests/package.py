"""`put_package` builds the Python package and puts it on `sys.path`, for the suites python and rabbitmq.

It is built before the tests are read that import it: once, also if several processes run them.
"""

import os
import shutil
import sys
import tempfile
from functools import partial
from pathlib import Path

import pytest

from tests.compiling import compile_package

# The folder that has the package, in the environment of the processes that run tests side by side.
BUILT = "AMQP_VALUES_PACKAGE"


def put_package(config: pytest.Config) -> None:
    """Puts the package on the path."""
    if BUILT not in os.environ:
        # (it isn't in the last folders that pytest keeps, since those of processes that run side by side begin anew)
        folder = tempfile.mkdtemp(prefix="amqp-values-")
        config.add_cleanup(partial(shutil.rmtree, folder))
        if wrong := compile_package(Path(folder)):
            raise pytest.UsageError(wrong)
        os.environ[BUILT] = folder
    sys.path.insert(0, os.environ[BUILT])
