"""The cells of the docs, each run and compared."""

import subprocess
import sys

import pytest
from conftest import TOP, needs_program


@needs_program
@pytest.mark.parametrize("file", ["README.md", "docs/PYTHON.md"])
def test_cells(file):
    ran = subprocess.run([sys.executable, TOP / "python/cells", TOP / file], stdout=subprocess.PIPE, stderr=subprocess.STDOUT, check=False)
    assert ran.returncode == 0, ran.stdout.decode()
