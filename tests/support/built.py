"""The built programs and libraries that the tests run.

They are in one folder: the one that the environment variable HDT_BUILT names, else the one that belongs to the tree's
sources, as `tools/current` says: the shipped files in dist/, or those that `make` has built in out/.
"""

from __future__ import annotations

import os
import subprocess
from pathlib import Path

import pytest

TOP = Path(__file__).resolve().parents[2]
SAMPLES = TOP / "samples"


def _folder() -> Path:
    """Return the folder of built files. Ends the test run if there is none."""
    if named := os.environ.get("HDT_BUILT"):
        return Path(named).resolve()
    found = subprocess.run([TOP / "tools/current"], stdout=subprocess.PIPE, stderr=subprocess.PIPE, text=True)
    if found.returncode:
        pytest.exit(found.stderr.strip(), returncode=2)
    return TOP / found.stdout.strip()


BUILT = _folder()
PROGRAM = BUILT / "hdt"
SHARED_LIBRARY = BUILT / "libhdt.so"
STATIC_LIBRARY = BUILT / "libhdt.a"
