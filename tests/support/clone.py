"""A copy of the repository, in which a test may make and write what it likes."""

from __future__ import annotations

import shutil
from pathlib import Path

from support.built import TOP

LEFT_OUT = shutil.ignore_patterns(".git", "out", "target", "wrong", "__pycache__", ".hypothesis", ".*_cache")


def copied(folder: Path) -> Path:
    """A copy of the repository in a folder, without its history and what was made in it."""
    shutil.copytree(TOP, folder / "clone", symlinks=True, ignore=LEFT_OUT)
    return folder / "clone"
