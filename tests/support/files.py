"""What tests of files and folders share: commands that make a file, the names in a folder, scripts of the shell."""

from __future__ import annotations

import os
import re
import tempfile
from collections.abc import Sequence
from pathlib import Path

import pytest

from support.built import PROGRAM, SAMPLES
from support.program import Result, Word, run

THREE = SAMPLES / "three.nt"
as_root = pytest.mark.skipif(os.geteuid() != 0, reason="only root may be another user")
# The commands that make a file.
MAKERS = ("build", "rewrite")
# The name of a file that is being written, beside OUT.
UNFINISHED = re.compile(r"hdt-unfinished-[0-9a-f]{16}")
# What a program of an older version left there.
LEFT = "hdt-unfinished-0"


def shell(script: str, *words: Word, cwd: Path | None = None) -> Result:
    """Run a script of the shell, whose `$0` is the program and whose `$1`, `$2`, .. are the words."""
    return run(["sh", "-c", script, PROGRAM, *words], cwd=cwd)


def write(folder: Path, files: Sequence[bytes], suffix: str = ".nt") -> list[Path]:
    """Write files into a folder, named by their numbers, and return their paths."""
    paths = [folder / f"{number}{suffix}" for number in range(len(files))]
    for path, data in zip(paths, files):
        path.write_bytes(data)
    return paths


def names(folder: Path) -> list[str]:
    """The names in a folder."""
    return sorted(it.name for it in folder.iterdir())


def mounts() -> list[Word]:
    """The words that run a command where it may mount file systems, which end with it. Skips the test if it may not."""
    namespace: list[Word] = ["unshare", "--mount", *([] if os.geteuid() == 0 else ["--map-root-user"])]
    with tempfile.TemporaryDirectory() as folder:
        if run([*namespace, "mount", "-t", "tmpfs", "tmpfs", folder]).status != 0:
            pytest.skip("no file system may be mounted here")
    return namespace
