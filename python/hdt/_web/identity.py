"""Which file is at a path."""

from __future__ import annotations

import os

Identity = tuple[int, ...]


def identity_of(there: os.stat_result) -> Identity:
    """What distinguishes a file from one that replaces it, or is written over it: programs can set all but the last."""
    return there.st_dev, there.st_ino, there.st_size, there.st_mtime_ns, there.st_ctime_ns
