"""Opening regular files for reading, also in folders that strangers can write.

A pipe, a device or a socket in place of a file, or a link to one, could hold a thread for ever, or have no end.
"""

from __future__ import annotations

import errno
import io
import mmap
import os
import stat
from typing import Any, BinaryIO, Optional, cast

from hdt._calls import Path
from hdt._files import _MAPPED


def _check(there: os.stat_result, path: Path) -> None:
    """Raises OSError unless it is a regular file."""
    if not stat.S_ISREG(there.st_mode):
        raise OSError(errno.EINVAL, "not a regular file", os.fsdecode(path))


def _open(path: str, flags: int) -> int:
    """Open a file without waiting for a writer, and never as the terminal of this process."""
    return os.open(path, flags | os.O_NONBLOCK | os.O_NOCTTY)


def opened(path: Path) -> BinaryIO:
    """A regular file, open for reading; other programs don't get it. Raises OSError for anything else.

    What is there is looked at first, as the other end of a pipe notices that it is opened, and a device may; then what
    was opened, as it may be another file by then.
    """
    _check(os.stat(path), path)
    file = io.open(path, "rb", opener=_open)
    try:
        _check(os.fstat(file.fileno()), path)
    except BaseException:
        file.close()
        raise
    return cast(BinaryIO, file)


def read(file: BinaryIO, most: int) -> bytes:
    """The first bytes of a file, at most so many; none of one that would have to be waited for, as of some in /proc."""
    found: Optional[bytes] = file.read(most)
    return found or b""


def data_of(file: BinaryIO, copy: Optional[bool] = None) -> Any:
    """The bytes of an open regular file, read or mapped, as `hdt.open` does by its `copy`.

    At most one byte more is read than the file had when this began. Raises OSError if its size changes meanwhile.
    """
    size = os.fstat(file.fileno()).st_size
    copied = size < _MAPPED if copy is None else copy
    try:
        data: Any = read(file, size + 1) if copied or not size else mmap.mmap(file.fileno(), 0, access=mmap.ACCESS_READ)
    except ValueError:  # (it is empty by now)
        data = b""
    if len(data) != size:
        raise OSError(errno.EBUSY, "it changed while it was read", file.name)
    return data
