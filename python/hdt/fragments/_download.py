"""The file of a dataset, whole or a range of it."""

from __future__ import annotations

import os
import re
from collections.abc import Iterator
from typing import BinaryIO, Optional

from hdt import _regular as regular
from hdt._web.request import Refusal

_PIECE = 1 << 16
_RANGE = re.compile(r"bytes\s*=\s*(\d{0,18})\s*-\s*(\d{0,18})\s*\Z")


def range_of(header: str, size: int) -> Optional[tuple[int, int]]:
    """The first byte of a Range header and the one after its last, or None if the whole file is sent.

    Many ranges, or another unit, are answered by the whole file, as RFC 9110 allows. Raises Refusal if the file has
    no byte of the range.
    """
    found = _RANGE.match(header)
    if not found or not (found[1] or found[2]):
        return None
    if not found[1]:
        first, end = max(0, size - int(found[2])), size
    else:
        first, end = int(found[1]), min(size, int(found[2]) + 1) if found[2] else size
        if found[2] and int(found[2]) < int(found[1]):
            return None
    if first >= end:
        there = "Content-Range", f"bytes */{size}"
        raise Refusal("416 Range Not Satisfiable", f"The file has {size:,} bytes.", there)
    return first, end


def opened(path: str) -> BinaryIO:
    """The file at a path. Raises Refusal where it can't be opened, or is no regular file."""
    try:
        return regular.opened(path)
    except OSError:
        raise Refusal("503 Service Unavailable", "The file can't be opened now.", ("Retry-After", "60")) from None


def stat_of(file: BinaryIO) -> os.stat_result:
    """The status of an open file."""
    return os.fstat(file.fileno())


class Pieces:
    """The bytes of an open file from one place to another, in pieces. A server closes it behind them."""

    def __init__(self, file: BinaryIO, first: int, end: int) -> None:
        self._file, self._first, self._end = file, first, end

    def __iter__(self) -> Iterator[bytes]:
        place = self._first
        while place < self._end:
            piece = os.pread(self._file.fileno(), min(_PIECE, self._end - place), place)
            if not piece:
                return
            yield piece
            place += len(piece)

    def close(self) -> None:
        """Close the file."""
        self._file.close()
