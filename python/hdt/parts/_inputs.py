"""Inputs: ranges of them, one for each task, and the blocks of whole lines of a range."""

from __future__ import annotations

import gzip
import io
import os
import stat
import zlib
from collections.abc import Generator, Iterable, Iterator
from contextlib import closing
from typing import Any, NamedTuple, Optional

from hdt import _regular as regular
from hdt._blocks import Block, blocks_of
from hdt._compressed import Pieces
from hdt._program import dumped
from hdt._syntaxes import HDT, syntax_of

RANGE = 64 * 1024 * 1024  # bytes of a plain input that a task splits
BLOCK = 1024 * 1024  # bytes of it that are in memory at once


class Range(NamedTuple):
    """The lines of an input that begin in a range of its bytes; to its end if `stop` is None."""

    number: int
    path: str
    start: int
    stop: Optional[int]


def is_gzip(path: str) -> bool:
    """Whether an input is compressed, which its name says."""
    return path.endswith(".gz")


def is_hdt(path: str) -> bool:
    """Whether an input is an HDT file, perhaps compressed, which its name says."""
    return syntax_of(path) == HDT


def ranges(paths: Iterable[str]) -> Iterator[Range]:
    """The ranges of inputs, in order. A compressed input and an HDT file are one range.

    Raises OSError, and ValueError for what is no regular file: a task that is repeated reads its range again.
    """
    for number, path in enumerate(paths):
        there = os.stat(path)
        if not stat.S_ISREG(there.st_mode):
            raise ValueError(f"{path} is no regular file")
        if is_gzip(path) or is_hdt(path) or there.st_size <= RANGE:
            yield Range(number, path, 0, None)
            continue
        for start in range(0, there.st_size, RANGE):
            yield Range(number, path, start, min(start + RANGE, there.st_size))


def blocks(it: Range, longest: Optional[int] = None) -> Generator[Block, None, None]:
    """The lines of a range, in blocks of whole lines. Those of an HDT file are what the program `hdt` dumps it to.

    A range begins after a line feed, so it never parts a carriage return from the line feed after it. Raises OSError,
    also for a compressed input that is damaged; and LineFault if a line has more than `longest` bytes without its end,
    counted from the lines that came before, with no more of it in memory. For an HDT file it raises what `dumped` does.
    """
    try:
        with regular.opened(it.path) as file:
            read = _read(gzip.GzipFile(fileobj=file) if is_gzip(it.path) else file, it.start, it.stop)
            with closing(_dumped(read) if is_hdt(it.path) else read) as pieces:
                yield from blocks_of(pieces, longest)
    except (EOFError, zlib.error, gzip.BadGzipFile) as error:
        raise OSError(f"{it.path}: not a whole gzip file: {error}") from error


def _dumped(pieces: Iterator[bytes]) -> Generator[bytes, None, None]:
    """The lines of an HDT file, in pieces as large as those of other inputs."""
    with closing(dumped(pieces, None)) as lines:
        yield from _read(io.BufferedReader(Pieces(lines)), 0, None)


def _read(file: Any, start: int, stop: Optional[int]) -> Generator[bytes, None, None]:
    """The bytes of the lines that begin in a range, in pieces."""
    if stop is None:
        while piece := file.read(BLOCK):
            yield piece
        return
    at = max(start - 1, 0)
    file.seek(at)
    if start:
        while at < stop and (piece := file.readline(BLOCK)):
            at += len(piece)
            if piece.endswith(b"\n"):
                break
    piece = b"\n"
    while at < stop and (piece := file.read(min(BLOCK, stop - at))):
        at += len(piece)
        yield piece
    while not piece.endswith(b"\n") and (piece := file.readline(BLOCK)):
        yield piece
