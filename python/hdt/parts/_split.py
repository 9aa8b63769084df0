"""Splitting N-Triples by subject, into blocks of a file of which the lines of a part can be taken.

A block has, in eight bytes each, where the lines of each part begin behind these numbers, and where the last ones end;
then the lines, part by part.
"""

from __future__ import annotations

import array
import os
from collections.abc import Iterator
from typing import IO, NamedTuple, Union

from hdt._faults import LineFault
from hdt._library import BAD_OPTIONS, DONE, OUT_OF_MEMORY, Lent, Made, SplitReport, library

_PIECE = 1024 * 1024  # bytes that are taken of a file at once


class Split(NamedTuple):
    """A text that was split.

    `sizes` has the bytes of each part; `lines` is the number of lines of the text, and `has_blank_nodes` says whether
    one of them has a blank node.
    """

    sizes: list[int]
    lines: int
    has_blank_nodes: bool


def split(text: Union[bytes, bytearray], parts: int, out: IO[bytes], prefix: bytes = b"") -> Split:
    """Split N-Triples by subject, so that all triples of a subject are in one part, and write a block to `out`.

    The part of a triple is the CRC-32 (that of gzip) of its subject's dictionary string, modulo `parts`. A line with a
    triple goes to its part as it is, with its end, in the order of the text; with a prefix, that is put before each
    label of a blank node, before its part is computed. Lines without a triple go nowhere. The last line may have no
    end; it gets a line feed.

    Raises LineFault, that of the first line that isn't N-Triples, as `hdt.build` does of the text, ValueError for a
    number of parts that isn't 1 to 65,536, MemoryError, and OSError. The time is linear in the text.
    """
    report, ends = SplitReport(), array.array("Q", bytes(8 * parts))
    with Made() as made, Lent(text) as lent:
        room = ends.buffer_info()[0] or lent.address  # (an empty array has no address)
        library.hdt_split(lent.address, lent.size, parts, prefix, len(prefix), made, room, parts, report)
        if report.reason != DONE:
            raise _error_of(report)
        out.write(bytes(8) + ends.tobytes())
        out.write(made.view())
    return Split([end - begin for begin, end in zip([0, *ends], ends)], report.lines, bool(report.has_blank_nodes))


def lines_of(path: str, number: int, parts: int) -> Iterator[bytes]:
    """The lines of a part in the blocks of a file, in pieces. Raises OSError."""
    start = 0
    with open(path, "rb", buffering=0) as file:
        there = file.fileno()
        while size := os.pread(there, 8, start + 8 * parts):
            begin, end = array.array("Q", os.pread(there, 16, start + 8 * number))
            start += 8 * (parts + 1)
            while piece := os.pread(there, min(end - begin, _PIECE), start + begin):
                yield piece
                begin += len(piece)
            if begin != end:
                raise OSError(f"{path} was cut")
            start += array.array("Q", size)[0]


def _error_of(report: SplitReport) -> Exception:
    """What a report that isn't done raises."""
    if report.reason == OUT_OF_MEMORY:
        return MemoryError()
    if report.reason == BAD_OPTIONS:
        return ValueError("the number of parts isn't 1 to 65536")
    return LineFault(report.reason, report.line, report.column)
