"""Texts whose lines have a greatest length: a longer line is refused before more of the text is read."""

from __future__ import annotations

import array
import io
import os
from typing import Any

from ._calls import Path
from ._faults import LineFault
from ._library import DONE, OUT_OF_MEMORY, Lent, Made, SplitReport, library

TOO_LONG = 9  # of docs/NTRIPLES.md
_PIECE = 1024 * 1024  # bytes that are read, or checked for other errors, at once


def too_long(text: Any, longest: int, begin: int = 0) -> tuple[bool, int]:
    """Whether a line of a text has more than `longest` bytes, and where the first one begins; else, the last one.

    `begin` is where a line begins. The time is linear: a window has one byte more than the longest line, and the last
    end of a line in it is past the whole window before the last.
    """
    while len(text) - begin > longest:
        window = begin, begin + longest + 1
        end = max(text.rfind(b"\n", *window), text.rfind(b"\r", *window))
        if end < 0:
            return True, begin
        begin = end + 1
    return False, begin


class LongestLine:
    """The lines of one text, of which none may have more bytes than `longest`, without its end: LF, CR or both."""

    def __init__(self, longest: int, path: Path) -> None:
        self._longest, self._path = longest, os.fsdecode(path)
        self._begin = 0  # of the first line that isn't known to be short enough

    def read(self, file: io.BufferedReader) -> bytearray:
        """The text of a file. Reads at most a piece past the first byte over the limit. Raises what `check` raises."""
        text = bytearray()
        while piece := file.read1(_PIECE):
            text += piece
            self.check(text)
        return text

    def check(self, text: Any) -> None:
        """Check the text, which may have grown since the last call. Raises LineFault, MemoryError.

        If a line is too long, the lines before it are checked for all other errors. The time is linear.
        """
        is_too_long, self._begin = too_long(text, self._longest, self._begin)
        if is_too_long:
            line = self._lines_before(text) + 1
            raise LineFault(TOO_LONG, line, self._longest + 1, self._path)

    def _lines_before(self, text: Any) -> int:
        """How many lines there are before the one that is too long. Raises LineFault for the first faulty one."""
        begin, lines = 0, 0
        while begin < self._begin:
            end = self._end_of_line(text, begin + _PIECE)
            report, ends = SplitReport(), array.array("Q", [0])
            with Made() as made, memoryview(text)[begin:end] as piece, Lent(piece) as lent:
                room = ends.buffer_info()[0]
                library.hdt_split(lent.address, lent.size, 1, b"", 0, made, room, 1, report)
            if report.reason == OUT_OF_MEMORY:
                raise MemoryError
            if report.reason != DONE:
                raise LineFault(report.reason, lines + report.line, report.column, self._path)
            begin, lines = end, lines + report.lines
        return lines

    def _end_of_line(self, text: Any, at: int) -> int:
        """Where a line ends that begins after the one which is there; at most where the line begins that is too long.

        CR and LF are not parted.
        """
        if at >= self._begin:
            return self._begin
        found = [text.find(end, at, min(at + self._longest + 1, self._begin)) for end in (b"\n", b"\r")]
        end: int = min(it for it in found if it >= 0) + 1
        return end + int(text[end - 1 : end + 1] == b"\r\n")
