"""Texts in blocks of whole lines, whose lines may have a greatest length, and their check by the library."""

from __future__ import annotations

from collections.abc import Iterable, Iterator
from typing import NamedTuple, Optional, Union

from ._faults import LineFault
from ._library import DONE, OUT_OF_MEMORY, Lent, Made, SplitReport, library
from ._lines import TOO_LONG, too_long

Block = Union[bytes, bytearray]


class Checked(NamedTuple):
    """Lines of N-Triples that were checked: those with a triple, and how many lines there were."""

    text: bytes
    lines: int
    has_blank_nodes: bool


def whole_lines(pieces: Iterable[bytes], longest: Optional[int]) -> Iterator[Block]:
    """Bytes in other pieces, each of which ends at the end of a line. A line is copied once, and has no second copy."""
    rest = bytearray()  # a line without its end, but perhaps with a carriage return
    for piece in pieces:
        if rest.endswith(b"\r") and not piece.startswith(b"\n"):
            yield rest
            rest = bytearray()
        end = max(piece.rfind(b"\n"), piece.rfind(b"\r", 0, -1)) + 1
        if end:
            rest += piece[:end]
            yield rest
            rest = bytearray()
        rest += piece[end:]
        if longest is not None and len(rest) - rest.endswith(b"\r") > longest:
            raise LineFault(TOO_LONG, 1, longest + 1)
    if rest:
        yield rest


def limited(found: Iterable[Block], longest: int) -> Iterator[Block]:
    """The same blocks of lines, up to the first line that is too long, which is a fault."""
    for block in found:
        is_too_long, at = too_long(block, longest)
        if not is_too_long:
            yield block
            continue
        if at:
            yield block[:at]
        raise LineFault(TOO_LONG, 1, longest + 1)


def blocks_of(pieces: Iterable[bytes], longest: Optional[int]) -> Iterator[Block]:
    """The lines of pieces of a text, in blocks of whole lines.

    Raises LineFault if a line has more than `longest` bytes without its end, counted from the lines that came before,
    with no more of it in memory.
    """
    found = whole_lines(pieces, longest)
    return found if longest is None else limited(found, longest)


def checked(block: Block, prefix: bytes) -> Checked:
    """Check lines of N-Triples, and put a prefix before each label of a blank node. Lines without a triple are dropped.

    Raises LineFault, that of the first faulty line, and MemoryError. The time is linear.
    """
    report = SplitReport()
    ends = bytearray(8)
    with Made() as made, Lent(block) as lent, Lent(ends) as room:
        library.hdt_split(lent.address, lent.size, 1, prefix, len(prefix), made, room.address, 1, report)
        if report.reason == OUT_OF_MEMORY:
            raise MemoryError
        if report.reason != DONE:
            raise LineFault(report.reason, report.line, report.column)
        return Checked(bytes(made.view()), report.lines, bool(report.has_blank_nodes))
