"""Large graphs: more than 2^20 triples, and as many strings in a role. Each answer about one has a closed formula.

The strings of a role are one string, or one for each number below COUNT: a pattern with `#` for the number. Triple
`number` has the string of this number in each such role, which has the ID `number` + 1.
"""

from __future__ import annotations

import fcntl
from collections.abc import Callable, Sequence
from dataclasses import dataclass
from functools import lru_cache
from itertools import accumulate
from pathlib import Path
from typing import Optional

from reference import hdt as reference
from support.documents import DEFAULT_BASE
from support.search import is_term_of, spelled

# More than 2^20, by more than any call takes at once.
COUNT = 1_120_000
assert COUNT > 2**20 + 2**16 and COUNT % 8 == 0
# Also more, and fewer than all.
MOST = 2**20 + 2**16 + 7
# What repeats: so many numbers differ from those before in their first three digits only.
PERIOD = 10_000
assert COUNT % PERIOD == 0 and PERIOD % 16 == 0

ROLES, BLOCK_SIZE = reference.ROLES, reference.Style().block_size


def entry(pattern: bytes, number: int) -> bytes:
    """A pattern with a number: `#` is the number in seven digits, `@` the ID, which is one more."""
    return pattern.replace(b"#", b"%07d" % number).replace(b"@", b"%d" % (number + 1))


@lru_cache(maxsize=8)
def many(pattern: bytes) -> bytes:
    """A pattern with each number, one after another."""
    beginning = b"".join(entry(pattern, number) for number in range(PERIOD))
    period = b"".join(
        pattern.replace(b"#", b"\0%04d" % low).replace(b"@", b"\1%04d" % (low + 1) if low < 9_999 else b"\x020000")
        for low in range(PERIOD)
    )
    others = (
        period.replace(b"\0", b"%03d" % high).replace(b"\1", b"%d" % high).replace(b"\2", b"%d" % (high + 1))
        for high in range(1, COUNT // PERIOD)
    )
    return b"".join([beginning, *others])


def first(pattern: bytes, count: int) -> bytes:
    """A pattern with the first numbers."""
    return many(pattern)[:many(pattern).index(b"\n" + entry(pattern, count)) + 1]


def last(pattern: bytes) -> bytes:
    """A pattern with the last number."""
    return entry(pattern, COUNT - 1)


# ---- files, written by the reference, but for the parts that repeat


def packed_period(pattern: bytes) -> tuple[bytes, list[int]]:
    """The packed bytes of the strings of the first period, with `???` for the first digits, and where blocks start.

    Only the first string of a block has these digits.
    """
    strings = [pattern.replace(b"#", b"???%04d" % low) for low in range(PERIOD)]
    return reference.fold(strings, BLOCK_SIZE)


def section(pattern: Optional[bytes], more: Sequence[bytes] = ()) -> bytes:
    """The section of a role, and further strings of it, which are greater, in a block of their own."""
    if pattern is None or b"#" not in pattern:
        return reference.write_section([] if pattern is None else [pattern, *more])
    period, places = packed_period(pattern)
    pieces = [period.replace(b"???", b"%03d" % high) for high in range(COUNT // PERIOD)]
    starts = [number * len(period) + place for number in range(len(pieces)) for place in places[:-1]]
    packed, places = reference.fold(more, BLOCK_SIZE)
    starts += [len(pieces) * len(period) + place for place in places]
    return reference.write_packed(COUNT + len(more), b"".join([*pieces, packed]), starts)


def bits(ones: bool, count: int) -> bytes:
    """A bitmap of ones, or of zeros before a last one."""
    preamble = b"\x01" + reference.write_vbyte(count)
    data = b"\xff" * (count // 8) if ones else bytes(count // 8 - 1) + b"\x80"
    return preamble + reference.write_crc8(preamble) + data + reference.write_crc32(data)


def numbers(ascending: bool, count: int) -> bytes:
    """A log sequence of 1, 2, 3, .., or of ones."""
    if ascending:
        return reference.write_numbers(range(1, count + 1))
    return reference.write_numbers_data(b"\xff" * (count // 8), 1, count)


def triples(large: tuple[bool, bool, bool]) -> bytes:
    """The triples, by which roles have many strings."""
    s, p, o = large
    pairs_y = bits(s, COUNT) if s or p else reference.write_bits([1])
    pairs_z = bits(s or p, COUNT)
    numbers_y = numbers(p, COUNT) if s or p else reference.write_numbers([1])
    return reference.write_control(reference.TRIPLES, b"order=1;") + pairs_y + pairs_z + numbers_y + numbers(o, COUNT)


@dataclass(frozen=True)
class Large:
    """A large graph: the patterns of the dictionary strings of its roles, one or more of which have a number."""

    name: str
    strings: tuple[bytes, bytes, bytes]

    @property
    def large(self) -> tuple[bool, bool, bool]:
        """Whether each role has many strings."""
        s, p, o = (b"#" in string for string in self.strings)
        return s, p, o

    @property
    def constant(self) -> tuple[bool, bool, bool]:
        """Whether each role has one string."""
        s, p, o = (b"#" not in string for string in self.strings)
        return s, p, o

    @property
    def terms(self) -> list[bytes]:
        """The patterns of the terms."""
        return [spelled(entry(string, 0)).replace(b"0000000", b"#") for string in self.strings]

    @property
    def line(self) -> bytes:
        """The pattern of the lines of the document."""
        return b" ".join(self.terms) + b" .\n"

    @property
    def document(self) -> bytes:
        """The canonical document: what `dump` prints."""
        return many(self.line)

    @property
    def ids(self) -> bytes:
        """The pattern of the lines of IDs."""
        return b" ".join(b"@" if large else b"1" for large in self.large) + b"\n"

    @property
    def sections(self) -> list[Optional[bytes]]:
        """The patterns of the four sections; None is an empty one."""
        s, p, o = self.strings
        return [s, None, p, None] if s == o else [None, s, p, o]

    @property
    def counts(self) -> tuple[int, int, int, int, int]:
        """The counts of the file."""
        shared, s, p, o = (0 if it is None else COUNT if b"#" in it else 1 for it in self.sections)
        return COUNT, shared, s, p, o

    @property
    def data(self) -> bytes:
        """The file that `build` makes."""
        head = reference.write_head(reference.header_body(DEFAULT_BASE, COUNT))
        dictionary = reference.write_control(reference.DICTIONARY, b"mapping=1;")
        return b"".join([head, dictionary, *map(section, self.sections), triples(self.large)])

    def count(self, role: int) -> int:
        """The number of strings of a role."""
        return COUNT if self.large[role] else 1

    def matches_all(self, given: Sequence[bool]) -> bool:
        """Whether all triples have the last string of each role that is given; else the last one has."""
        return not any(large and it for large, it in zip(self.large, given))

    def not_terms(self, data: bytes) -> list[tuple[int, bytes]]:
        """The roles whose strings are not terms, and the lines of `verify --terms` for a role."""
        found = []
        for role, string in enumerate(self.strings):
            if not is_term_of(entry(string, 0), role):
                at = data.index(entry(string, 0) + b"\0")
                found.append((role, lines_of_offsets(ROLES[role].encode(), string, at)))
        return found


def lines_of_offsets(role: bytes, pattern: bytes, at: int) -> bytes:
    """The role, the ID and the byte offset of each string of a section whose packed bytes begin at an offset."""
    period, _ = packed_period(pattern)
    places = [0, *accumulate(len(piece) + 1 for piece in period.split(b"\0")[:-2])]
    return b"".join(b"%s\t%d\t%d\n" % (role, PERIOD * high + low + 1, at + high * len(period) + place)
                    for high in range(COUNT // PERIOD) for low, place in enumerate(places))


def with_last_subject(it: Large, string: bytes) -> bytes:
    """The file of a graph of many subjects, with one more, which is greater and has a triple."""
    _, _, predicate, objects = it.sections
    ones = reference.write_bits([1] * (COUNT + 1))
    numbers_1 = reference.write_numbers([1] * (COUNT + 1))
    return b"".join([
        reference.write_head(), reference.write_control(reference.DICTIONARY, b"mapping=1;"), section(None),
        section(it.strings[0], [string]), section(predicate), section(objects),
        reference.write_control(reference.TRIPLES, b"order=1;"), ones, ones, numbers_1, numbers_1])


# The graphs of terms, each with many strings in one section.
LARGE = {it.name: it for it in (
    Large("subjects", (b"u:#", b"u:p", b"u:o")),
    Large("predicates", (b"u:s", b"u:#", b"u:o")),
    Large("objects", (b"u:s", b"u:p", b'"#"')),
    Large("shared", (b"u:#", b"u:p", b"u:#")),
)}
# The same with strings that are no terms.
NOT_TERMS = {it.name: it for it in (
    Large("no subjects", (b"x#", b"u:p", b"u:o")),
    Large("no predicates and objects", (b"u:s", b"x#", b"y#")),
    Large("none shared", (b"x#", b"u:p", b"x#")),
)}


class Files:
    """The large files and documents in a folder, which processes share: each is made when it is first asked for."""

    def __init__(self, folder: Path) -> None:
        folder.mkdir(exist_ok=True)
        self.folder = folder

    def made(self, name: str, data: Callable[[], bytes]) -> Path:
        """The file of this name, which has these bytes. One process makes it, and others wait."""
        path = self.folder / name
        with open(self.folder / f"{name}.lock", "wb") as lock:
            fcntl.flock(lock, fcntl.LOCK_EX)
            if not path.exists():
                unfinished = self.folder / f"{name}.unfinished"
                unfinished.write_bytes(data())
                unfinished.rename(path)
        return path

    def file(self, it: Large) -> Path:
        """The HDT file of a graph."""
        return self.made(f"{it.name}.hdt", lambda: it.data)

    def document(self, it: Large) -> Path:
        """The document of a graph."""
        return self.made(f"{it.name}.nt", lambda: it.document)
