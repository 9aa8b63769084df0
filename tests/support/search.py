"""A graph, its file, and what a search of it has to print: a filter of all triples, by the reference."""

from __future__ import annotations

from collections.abc import Sequence
from functools import cached_property, lru_cache
from itertools import product
from typing import Optional

from reference import hdt as reference
from reference import ntriples
from support.program import Result, Word, done, failed

Triple = tuple[bytes, bytes, bytes]
Pattern = tuple[Optional[bytes], Optional[bytes], Optional[bytes]]

THREE: list[Triple] = [(b"u:a", b"u:p", b"u:b"), (b"u:a", b"u:q", b'"x"'), (b"u:b", b"u:p", b"u:a")]

# Each string of the three triples, any, and one that is nowhere in its role.
THREE_PATTERNS: list[Pattern] = list(product(
    (None, b"u:a", b"u:b", b'"x"'), (None, b"u:p", b"u:q", b"_:b"), (None, b"u:a", b'"x"', b"u:z")))
# The file of the three triples, with strings that no triple uses.
UNUSED = reference.loose(
    THREE, [b"u:a", b"u:b", b"u:z"], [b"u:p", b"u:q", b"u:r"], [b'"unused"', b'"x"', b"u:a", b"u:b"]
)[0]


def escaped(string: bytes) -> bytes:
    """A dictionary string as it is printed in a line."""
    return string.replace(b"\\", b"\\\\").replace(b"\n", b"\\n").replace(b"\r", b"\\r")


def spelled(string: bytes) -> bytes:
    """A dictionary string as a term of N-Triples."""
    return ntriples.put_term(ntriples.string_term(string))


def words_of(pattern: Pattern, raw: bool) -> list[Word]:
    """A pattern as words of a command line: as terms or as dictionary strings."""
    return [b"?" if string is None else string if raw else spelled(string) for string in pattern]


def is_term_of(string: bytes, role: int) -> bool:
    """Whether a dictionary string is a term that can be the subject (0), predicate (1) or object (2) of a triple."""
    try:
        term = ntriples.string_term(string)
    except ntriples.NotATerm:
        return False
    return role == 2 or isinstance(term, ntriples.Iri) or role == 0 and isinstance(term, ntriples.Blank)


def matches(pattern: Pattern, triple: Triple) -> bool:
    """Whether a triple has each string that the pattern gives."""
    return all(wanted in (None, string) for wanted, string in zip(pattern, triple))


class Graph:
    """A graph, its file, and the results of `find`."""

    def __init__(self, strings: Sequence[Triple]) -> None:
        self.data, self.ids, self.triples = reference.graph(strings)

    @lru_cache(maxsize=4)
    def found(self, pattern: Pattern) -> list[int]:
        """The indices of the triples that match a pattern."""
        return [n for n, triple in enumerate(self.triples) if matches(pattern, triple)]

    @cached_property
    def lines(self) -> list[tuple[bytes, str]]:
        """The line of each triple, or the role and the ID of its first string that is not a term."""
        lines = []
        for ids, triple in zip(self.ids, self.triples):
            odd = [f"{name} {ids[role]}" for role, name in enumerate(reference.ROLES)
                   if not is_term_of(triple[role], role)]
            lines.append((b"", odd[0]) if odd else (ntriples.put_strings(triple), ""))
        return lines

    def results(self, pattern: Pattern, most: int | None = None) -> tuple[Result, Result, Result]:
        """The lines, the IDs and the count of the first triples of a pattern."""
        found = self.found(pattern)[:most]
        odd = next((name for _, name in (self.lines[n] for n in found) if name), None)
        lines = failed(1, f"{odd} is not a term") if odd else done(b"".join(self.lines[n][0] for n in found))
        ids = b"".join(b"%d %d %d\n" % self.ids[n] for n in found)
        return lines, done(ids), done(b"%d\n" % len(found))


def chosen(triples: Sequence[Triple], choice: Sequence[int | bytes | None]) -> Pattern:
    """A pattern: for each role any string, that of a triple, or the string given."""
    s, p, o = (triples[part % len(triples)][role] if isinstance(part, int) else part
               for role, part in enumerate(choice))
    return s, p, o


def not_a_term_past_16_bits() -> bytes:
    """A file whose object 70,001, the last one, is no term."""
    objects = [b'"%05d"' % number for number in range(70_000)] + [b"rel"]
    return reference.graph([(b"u:s", b"u:p", it) for it in objects])[0]
