"""pyHDT's `HDTDocument` over this package, for programs that were written for it.

    from hdt.compat import HDTDocument, IdentifierPosition

    with HDTDocument("graph.hdt") as document:
        triples, cardinality = document.search_triples("", "http://xmlns.com/foaf/0.1/name", "")

Names and meanings are those of pyHDT's documentation (version 2). These differ:

- A file is checked when it is opened: `hdt.Fault` if it isn't valid. No `.index` file is read or written.
- Cardinalities are exact, and triples come in the order of the file (by subject, predicate, object), whatever is asked.
- A term in brackets that the file lacks, and `"?"`, are a ValueError, where pyHDT finds nothing.
- `convert_id` raises IndexError for an ID that no term has.
- `search_join` is missing: SPARQL over `hdt.rdflib` answers joins.
- Threads may share a document, and `close` or a `with` statement closes it.
"""

from __future__ import annotations

import enum
import os
from collections.abc import Iterator
from typing import Callable, Generic, Optional, TypeVar

from . import _graph
from ._calls import IdTriple, Part, Path, Role, StringTriple
from ._opening import open as _open

__all__ = ["HDTDocument", "IdentifierPosition", "TripleIterator"]

T = TypeVar("T")


class IdentifierPosition(enum.IntEnum):
    """The place of a term in a triple.

    >>> IdentifierPosition.Object.name
    'Object'
    """

    Subject = 1
    Predicate = 2
    Object = 3


_ROLES: dict[int, Role] = {1: "subject", 2: "predicate", 3: "object"}


class TripleIterator(Generic[T], Iterator[T]):
    """The matches of a search, one after another; `len` is their number, with limit and offset.

    `subject`, `predicate` and `object` are what was asked for, `limit` and `offset` too (a limit of 0 is none), and
    `nb_reads` is how many matches were given. Not for several threads.

    >>> triples, _ = HDTDocument("graph.hdt").search_triples("u:a", "", "", limit=1)
    >>> len(triples), triples.peek(), triples.next(), triples.has_next(), triples.nb_reads
    (1, ('u:a', 'u:p', 'u:b'), ('u:a', 'u:p', 'u:b'), False, 1)
    """

    def __init__(self, asked: tuple[object, object, object], found: Iterator[T], size: int, limit: int, offset: int):
        self.subject, self.predicate, self.object = asked
        self.limit, self.offset, self.nb_reads = limit, offset, 0
        self._found, self._size, self._ahead = found, size, list[T]()

    def __len__(self) -> int:
        return self._size

    def size_hint(self) -> int:
        """The number of matches, with limit and offset; it is exact."""
        return self._size

    def has_next(self) -> bool:
        """Whether there is another match."""
        if not self._ahead:
            self._ahead.extend(_first(self._found))
        return bool(self._ahead)

    def peek(self) -> T:
        """The next match, which stays the next one. Raises StopIteration if there are no more."""
        if not self.has_next():
            raise StopIteration
        return self._ahead[0]

    def next(self) -> T:
        """The next match. Raises StopIteration if there are no more."""
        return self.__next__()

    def __next__(self) -> T:
        found = self.peek()
        self._ahead.clear()
        self.nb_reads += 1
        return found


def _first(found: Iterator[T]) -> Iterator[T]:
    for it in found:
        yield it
        return


class HDTDocument:
    """An HDT file, opened for searches. The whole file is validated first, in the time and memory of `hdt.open`.

    `map` maps the file, as pyHDT does by default; without it a copy of the file is in memory. `progress` is taken, and
    shows nothing. Raises `hdt.Fault`, MemoryError and OSError.

    >>> document = HDTDocument("graph.hdt")
    >>> document.total_triples, document.nb_subjects, document.nb_predicates, document.nb_objects, document.nb_shared
    (3, 2, 2, 3, 2)
    >>> triples, cardinality = document.search_triples("", "u:p", "")
    >>> cardinality, list(triples)
    (2, [('u:a', 'u:p', 'u:b'), ('u:b', 'u:p', 'u:a')])
    """

    def __init__(self, path: Path, map: bool = True, progress: bool = False) -> None:
        self._path, self._graph = os.fsdecode(path), _open(path, copy=not map)

    def close(self) -> None:
        """Close the document, after which calls raise ValueError. (pyHDT has no such call.)"""
        self._graph.close()

    def __enter__(self) -> HDTDocument:
        return self

    def __exit__(self, *_: object) -> None:
        self.close()

    def __len__(self) -> int:
        return len(self._graph)

    def __repr__(self) -> str:
        return f"<HDTDocument {self._path} ({len(self):,} triples)>"

    @property
    def graph(self) -> _graph.Graph:
        """The graph that is searched, of `hdt.open`. (pyHDT has no such property.)"""
        return self._graph

    @property
    def file_path(self) -> str:
        """The path of the file."""
        return self._path

    @property
    def total_triples(self) -> int:
        """The number of triples."""
        return len(self._graph)

    @property
    def nb_subjects(self) -> int:
        """The number of terms that are subjects."""
        return self._graph.count("subject")

    @property
    def nb_predicates(self) -> int:
        """The number of terms that are predicates."""
        return self._graph.count("predicate")

    @property
    def nb_objects(self) -> int:
        """The number of terms that are objects."""
        return self._graph.count("object")

    @property
    def nb_shared(self) -> int:
        """The number of terms that are both subjects and objects."""
        return self._graph.counts.shared

    def search_triples(
        self, subject: str, predicate: str, object: str, limit: int = 0, offset: int = 0
    ) -> tuple[TripleIterator[StringTriple], int]:
        """Search for triples; `""` matches any term. Return an iterator and the number of all matches.

        At most `limit` matches are given, if it isn't 0, after the first `offset` ones. Raises ValueError for `"?"`,
        for a term in brackets that the file lacks, and for a negative number. The first match comes at once; matches
        that are skipped are searched for, too.
        """
        asked = subject, predicate, object
        s, p, o = (it or None for it in asked)
        found = self._graph.find(s, p, o, start=offset, limit=limit or None)
        return _iterator(asked, found, self._graph.matching(s, p, o), limit, offset)

    def search_triples_ids(
        self, subject: str, predicate: str, object: str, limit: int = 0, offset: int = 0
    ) -> tuple[TripleIterator[IdTriple], int]:
        """The same, with a tuple of three IDs for each match."""
        return self._search_ids((subject, predicate, object), limit, offset)

    def search_ids(
        self, subject: int, predicate: int, object: int, limit: int = 0, offset: int = 0
    ) -> tuple[TripleIterator[IdTriple], int]:
        """The same by IDs; 0 matches any term."""
        return self._search_ids((subject, predicate, object), limit, offset)

    def _search_ids(
        self, asked: tuple[Part, Part, Part], limit: int, offset: int
    ) -> tuple[TripleIterator[IdTriple], int]:
        s, p, o = (it or None for it in asked)
        found = self._graph.find_ids(s, p, o, start=offset, limit=limit or None)
        return _iterator(asked, found, self._graph.matching_ids(s, p, o), limit, offset)

    def search_triples_bytes(
        self, subject: str, predicate: str, object: str, limit: int = 0, offset: int = 0
    ) -> tuple[TripleIterator[tuple[bytes, bytes, bytes]], int]:
        """The same as `search_triples`, with the bytes of each term, in UTF-8: in a valid file all terms are."""
        triples, cardinality = self.search_triples(subject, predicate, object, limit, offset)
        found = ((s.encode(), p.encode(), o.encode()) for s, p, o in triples)
        return _iterator((subject, predicate, object), found, cardinality, limit, offset)

    def convert_id(self, id: int, position: IdentifierPosition) -> str:
        """The term with an ID. Raises IndexError if no term has it, ValueError for another position."""
        return self._graph.string(_role(position), id)

    def convert_term(self, term: str, position: IdentifierPosition) -> int:
        """The ID of a term, 0 if the file lacks it there. Raises ValueError for another position."""
        return self._graph.number(_role(position), term) or 0

    def convert_tripleid(self, subject: int, predicate: int, object: int) -> StringTriple:
        """The terms with the IDs of a triple. Raises IndexError."""
        convert: Callable[[Role, int], str] = self._graph.string
        return convert("subject", subject), convert("predicate", predicate), convert("object", object)


def _role(position: int) -> Role:
    role: Optional[Role] = _ROLES.get(position)
    if role is None:
        raise ValueError(f"no such position: {position!r}")
    return role


def _iterator(
    asked: tuple[object, object, object], found: Iterator[T], cardinality: int, limit: int, offset: int
) -> tuple[TripleIterator[T], int]:
    """The matches, and the number of all."""
    size = max(cardinality - offset, 0)
    return TripleIterator(asked, found, min(size, limit) if limit else size, limit, offset), cardinality
