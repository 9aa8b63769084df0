"""The strings of triples of IDs, which are looked up many at a time."""

from __future__ import annotations

import array
from collections.abc import Iterable, Iterator
from itertools import chain, repeat
from operator import itemgetter
from typing import Optional

from ._calls import Pattern, StringTriple
from ._handle import OpenHandle

_FEW = 4  # the first triples of a search, whose strings are looked up one by one
_MOST = 65_536  # triples whose strings are looked up at once at most, or more in large graphs
_BYTES = 16 * 1024 * 1024  # of strings, as str counts them; a portion with more is followed by a smaller one
_WHOLE = 16  # a role is looked up whole if it has at most so many strings for each triple of a portion,
_WHOLE_OF_ALL = 4  # so many for each match,
_WHOLE_BYTES = 64 * 1024 * 1024  # and no more of them than this


class Columns:
    """The strings of the triples of one search, a role at a time.

    A portion may walk over all strings of the graph. So portions grow until those are few for each of its triples:
    their time together is linear in the triples and the strings. The strings of a role with few of them are looked up
    once and kept, as a list by ID.
    """

    def __init__(self, graph: OpenHandle, pattern: Pattern) -> None:
        counts = graph._counts
        self._graph, self._pattern = graph, pattern
        self._matches: Optional[int] = None  # as soon as they are counted
        self._given = [part if isinstance(part, str) else None for part in pattern.parts]
        self._counts = (counts.shared + counts.subjects, counts.predicates, counts.shared + counts.objects)
        self._least = max(sum(counts[1:]) // 64, 1)
        self._whole: list[Optional[list[str]]] = [None, None, None]
        self._too_large = [False, False, False]
        self._limit: Optional[int] = None
        self._taken = 0  # characters of the strings of this portion

    def triples(self, skip: int, limit: Optional[int]) -> Iterator[StringTriple]:
        """The strings of the matches after the first `skip` ones, at most `limit`."""
        return chain.from_iterable(self._portions(skip, limit))

    def _portions(self, skip: int, limit: Optional[int]) -> Iterator[Iterator[StringTriple]]:
        size, most, self._limit = _FEW, max(_MOST, self._least), limit
        for page in self._graph._pages(self._pattern, skip, limit, most):
            at = 0
            while at < len(page):
                portion = page[at : at + 3 * size]
                at += 3 * size
                self._taken = 0
                s, p, o = (self._column(role, portion[role::3]) for role in range(3))
                yield zip(s, p, o)
                del s, p, o  # (so that there are never two portions)
                if self._taken >= _BYTES:
                    size = max(size // 4, self._least)
                elif len(portion) == 3 * size:  # (and not the rest of a page, which says little)
                    size = min(4 * size, most)

    def _column(self, role: int, ids: array.array[int]) -> Iterable[str]:
        """The strings of these IDs of a role, which are all there."""
        term = self._given[role]
        if term is not None:
            return repeat(term, len(ids))
        if len(ids) <= _FEW:
            return [(self._graph._string(role, number) or b"").decode() for number in ids]
        if whole := self._of_role(role, len(ids)):
            return itemgetter(*ids)(whole)  # type: ignore[no-any-return]
        return self._looked_up(role, ids)

    def page(self, ids: array.array[int]) -> list[StringTriple]:
        """The strings of the triples of one page."""
        s, p, o = (self._looked_up(role, ids[role::3]) for role in range(3))
        return list(zip(s, p, o))

    def _looked_up(self, role: int, ids: array.array[int]) -> Iterable[str]:
        """The strings of these IDs of a role in one call."""
        term = self._given[role]
        if term is not None:
            return repeat(term, len(ids))
        distinct = sorted(set(ids))
        strings = self._graph._strings(role, distinct) or []
        self._taken += sum(map(len, strings))
        return map(dict(zip(distinct, strings)).__getitem__, ids)

    def _of_role(self, role: int, size: int) -> Optional[list[str]]:
        """The strings of a role, by ID, if it is worth it for a portion of this size."""
        whole, count = self._whole[role], self._counts[role]
        if whole or self._too_large[role]:
            return whole
        if count > size and (count > _WHOLE * size or count > _WHOLE_OF_ALL * self._expected()):
            return None
        whole, taken = [""], 0
        for strings in self._graph._portions_of_all(role, count):
            taken += sum(map(len, strings))
            if taken > _WHOLE_BYTES:
                self._too_large[role] = True
                return None
            whole += strings
        self._whole[role] = whole
        return whole

    def _expected(self) -> int:
        """How many triples there are at most, which is counted once."""
        if self._matches is None:
            self._matches = self._graph._matching(self._pattern)
        return self._matches if self._limit is None else min(self._limit, self._matches)
