"""Reading a graph for pages. `Reader` alone asks the graph, so better calls of it change nothing elsewhere."""

from __future__ import annotations

import array
from collections import OrderedDict
from dataclasses import dataclass
from typing import Callable, Generic, NamedTuple, Optional, TypeVar

import hdt
from hdt._about import said_of
from hdt._forks import Locked
from hdt.fragments import _terms as terms
from hdt.fragments._once import once
from hdt.fragments._terms import Pattern, Triple

K = TypeVar("K")
V = TypeVar("V")

_ROLES: tuple[hdt.Role, hdt.Role, hdt.Role] = ("subject", "predicate", "object")
_KEPT = 10_000  # counts
_LONGEST_KEPT = 400  # characters of a pattern whose count is kept
_KEPT_POSITIONS = 1_000  # patterns whose positions are kept
_STRIDE = 1_000  # matches from one position that is kept to the next


class Kept(Locked, Generic[K, V]):
    """The values that were asked for last, by their keys."""

    def __init__(self, most: int) -> None:
        super().__init__()
        self._most = most
        self._values: OrderedDict[K, V] = OrderedDict()

    def ask(self, key: K, make: Callable[[], V]) -> V:
        """The value of a key, which is made where it is not kept."""
        with self._lock:
            if key in self._values:
                self._values.move_to_end(key)
                return self._values[key]
        made = make()
        with self._lock:
            self._values[key] = made
            while len(self._values) > self._most:
                self._values.popitem(last=False)
        return made


class Positions(Locked):
    """The positions of every thousandth match of a pattern, as far as they were needed.

    So all requests for far pages together walk over the matches once. A request for a page that is known already waits
    for no walk of another one.
    """

    def __init__(self, graph: hdt.Graph, pattern: Pattern) -> None:
        super().__init__()
        self._graph, self._pattern = graph, pattern
        self._known = array.array("Q", [0])

    def after(self, skip: int) -> Optional[int]:
        """The position of the match after `skip` others, or None if there are no more."""
        strides, rest = divmod(skip, _STRIDE)
        if len(self._known) <= strides and not self._is_reached(strides):
            return None
        return self._graph.position(*self._pattern, skip=rest, start=self._known[strides])

    def _is_reached(self, strides: int) -> bool:
        """Walk on until so many thousands of matches are known. Return whether there are so many."""
        with self._lock:
            while len(self._known) <= strides:
                found = self._graph.position(*self._pattern, skip=_STRIDE, start=self._known[-1])
                if found is None:
                    return False
                self._known.append(found)
        return True


class Column(NamedTuple):
    """The strings of a role by their IDs, and whether all are plain terms (`terms.are_plain`)."""

    strings: dict[int, str]
    is_plain: bool

    def written(self, prefix: str) -> dict[int, str]:
        """The strings as N-Triples, with blank nodes as IRIs of a prefix, if there is one."""
        if self.is_plain:
            return {number: term if term[0] == '"' else f"<{term}>" for number, term in self.strings.items()}
        return {number: terms.written(terms.named(term, prefix)) for number, term in self.strings.items()}


class PageText(NamedTuple):
    """Triples of a graph as N-Triples, and the position of the next match, or None if there are no more."""

    lines: str
    following: Optional[int]


@dataclass
class Page:
    """Triples of a graph, how many were left out, and the position of the next match, or None if there are no more."""

    ids: list[tuple[int, int, int]]
    columns: list[Column]
    left_out: int = 0
    following: Optional[int] = None

    @once
    def triples(self) -> list[Triple]:
        """The triples as strings of the dictionary."""
        if not self.ids:
            return []
        subjects, predicates, objects = (column.strings for column in self.columns)
        return [(subjects[s], predicates[p], objects[o]) for s, p, o in self.ids]

    def lines(self, prefix: str) -> str:
        """The triples as N-Triples, with blank nodes as IRIs of a prefix, if there is one."""
        if not self.ids:
            return ""
        subjects, predicates, objects = (column.written(prefix) for column in self.columns)
        return "".join([f"{subjects[s]} {predicates[p]} {objects[o]} .\n" for s, p, o in self.ids])


class Reader:
    """The triples of an open graph, in pages, and their counts. Threads may share one."""

    def __init__(self, graph: hdt.Graph, most_predicates: int) -> None:
        """Read a graph. Its predicates are counted at once, where it has no more of them than `most_predicates`."""
        self._graph = graph
        self.counts = graph.counts
        self.said = said_of(graph.header)
        self._is_one = isinstance(graph, hdt.Graph)  # (and not in parts, whose IDs are strings)
        self.objects = self.counts.shared + self.counts.objects if self._is_one else None
        self._counted: Kept[Pattern, int] = Kept(_KEPT)
        self._positions: Kept[Pattern, Positions] = Kept(_KEPT_POSITIONS)
        self.predicates = self._by_count() if self.counts.predicates <= most_predicates else []

    def has(self, role: int, term: str) -> bool:
        """Whether a role has a term."""
        return self._graph.number(_ROLES[role], term) is not None

    def count(self, pattern: Pattern) -> int:
        """How many triples match. The counts that were asked for last are kept, as some take a walk over matches."""
        if pattern == (None, None, None):
            return self.counts.triples
        if sum(len(term) for term in pattern if term) > _LONGEST_KEPT:
            return self._graph.matching(*pattern)
        return self._counted.ask(pattern, lambda: self._graph.matching(*pattern))

    def _position(self, pattern: Pattern, skip: int) -> Optional[int]:
        """The position of the match after `skip` others, or None if there are no more."""
        if not skip:
            return 0
        s, p, o = (term is not None for term in pattern)
        if s >= p >= o or not self._is_one:  # (it takes no walk, or one within a part)
            return self._graph.position(*pattern, skip=skip)
        return self._positions.ask(pattern, lambda: Positions(self._graph, pattern)).after(skip)

    def page(self, pattern: Pattern, skip: int, room: int, start: Optional[int] = None) -> Page:
        """Up to `room` matching triples behind the first `skip` ones; `start` is their position where it is known.

        A triple with a string that is no term is left out.
        """
        position = self._position(pattern, skip) if start is None else start
        if position is None:
            return Page([], [])
        found, following = self._graph.page_ids(*pattern, start=position, limit=room)
        columns = [self._column(role, numbers) for role, numbers in enumerate(zip(*found))]
        whole = found
        if not all(column.is_plain for column in columns):
            known = [{number for number, string in column.strings.items() if string} for column in columns]
            whole = [ids for ids in found if all(map(set.__contains__, known, ids))]
        return Page(whole, columns, len(found) - len(whole), following)

    def _column(self, role: int, numbers: tuple[int, ...]) -> Column:
        """The terms of these IDs, empty for a string that isn't a term."""
        ids = sorted(set(numbers))
        strings = self._graph.strings(_ROLES[role], ids)
        if terms.are_plain(strings, role):
            return Column(dict(zip(ids, strings)), True)
        return Column({n: string if terms.is_term(string, role) else "" for n, string in zip(ids, strings)}, False)

    def subjects(self, page: Page) -> set[str]:
        """The objects of a page that are subjects, too."""
        objects = page.columns[2].strings if page.columns else {}
        if self._is_one:  # (the first IDs are those of such strings)
            return {term for number, term in objects.items() if number <= self.counts.shared}
        return {term for term in objects.values() if self.has(0, term)}

    def page_text(self, pattern: Pattern, skip: int, room: int, start: Optional[int] = None) -> Optional[PageText]:
        """The same page as the engine writes it, or None if a string isn't a term, or the graph is in parts."""
        position = self._position(pattern, skip) if start is None else start
        if position is None or not self._is_one:
            return None
        try:
            return PageText(*self._graph.page_text(*pattern, start=position, limit=room))
        except hdt.NotATerm:
            return None

    def _by_count(self) -> list[tuple[str, int]]:
        """The predicates with the counts of their triples, the most used first."""
        counted = [(name, count) for name, count in self._graph.predicates() if terms.is_term(name, 1)]
        return sorted(counted, key=lambda each: (-each[1], each[0]))
