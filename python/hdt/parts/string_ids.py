"""Graphs in parts for what searches files by IDs: the ID of a string is the string itself, in each role."""

from __future__ import annotations

import os
from collections.abc import Iterable, Iterator
from typing import Any, Optional, cast

import hdt
from hdt._calls import Path, role_number
from hdt.parts import _files
from hdt.parts._executor import results
from hdt.parts._graph import Graph
from hdt.parts._manifest import part_of


def open_any(path: Path, copy: Optional[bool] = None) -> hdt.Graph:
    """Open a file, as `hdt.open`, or a folder of parts, all of which are validated now.

    A folder has the calls of `hdt.Graph` that `hdt.rdflib` and `hdt.fragments` use: see `StringIds`. Raises what
    `hdt.open` and `hdt.parts.open` raise.

    >>> [len(hdt.parts.open_any(path)) for path in ("graph.hdt", "graph.parts")]
    [3, 3]
    """
    if not os.path.isdir(path):
        return hdt.open(path, copy)
    graph = StringIds(path)
    graph.open_all()
    return cast(hdt.Graph, graph)


class WithPrefix:
    """The strings of a role that begin with a prefix. They are looked up only if they are iterated over."""

    def __init__(self, graph: StringIds, prefix: str, role: hdt.Role) -> None:
        self._graph, self._prefix, self._role = graph, prefix, role

    def __contains__(self, string: str) -> bool:
        return string.startswith(self._prefix)

    def __iter__(self) -> Iterator[str]:
        tasks = [self._graph._task(n, _files.strings_with_prefix, self._prefix, self._role) for n in self._graph._there]
        return iter(sorted({string for text in results(tasks) if text for string in text.split("\0")}))


class Column:
    """Triples, of which a role can be taken."""

    def __init__(self, triples: list[tuple[str, str, str]]) -> None:
        self._triples = triples

    def column(self, role: hdt.Role) -> list[str]:
        """The strings of a role, in the order of the triples."""
        place = role_number(role)
        return [triple[place] for triple in self._triples]


class StringIds(Graph):
    """A graph in parts with the calls of `hdt.Graph` on IDs."""

    matching_ids, find_ids, page_ids = Graph.matching, Graph.find, Graph.page

    def open_all(self) -> None:
        """Open the files of all parts in this process. Raises PartFault."""
        for number in self._there:
            self._here(number)

    def count(self, role: hdt.Role) -> int:
        """The count of a role, of those that `counts` has."""
        counts = self.counts
        return (counts.subjects, counts.predicates, counts.objects)[role_number(role)]

    @property
    def counts(self) -> hdt.Counts:
        """The counts of triples, subjects and predicates. How many objects there are isn't known: it says 0."""
        return hdt.Counts(len(self), 0, self.subjects, sum(1 for _ in self.predicates()), 0)

    def number(self, role: hdt.Role, term: str) -> Optional[str]:
        """A term, if a role has it."""
        numbers = [part_of(term, len(self._parts))] if role == "subject" else self._there
        tasks = (self._task(n, _files.has, role, term) for n in numbers if self._parts[n].file)
        found: Iterator[bool] = results(tasks)
        return term if any(found) else None

    def string(self, role: hdt.Role, n: str) -> str:
        """The string with an ID, which is it."""
        return n

    def strings(self, role: hdt.Role, ids: Iterable[str]) -> list[str]:
        """The strings with these IDs, which are they."""
        return list(ids)

    def ids_with_prefix(self, prefix: str, role: hdt.Role) -> list[WithPrefix]:
        """The strings of a role that begin with a prefix."""
        return [WithPrefix(self, prefix, role)]

    def id_array(self, *search: Any) -> Column:
        """The triples of a search."""
        return Column(list(self.find(*search)))
