"""The searches of a graph by IDs."""

from __future__ import annotations

import operator
from collections.abc import Iterator
from itertools import chain
from typing import Optional

from ._calls import IdTriple, Part, Pattern, pattern_of, window
from ._documented import Documented
from ._handle import OpenHandle
from ._ids import IdArray, rows


class Ids(metaclass=Documented):
    """The searches of a graph by IDs, as `Graph.ids` gives them: each as the graph's own of that name, but of IDs.

    Parts are IDs, strings, or None for any. An ID that no string of the role has matches nothing. Threads may share it,
    and each call takes the time of the graph's own.

    >>> with hdt.open("graph.hdt") as graph:
    ...     graph.ids
    <hdt.Ids of <hdt.Graph of 3 triples: graph.hdt>>
    """

    __slots__ = ("_graph",)

    def __init__(self, graph: OpenHandle) -> None:
        self._graph = graph

    def __repr__(self) -> str:
        return f"<hdt.Ids of {self._graph!r}>"

    def _pattern(self, s: Part, p: Part, o: Part) -> Pattern:
        """The pattern of these parts, checked. Raises ValueError, also if the graph is closed, and TypeError."""
        self._graph._check_open()
        return self._graph._checked(pattern_of(s, p, o))

    def matching(self, s: Part = None, p: Part = None, o: Part = None) -> int:
        """How many triples `find` gives, in the time of `Graph.matching`. Errors: those of `find`.

        >>> graph.ids.matching(p=1), graph.ids.matching(1, "u:q"), graph.ids.matching(9)
        (2, 1, 0)
        """
        return self._graph._matching(self._pattern(s, p, o))

    def find(
        self, s: Part = None, p: Part = None, o: Part = None, *, limit: Optional[int] = None, start: int = 0
    ) -> Iterator[IdTriple]:
        """Iterate over the triples of `Graph.find` as the IDs of their strings.

        Errors: those of `Graph.find`. The time is linear in the triples and those left out. It keeps 24 bytes for each
        triple of a portion of up to 4,096.

        >>> list(graph.ids.find(p="u:p")), list(graph.ids.find(s=2, p=1))
        ([(1, 1, 2), (2, 1, 1)], [(2, 1, 1)])
        """
        return chain.from_iterable(map(rows, self._graph._pages(self._pattern(s, p, o), *window(start, limit))))

    def array(
        self, s: Part = None, p: Part = None, o: Part = None, *, limit: Optional[int] = None, start: int = 0
    ) -> IdArray:
        """The triples of `find` in one array, which numpy takes without a copy.

        Errors: those of `find`, MemoryError. It takes the time to count the matches and to write them, 24 bytes each.

        >>> graph.ids.array().column("predicate").tolist()
        [1, 2, 1]
        """
        return IdArray(self._graph._page_of_all(self._pattern(s, p, o), *window(start, limit)))

    def page(
        self, s: Part = None, p: Part = None, o: Part = None, *, start: int = 0, limit: int = 100
    ) -> tuple[list[IdTriple], Optional[int]]:
        """A page of the triples of `find`, as `Graph.page`, and in its time. Errors: those of `find`.

        >>> graph.ids.page(limit=2), graph.ids.page(limit=2, start=2)
        (([(1, 1, 2), (1, 2, 3)], 2), ([(2, 1, 1)], None))
        """
        first, most = window(start, operator.index(limit))
        ids, following = self._graph._page(self._pattern(s, p, o), first, most or 0)
        return list(rows(ids)), following
