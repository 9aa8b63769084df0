"""A folder of parts in place of a file."""

from __future__ import annotations

from collections.abc import Iterator
from typing import Any

import hdt
from hdt.parts import open_any
from hdt.parts.string_ids import StringIds
from hdt.rdflib._file import ROLES, Ids, OpenFile, Search, portions
from hdt.rdflib._terms import Kept
from rdflib.term import Identifier

_LAST: Any = "\U0010ffff"  # no string of a term is greater


class OpenParts(OpenFile):
    """An open folder of parts. The ID of a string is the string itself, so a node has one ID in both roles."""

    def __init__(self, graph: hdt.Graph, scope: str, exact: bool, keep: int) -> None:
        super().__init__(graph, scope, exact, keep)
        none: Any = ""
        self.shared, self.subjects, self.more = _LAST, _LAST, none

        self.node_of_predicate = Kept(keep, lambda string: string)
        self._is_node: Kept[str, bool] = Kept(keep, lambda string: any(
            graph.number(role, string) is not None for role in (ROLES[0], ROLES[2])))

    def place(self, node: Any) -> tuple[int, Any]:
        """Each role has the string."""
        return 0, node

    def nodes(self) -> Iterator[Any]:
        """Each subject and object, once. Their strings are in memory."""
        return iter(dict.fromkeys(string for s, _, o in self.graph.find() for string in (s, o)))

    def is_node(self, cell: Any) -> bool:
        """Whether a string, or a term, is a subject or an object."""
        if isinstance(cell, Identifier):
            return super().is_node(cell)
        return self._is_node[cell]

    def node_of(self, string: str) -> Any:
        """The string, if the folder has it in some role."""
        return next((string for role in ROLES if self.graph.number(role, string) is not None), None)

    def _ids_of_node(self, role: int, node: Any) -> Ids:
        if isinstance(node, Identifier):
            return super()._ids_of_node(role, node)
        return self._like[role, node] if node.startswith('"') and not self.exact else (node,)

    def strings(self, nodes: list[Any]) -> list[str]:
        """The strings of nodes, which are they."""
        return nodes

    def by_predicate(self) -> dict[Any, int]:
        """How many triples each predicate has."""
        return dict(self.graph.predicates())

    def pages(self, search: Search) -> Iterator[Any]:
        """The triples that a search finds. One part after another is asked, and the first triples come at once."""
        return portions(self.graph.find_ids(*search))


def opened_at(path: hdt.Path, scope: str, exact: bool, keep: int) -> OpenFile:
    """Open the file at a path, or the folder. Raises what `open_any` raises."""
    graph = open_any(path)
    return (OpenParts if isinstance(graph, StringIds) else OpenFile)(graph, scope, exact, keep)
