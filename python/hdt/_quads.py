"""N-Quads as N-Triples: lines without their graph."""

from __future__ import annotations

import re
from collections.abc import Iterable, Iterator

from ._blocks import Block

_MOST = 100_000  # graphs that are told apart

# A line of N-Quads: a triple, perhaps a graph, and the rest. After a label comes a blank or a bracket, so that a part
# of it is never tried: the time is linear. Whatever isn't like this has no graph: the library will judge it.
_LINE = re.compile(
    rb"""(?: (?P<triple>
            [ \t]* (?: <[^<>\r\n]*> | _:[^\s<"]+ (?=[\s<]) )
            [ \t]* <[^<>\r\n]*>
            [ \t]* (?: <[^<>\r\n]*> | _:[^\s<"]+ (?=[\s<])
                     | "(?:[^"\\\r\n]|\\.)*" (?: @[A-Za-z0-9-]+ (?=[\s<]) | \^\^[ \t]*<[^<>\r\n]*> )? ) )
         [ \t]* (?P<graph> <[A-Za-z][A-Za-z0-9+.-]*:(?:[^\x00-\x20<>"{}|^`\\]|\\u[0-9A-Fa-f]{4}|\\U[0-9A-Fa-f]{8})*>
                         | _:[\w\x80-\xff](?:[\w.:\x80-\xff-]*[\w:\x80-\xff-])? )
         (?= [ \t]* \. [ \t]* (?: [#\r\n] | $ ) )
     )?
     (?P<rest> [^\r\n]* [\r\n]* )""",
    re.VERBOSE,
)


class Graphs:
    """The named graphs of an input. Of more than 100,000 it is only known that there are so many."""

    def __init__(self) -> None:
        self._names: set[bytes] = set()

    def triples(self, blocks: Iterable[Block]) -> Iterator[bytes]:
        """The lines of N-Quads without their graphs; the line ends stay, so errors have the same lines.

        The time is linear. A graph whose name is no IRI or label of N-Quads stays, and is an error of the line.
        """
        for block in blocks:
            yield _LINE.sub(self._without_graph, block)

    def _without_graph(self, line: re.Match[bytes]) -> bytes:
        graph = line["graph"]
        if graph is None:
            return line[0]
        if graph not in self._names:
            try:
                graph.decode()
            except UnicodeDecodeError:
                return line[0]
            if len(self._names) < _MOST:
                self._names.add(graph)
        return line["triple"] + line["rest"]

    def add(self, name: str) -> None:
        """Note a graph by its name."""
        if len(self._names) < _MOST:
            self._names.add(name.encode("utf-8", "surrogatepass"))

    def refuse(self, name: str) -> None:
        """Raises ValueError if there are named graphs, with their number."""
        if self._names:
            count = f"{len(self._names):,}" + " or more" * (len(self._names) == _MOST)
            graphs = "named graph" + "s" * (len(self._names) > 1)
            raise ValueError(f'{name}: it has {count} {graphs}: graphs="merge" builds the union of all graphs')
