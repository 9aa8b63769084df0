"""A pattern with a path, which may be the next one of a join."""

from __future__ import annotations

from collections.abc import Iterable, Iterator, Sequence
from itertools import chain
from typing import TYPE_CHECKING, Any, NamedTuple

from hdt.rdflib._cells import FULL, Batch, Cell, Layout, Row
from hdt.rdflib._file import portions
from hdt.rdflib._options import FIRST, Option
from hdt.rdflib._paths import Walk
from rdflib.paths import InvPath, SequencePath
from rdflib.term import BNode

if TYPE_CHECKING:
    from hdt.rdflib._join import Join

_WAYS = 64  # what a path is taken to find from one of its ends


class Pattern(NamedTuple):
    """A triple pattern, or a part of one with a path, whose ends `first` and `last` are those of the whole path."""

    s: Any
    p: Any
    o: Any
    first: Any
    last: Any


def patterns_of(triples: Iterable[tuple[Any, Any, Any]]) -> Iterator[Pattern]:
    """Patterns with the parts of a sequence as patterns of their own, and inverse paths turned round (18.2.2.4).

    The variables in between are blank nodes.
    """
    left = [Pattern(s, p, o, s, o) for s, p, o in triples][::-1]
    while left:
        it = left.pop()
        if isinstance(it.p, InvPath):
            left.append(it._replace(s=it.o, p=it.p.arg, o=it.s))
        elif isinstance(it.p, SequencePath):
            nodes = [it.s, *(BNode() for _ in it.p.args[1:]), it.o]
            parts = zip(nodes, it.p.args, nodes[1:])
            left += [Pattern(s, p, o, it.first, it.last) for s, p, o in parts][::-1]
        else:
            yield it


class Way(Option):
    """A pattern with a path between two places, each of which is a variable or the cell of a term."""

    def __init__(self, join: Join, pattern: Pattern, left: tuple[int, ...], layout: Layout) -> None:
        path, ends = pattern.p, tuple(join.cell(it) for it in (pattern.s, pattern.o))
        super().__init__(left, [it for it in ends if it in join.variables], layout)
        self.join = join
        self.is_loop = ends[0] == ends[1] and ends[0] in self.new
        self.known = [layout.get(it) if it in join.variables else None for it in ends]
        self.given = [None if it in join.variables else it for it in ends]
        self.is_open = [it in self.new for it in ends]
        # What the query names is a node for its path; a value of a variable has to be one of the graph.
        named = [join.cell(it) for it in (pattern.first, pattern.last) if it not in join.variables - join.constants]
        self.terms = [it for it in named if it not in join.variables]
        self.values = [layout[it] for it in named if it in layout]
        self.joined = [layout[it] for it in ends if it in layout and it not in join.constants]
        self.onward = join.walk(path, False)
        self.backward = join.walk(path, True) if self.is_open[0] and not self.is_open[1] else self.onward

    def count(self, row: Row) -> float:
        """A guess: nothing is known of it."""
        open_ends = sum(self.is_open)
        return (1.0, _WAYS, 2.0 * len(self.join.file.graph))[open_ends]

    def extended(self, batch: Batch) -> Iterator[Batch]:
        """The rows for the rows of a batch. What the path leads to from a node is found once for the whole batch."""
        if self.joined:
            batch = [row for row in batch if all([self._is_node(row[at], row) for at in self.joined])]
        first, last = ([row[at] for row in batch] if at is not None else [it] * len(batch)
                       for at, it in zip(self.known, self.given))
        if all(self.is_open):
            return self._from_all(batch)
        if self.is_open[1]:
            return self._led_to(batch, first, self.onward)
        if self.is_open[0]:
            return self._led_to(batch, last, self.backward)
        return self._between(batch, first, last)

    def _is_node(self, cell: Cell, row: Row) -> bool:
        """Whether a path may be of no length at a value of a variable."""
        return self.join.file.is_node(cell) or cell in self.terms or any(cell == row[at] for at in self.values)

    def _led_to(self, batch: Batch, starts: list[Cell], walk: Walk) -> Iterator[Batch]:
        def pieces() -> Iterator[Batch]:
            for start, rows in _grouped(batch, starts).items():
                for some in portions((other,) for other in walk.follow(start)):
                    yield from _products(rows, some)

        return _collected(pieces())

    def _between(self, batch: Batch, starts: list[Cell], ends: list[Cell]) -> Iterator[Batch]:
        def pieces() -> Iterator[Batch]:
            for start, pairs in _grouped([*zip(batch, ends)], starts).items():
                wanted: dict[Cell, Batch] = {}
                for row, end in pairs:
                    for node in self._spellings(end):
                        wanted.setdefault(node, []).append(row)
                for other in self.onward.follow(start):
                    if other in wanted:
                        yield wanted.pop(other) if self.onward.gives_once else wanted[other]
                        if not wanted:
                            break

        return _collected(pieces())

    def _spellings(self, cell: Cell) -> set[Cell]:
        """The nodes that are the same term as a cell, and it."""
        subjects, objects = (self.join.file.ids[role][cell] for role in (0, 2))
        return {cell, *subjects, *(self.join.file.node_of_object(it) for it in objects if it is not None)}

    def _from_all(self, batch: Batch) -> Iterator[Batch]:
        def pieces() -> Iterator[Batch]:
            others = (it for it in self.terms if not self.join.file.is_node(it))
            for start in chain(self.onward.starts(), others):
                if self.is_loop:
                    times = sum(1 for other in self._until(start) if other == start)
                    found: Iterator[Row] = iter([(start,)] * times)
                else:
                    found = ((start, other) for other in self.onward.follow(start))
                for some in portions(found):
                    yield from _products(batch, some)

        return _collected(pieces())

    def _until(self, start: Cell) -> Iterator[Cell]:
        """What a path leads to, up to where it came from if it gives nothing twice."""
        for other in self.onward.follow(start):
            yield other
            if other == start and self.onward.gives_once:
                return


def _grouped(its: list[Any], keys: list[Cell]) -> dict[Cell, list[Any]]:
    groups: dict[Cell, list[Any]] = {}
    for it, key in zip(its, keys):
        groups.setdefault(key, []).append(it)
    return groups


def _products(rows: Batch, values: Sequence[Row]) -> Iterator[Batch]:
    """Each row with each of some values, in batches that are not much larger than either."""
    if len(rows) * len(values) <= FULL:
        yield [row + more for row in rows for more in values]
    else:
        for row in rows:
            yield [row + more for more in values]


def _collected(pieces: Iterable[Batch]) -> Iterator[Batch]:
    """Batches of what comes in small ones, the first of which is small."""
    rows: Batch = []
    full = FIRST
    for piece in pieces:
        rows += piece
        if len(rows) >= full:
            yield rows
            rows, full = [], min(4 * full, FULL)
    yield rows
