"""Basic graph patterns over IDs: batches of rows go from pattern to pattern, in an order by the counts of the file."""

from __future__ import annotations

from collections.abc import Iterable, Iterator, Sequence
from operator import itemgetter
from typing import Any

from hdt.rdflib._cells import Batch, Cell, Cells, Layout, layout_of
from hdt.rdflib._operators import Filter, Given, Operator
from hdt.rdflib._options import Option, Place, Triple
from hdt.rdflib._paths import Walk, walk_of
from hdt.rdflib._ways import Way, patterns_of
from rdflib.paths import Path
from rdflib.term import BNode, Identifier, Variable

_MOST_READ = 100_000  # triples of the tables of a join


class Step:
    """Where some patterns are left, of which one is taken by its count at the batches 1, 2, 4, 8 .. that come here."""

    def __init__(self, options: list[Option], layout: Layout, filters: list[Filter], later: list[Filter]) -> None:
        self.options, self.layout, self.filters, self.later = options, layout, filters, later
        self.taken = options[0] if options else None
        self.times = 0

    def choose(self, batch: Batch) -> Option:
        """The pattern that is next for a batch."""
        self.times += 1
        if len(self.options) > 1 and not self.times & (self.times - 1):
            rows = [batch[0], batch[len(batch) // 2]] if len(batch) > 1 else batch
            self.taken = min(self.options, key=lambda option: sum(option.count(row) for row in rows))
        assert self.taken
        return self.taken


class Join(Operator):
    """A basic graph pattern, with the filters that are made on the way.

    The time is linear in what the patterns find in the order that is taken. It keeps a batch of rows for each pattern,
    and up to 100,000 triples.
    """

    def __init__(
        self, cells: Cells, triples: Iterable[Any], given: Given, filters: Sequence[Filter] = (),
        constants: frozenset[Any] = frozenset(),
    ) -> None:
        """Make a join of rows with these patterns. `constants` are variables that stand for terms of the query.

        Raises NotImplementedError for a path that can't be walked.
        """
        self.cells, self.file, self.filters, self.constants = cells, cells.file, list(filters), constants
        self.patterns = list(patterns_of(triples))
        terms = [term for it in self.patterns for term in it[:3] if isinstance(term, (Variable, BNode))]
        self.variables = frozenset(terms)
        hidden = self.variables - {term for triple in triples for term in triple}
        own = [term for term in dict.fromkeys(terms) if term not in hidden]
        self.given = given
        self.schema = (*given.schema, *(term for term in own if term not in given.schema))
        self.certain = given.certain | frozenset(own)
        self.room = _MOST_READ
        self._maybe = [(at, it) for at, it in enumerate(given.schema) if it in self.variables - given.certain]
        self._input = [at for at, it in enumerate(given.schema) if it in self.variables]
        self._steps: dict[tuple[bool, ...], Step] = {}
        self._walks: dict[tuple[int, bool], Walk] = {}
        self._places: dict[int, list[Place]] = {}
        for it in self.patterns:
            if isinstance(it.p, Path):
                self.walk(it.p, False)

    def run(self, batches: Iterable[Batch]) -> Iterator[Batch]:
        """The rows for the rows of some batches."""
        for batch in batches:
            for lacking, rows in self._parts(self._with_ids(batch)).items():
                yield from self._joined(self._first(lacking), rows)

    def _with_ids(self, batch: Batch) -> Batch:
        """A batch in which terms have IDs, if the file has them, in the columns of this join."""
        found: dict[Cell, Cell] = {}
        for at in self._input:
            for row in batch:
                if isinstance(row[at], Identifier) and (node := self.cells.known(row[at])) is not None:
                    found[id(row[at])] = node
        if not found:
            return batch
        return [tuple(found.get(id(cell), cell) for cell in row) for row in batch]

    def _parts(self, batch: Batch) -> dict[tuple[bool, ...], Batch]:
        """The rows by which variables of the join lack a value."""
        if not self._maybe:
            return {(): batch}
        parts: dict[tuple[bool, ...], Batch] = {}
        for row in batch:
            parts.setdefault(tuple(row[at] is None for at, _ in self._maybe), []).append(row)
        return parts

    def _first(self, lacking: tuple[bool, ...]) -> Step:
        step = self._steps.get(lacking)
        if step is None:
            layout = layout_of(self.given.schema)
            for (_, variable), lacks in zip(self._maybe, lacking):
                if lacks:  # (its place is kept, so that the places of others are those of the rows)
                    layout[object()] = layout.pop(variable)
            step = self._steps[lacking] = self._step(tuple(range(len(self.patterns))), layout, self.filters)
        return step

    def _step(self, left: tuple[int, ...], layout: Layout, filters: list[Filter]) -> Step:
        """The step where these patterns and filters are left."""
        now = [it for it in filters if not left or it.variables <= layout.keys()]
        options = [self._option(at, tuple([it for it in left if it != at]), layout) for at in left]
        return Step(options, layout, now, [it for it in filters if it not in now])

    def _option(self, at: int, left: tuple[int, ...], layout: Layout) -> Option:
        pattern = self.patterns[at]
        if isinstance(pattern.p, Path):
            return Way(self, pattern, left, layout)
        if at not in self._places:  # (the terms are looked up once, not for each step)
            self._places[at] = [it if it in self.variables else self.file.spellings(role, it)
                                for role, it in enumerate(pattern[:3])]
        return Triple(self, self._places[at], left, layout)

    def walk(self, path: Any, back: bool) -> Walk:
        """A path of the join, or back over it; what it has read stays read."""
        key = id(path), back
        if key not in self._walks:
            self._walks[key] = walk_of(self.file, path, back)
        return self._walks[key]

    def cell(self, term: Any) -> Cell:
        """A variable, or the cell of a term."""
        node = None if term in self.variables else self.cells.known(term)
        return term if node is None else node

    def _joined(self, step: Step, batch: Batch) -> Iterator[Batch]:
        """The rows of the patterns that are left for a batch. The batches of all steps are on a stack."""
        stack = [(step, iter([batch]))]
        while stack:
            step, batches = stack[-1]
            found = next(batches, None)
            if found is None:
                stack.pop()
                continue
            for it in step.filters:
                found = it.passing(found, step.layout)
            if not found:
                continue
            if not step.options:
                yield self._finished(found, step.layout)
                continue
            option = step.choose(found)
            if option.step is None:
                option.step = self._step(option.left, option.layout, step.later)
            stack.append((option.step, option.extended(found)))

    def _finished(self, batch: Batch, layout: Layout) -> Batch:
        """The rows in the order of the schema."""
        places = [layout[variable] for variable in self.schema]
        if places == list(range(len(batch[0]))):
            return batch
        if len(places) == 1:
            return [(row[places[0]],) for row in batch]
        return list(map(itemgetter(*places), batch)) if places else [()] * len(batch)
