"""A triple pattern that may be the next one of a join: it makes batches of rows of batches."""

from __future__ import annotations

from collections.abc import Callable, Iterable, Iterator, Sequence
from functools import cached_property
from itertools import product
from operator import itemgetter
from typing import TYPE_CHECKING, Any, Optional, Union

from hdt.rdflib._cells import FULL, Batch, Layout, Row
from hdt.rdflib._file import Ids, OpenFile, Page, Search
from rdflib.term import BNode, Variable

if TYPE_CHECKING:
    from hdt.rdflib._join import Join, Step

_ANY: Ids = (None,)
_DUE = 16  # searches for a pattern, after which it is asked whether its triples are read into a table,
_READ = 6  # which takes about as long as one search for so many triples
FIRST = 16  # rows of the first batch of a pattern

# A place of a pattern: the IDs of a term that is given, or a variable.
Place = Union[Ids, Variable, BNode]
# What the variables of a pattern may be, by the IDs of its terms that have a value by then: an ID or a tuple of them.
Table = dict[Any, list[Row]]


class Option:
    """A pattern that may be the next one of a join, where some variables have values."""

    def __init__(self, left: tuple[int, ...], variables: Iterable[Any], layout: Layout) -> None:
        self.left, self.layout = left, dict(layout)
        self.new = [it for it in dict.fromkeys(variables) if it not in layout]
        for variable in self.new:
            self.layout[variable] = len(self.layout)
        self.step: Optional[Step] = None

    def count(self, row: Row) -> float:
        """How many rows there are for a row, as far as that is known."""
        raise NotImplementedError

    def extended(self, batch: Batch) -> Iterator[Batch]:
        """The rows for the rows of a batch, in batches."""
        raise NotImplementedError


class Triple(Option):
    """A triple pattern. `bound` are the roles of variables that have values, with their places in a row."""

    def __init__(self, join: Join, places: list[Place], left: tuple[int, ...], layout: Layout) -> None:
        variables = [it for it in places if not isinstance(it, tuple)]
        super().__init__(left, variables, layout)
        self.join, self.file = join, join.file
        self.ids = [it if isinstance(it, tuple) else _ANY for it in places]
        self.bound = [(role, layout[it]) for role, it in enumerate(places) if it in layout]
        self.places = places
        self.has_loop = len(variables) - len(self.bound) > len(self.new)
        self.searched, self.due = 0, _DUE
        self.table: Optional[Table] = None

    @cached_property
    def picked(self) -> Callable[[Page], list[Row]]:
        """What makes the values of new variables of triples. (Most options are counted only.)"""
        return _picker(self.file, self.places, self.new)

    def searches(self, row: Row) -> list[Search]:
        """The searches for a row; none if a value can't be in its place."""
        s, p, o = self.ids
        for role, at in self.bound:
            ids = self.file.ids[role][row[at]]
            if role == 0:
                s = ids
            elif role == 1:
                p = ids
            else:
                o = ids
        if len(s) == len(p) == len(o) == 1:
            return [(s[0], p[0], o[0])]
        return list(product(s, p, o))

    def count(self, row: Row) -> float:
        """How many triples the searches find."""
        return self.file.count(self.searches(row))

    def extended(self, batch: Batch) -> Iterator[Batch]:
        """The rows for the rows of a batch."""
        if self.table is None and self.bound:
            columns = [(self.file.ids[role], at) for role, at in self.bound]
            self._read_if_due(sum(all([ids[row[at]] for ids, at in columns]) for row in batch))
        if self.table is not None:
            return self._looked_up(batch, self.table)
        return self._searched(batch) if self.new else iter([self._present(batch)])

    def _present(self, batch: Batch) -> Batch:
        has, searches = self.file.has, self.searches
        return [row for row in batch if has(searches(row))]

    def _searched(self, batch: Batch) -> Iterator[Batch]:
        rows: Batch = []
        full, picked = FIRST, self.picked
        for row in batch:
            searches = self.searches(row)
            pages = self.file.pages(searches[0]) if len(searches) == 1 else self._together(searches)
            for page in pages:
                rows += [row + values for values in picked(page)]
                if len(rows) >= full:
                    yield rows
                    rows, full = [], min(4 * full, FULL)
        yield rows

    def _together(self, searches: list[Search]) -> Iterator[Page]:
        """The triples of several spellings of a term, without those that differ in nothing else."""
        seen: set[Row] = set()
        for search in searches:
            for page in self.file.pages(search):
                fresh = []
                for triple in page:
                    values = tuple(self.picked([triple]))
                    if values not in seen:
                        seen.add(values)
                        fresh.append(triple)
                yield fresh

    def _read_if_due(self, searches: int) -> None:
        """Read the triples into a table, after so many searches that it takes less to read them all."""
        self.searched += searches
        if self.searched < self.due or self.has_loop:
            return
        self.due = 2 * self.searched
        everything = list(product(*self.ids))
        if len(everything) != 1:
            return
        count = self.file.count(everything)  # type: ignore[arg-type]
        if count > min(_READ * self.searched, self.join.room):
            return
        self.join.room -= count
        key, table = itemgetter(*(role for role, _ in self.bound)), self.table or {}
        for page in self.file.pages(everything[0]):  # type: ignore[arg-type]
            for triple, values in zip(page, self.picked(page)):
                table.setdefault(key(triple), []).append(values)
        self.table = table

    def _looked_up(self, batch: Batch, table: Table) -> Iterator[Batch]:
        rows: Batch = []
        for row, keys in zip(batch, self._keys(batch)):
            if len(keys) == 1:
                found: Iterable[Row] = table.get(keys[0], ())
            else:
                found = dict.fromkeys(values for key in keys for values in table.get(key, ()))
            if found:
                rows += [row + values for values in found]
                if len(rows) >= FULL:
                    yield rows
                    rows = []
        yield rows

    def _keys(self, batch: Batch) -> Iterable[Sequence[Any]]:
        """What is looked up in the table for each row."""
        columns = [(self.file.ids[role], at) for role, at in self.bound]
        if len(columns) == 1:
            ids, at = columns[0]
            return [ids[row[at]] for row in batch]
        return ([*product(*(ids[row[at]] for ids, at in columns))] for row in batch)


def _picker(file: OpenFile, places: list[Place], new: list[Any]) -> Callable[[Page], list[Row]]:
    """What makes the values of variables of triples."""
    shared, more, node = file.shared, file.more, file.node_of_predicate
    roles = tuple(places.index(variable) for variable in new)
    loops = [(roles[new.index(it)], role) for role, it in enumerate(places) if it in new]
    loops = [(one, other) for one, other in loops if one != other]
    if not loops and 1 not in roles:
        if roles == (0,):
            return lambda page: [(s,) for s, _, _ in page]
        if roles == (2,):
            return lambda page: [(o if o <= shared else o + more,) for _, _, o in page]
        if roles == (0, 2):
            return lambda page: [(s, o if o <= shared else o + more) for s, _, o in page]
        return lambda page: [()] * len(page)

    def picked(page: Page) -> list[Row]:
        rows = [(s, node[p], o if o <= shared else o + more) for s, p, o in page]
        return [tuple(row[role] for role in roles) for row in rows if all(row[a] == row[b] for a, b in loops)]

    return picked
