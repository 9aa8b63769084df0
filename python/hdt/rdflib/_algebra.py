"""SPARQL's algebra over rows: a part of a query, as rdflib has it, becomes an operator.

Joins and OPTIONAL send the rows of one side through the other one, if that gives what SPARQL's joining from the bottom
up gives (`Compiler.is_pushable`); else both sides are made, and joined by a table.
"""

from __future__ import annotations

from collections.abc import Callable, Iterable, Iterator, Sequence
from itertools import islice
from operator import itemgetter
from typing import Any, Optional

from hdt.rdflib._cells import FULL, Batch, Cells, Row, layout_of
from hdt.rdflib._expressions import Expression
from hdt.rdflib._operators import Filter, Given, Operator
from hdt.rdflib._terms import Kept

_MOST = 65_536  # answers of EXISTS that are kept, at most twice as many


# ---- operators


class Rows(Operator):
    """Rows that are made at first, joined with those that come in by the variables of both, or by some of them."""

    def __init__(
        self, cells: Cells, given: Given, made: Given, rows: Callable[[], Iterable[Row]],
        by: Optional[frozenset[Any]] = None,
    ) -> None:
        self.cells, self._rows = cells, rows
        new = [it for it in made.schema if it not in given.schema]
        self.schema = (*given.schema, *new)
        self.certain = given.certain | made.certain
        self._new = [made.schema.index(it) for it in new]
        both = frozenset(given.schema) if by is None else by
        self._shared = [(given.schema.index(it), at) for at, it in enumerate(made.schema) if it in both]
        # By which shared columns have values in the rows, and by which of these are compared: the rows by their cells.
        self._tables: dict[tuple[int, ...], dict[tuple[int, ...], dict[Row, list[Row]]]] = {}
        self._of: Optional[dict[tuple[int, ...], list[Row]]] = None

    def _kinds(self) -> dict[tuple[int, ...], list[Row]]:
        """The rows, by which of the shared columns have values; they are made at the first call."""
        if self._of is None:
            self._of = {}
            for row in self._rows():
                kind = tuple([n for n, (_, at) in enumerate(self._shared) if row[at] is not None])
                self._of.setdefault(kind, []).append(row)
        return self._of

    def _table(self, kind: tuple[int, ...], columns: tuple[int, ...]) -> dict[Row, list[Row]]:
        tables = self._tables.setdefault(kind, {})
        if columns not in tables:
            rows, places = self._kinds()[kind], [self._shared[n][1] for n in columns]
            same = self.cells.same(row[at] for row in rows for at in places)
            table: dict[Row, list[Row]] = {}
            for row in rows:
                table.setdefault(tuple([same.get(row[at], row[at]) for at in places]), []).append(row)
            tables[columns] = table
        return tables[columns]

    def matches(self, batch: Batch, overlapping: bool = False) -> Iterator[tuple[Row, list[Row]]]:
        """The rows of a batch, each with those that agree with it, and with `overlapping` share a variable with it."""
        places = [at for at, _ in self._shared]
        same = self.cells.same(row[at] for row in batch for at in places)
        for row in batch:
            own = [n for n, at in enumerate(places) if row[at] is not None]
            found: list[Row] = []
            for kind in self._kinds():
                columns = tuple([n for n in own if n in kind])
                if columns or not overlapping:
                    key = tuple([same.get(row[places[n]], row[places[n]]) for n in columns])
                    found = found + self._table(kind, columns).get(key, [])
            yield row, found

    def merged(self, row: Row, other: Row) -> Row:
        """A row with the values of one that agrees with it."""
        lacking = [(at, there) for at, there in self._shared if row[at] is None]
        if lacking:
            cells = list(row)
            for at, there in lacking:
                cells[at] = other[there]
            row = tuple(cells)
        return row + tuple([other[at] for at in self._new])

    def run(self, batches: Iterable[Batch]) -> Iterator[Batch]:
        """The joined rows."""
        for batch in batches:
            yield from _filled(self.merged(row, other) for row, found in self.matches(batch) for other in found)


class Optionally(Operator):
    """OPTIONAL by a table: each row with those that agree with it and pass a test, or alone."""

    def __init__(self, before: Operator, rows: Rows, test: Operator) -> None:
        self.before, self.rows, self.test = before, rows, test
        self.schema, self.certain = rows.schema, before.certain

    def run(self, batches: Iterable[Batch]) -> Iterator[Batch]:
        """The rows for the rows of some batches."""
        lacking = (None,) * (len(self.schema) - len(self.before.schema))
        for batch in self.before.run(batches):
            for row, found in self.rows.matches(batch):
                passed = False
                for some in self.test.run(_filled(self.rows.merged(row, other) for other in found)):
                    passed = passed or bool(some)
                    yield some
                if not passed:
                    yield [row + lacking]


class Pushed(Operator):
    """OPTIONAL by sending rows through a part: a number is added to each, to know which ones came out."""

    def __init__(self, before: Operator, behind: Operator) -> None:
        self.before, self.behind = before, behind
        self._at = len(before.schema)
        self.schema = behind.schema[:self._at] + behind.schema[self._at + 1:]
        self.certain = before.certain

    def run(self, batches: Iterable[Batch]) -> Iterator[Batch]:
        """The rows for the rows of some batches."""
        at, lacking = self._at, (None,) * (len(self.schema) - self._at)
        for batch in self.before.run(batches):
            passed: set[int] = set()
            for found in self.behind.run([[row + (n,) for n, row in enumerate(batch)]]):
                passed.update(row[at] for row in found)
                yield [row[:at] + row[at + 1:] for row in found]
            yield [row + lacking for n, row in enumerate(batch) if n not in passed]


class Chain(Operator):
    """One operator behind another one."""

    def __init__(self, before: Operator, behind: Operator) -> None:
        self.before, self.behind = before, behind
        self.schema, self.certain = behind.schema, behind.certain

    def run(self, batches: Iterable[Batch]) -> Iterator[Batch]:
        """The rows for the rows of some batches."""
        return self.behind.run(self.before.run(batches))


class Same(Operator):
    """The rows that come in."""

    def __init__(self, given: Given) -> None:
        self.schema, self.certain = given

    def run(self, batches: Iterable[Batch]) -> Iterator[Batch]:
        """The rows that come in."""
        return iter(batches)


class Filtered(Operator):
    """The rows that pass tests."""

    def __init__(self, before: Operator, filters: Sequence[Filter]) -> None:
        self.before, self.filters = before, filters
        self.schema, self.certain = before.schema, before.certain
        self._layout = layout_of(self.schema)

    def run(self, batches: Iterable[Batch]) -> Iterator[Batch]:
        """The rows that pass."""
        for batch in self.before.run(batches):
            for it in self.filters:
                batch = it.passing(batch, self._layout) if batch else batch
            yield batch


class Exists(Filter):
    """EXISTS, NOT EXISTS, and MINUS where it comes to the same: one search for each of the different values."""

    def __init__(self, part: Operator, columns: Sequence[Any], wanted: bool) -> None:
        self.part, self.columns, self.wanted = part, columns, wanted
        self.variables = frozenset(columns)
        self._known: Kept[Row, bool] = Kept(_MOST, part.holds)

    def passing(self, batch: Batch, layout: dict[Any, int]) -> Batch:
        """Those of the rows for which there is a row, or none if that is wanted."""
        places, wanted, known = [layout.get(it) for it in self.columns], self.wanted, self._known
        keys = [tuple([None if at is None else row[at] for at in places]) for row in batch]
        return [row for row, key in zip(batch, keys) if known[key] is wanted]


class Disjoint(Operator):
    """MINUS by a table."""

    def __init__(self, before: Operator, rows: Rows) -> None:
        self.before, self.rows = before, rows
        self.schema, self.certain = before.schema, before.certain

    def run(self, batches: Iterable[Batch]) -> Iterator[Batch]:
        """The rows with which no row agrees that has a value of the same variable."""
        for batch in self.before.run(batches):
            yield [row for row, found in self.rows.matches(batch, overlapping=True) if not found]


class Either(Operator):
    """UNION."""

    def __init__(self, given: Given, parts: Sequence[Operator]) -> None:
        self.parts = parts
        self.schema = tuple(dict.fromkeys(it for part in parts for it in part.schema))
        self.certain = frozenset.intersection(*(part.certain for part in parts))
        layouts = [layout_of(part.schema) for part in parts]
        self._places = [[layout.get(it) for it in self.schema] for layout in layouts]

    def run(self, batches: Iterable[Batch]) -> Iterator[Batch]:
        """The rows of each part."""
        for batch in batches:
            for part, places in zip(self.parts, self._places):
                for rows in part.run([batch]):
                    yield [tuple([None if at is None else row[at] for at in places]) for row in rows]


class Extended(Operator):
    """BIND, and the expressions of SELECT."""

    def __init__(self, before: Operator, expression: Expression, variable: Any) -> None:
        self.before, self.expression = before, expression
        self.schema, self.certain = (*before.schema, variable), before.certain
        self._layout = layout_of(before.schema)

    def run(self, batches: Iterable[Batch]) -> Iterator[Batch]:
        """The rows with the value of the expression, or none."""
        for batch in self.before.run(batches):
            values = self.expression.values(batch, self._layout)
            yield [row + (value,) for row, value in zip(batch, values)]


class Projected(Operator):
    """Some of the columns."""

    def __init__(self, before: Operator, columns: Sequence[Any]) -> None:
        self.before, layout = before, layout_of(before.schema)
        self.schema = tuple(it for it in dict.fromkeys(columns) if it in layout)
        self.certain = before.certain & frozenset(self.schema)
        self._places = [layout[it] for it in self.schema]

    def run(self, batches: Iterable[Batch]) -> Iterator[Batch]:
        """The rows with these columns."""
        places = self._places
        for batch in self.before.run(batches):
            if len(places) > 1:
                yield list(map(itemgetter(*places), batch))
            else:
                yield [tuple([row[at] for at in places]) for row in batch]


class Distinct(Operator):
    """Each row once. It keeps the rows."""

    def __init__(self, cells: Cells, before: Operator) -> None:
        self.cells, self.before = cells, before
        self.schema, self.certain = before.schema, before.certain

    def run(self, batches: Iterable[Batch]) -> Iterator[Batch]:
        """The rows, each once."""
        seen: set[Row] = set()
        for batch in self.before.run(batches):
            same = self.cells.same(cell for row in batch for cell in row)
            keys = [tuple([same.get(cell, cell) for cell in row]) for row in batch] if same else batch
            fresh = []
            for row, key in zip(batch, keys):
                if key not in seen:
                    seen.add(key)
                    fresh.append(row)
            yield fresh


class Ordered(Operator):
    """ORDER BY. It keeps the rows."""

    def __init__(self, cells: Cells, before: Operator, by: Sequence[tuple[Expression, bool]]) -> None:
        self.cells, self.before, self.by = cells, before, by
        self.schema, self.certain = before.schema, before.certain

    def run(self, batches: Iterable[Batch]) -> Iterator[Batch]:
        """The rows in order."""
        rows = [row for batch in self.before.run(batches) for row in batch]
        layout = layout_of(self.schema)
        for expression, is_descending in reversed(self.by):
            values = expression.values(rows, layout)
            orders = dict(self.cells.orders(set(values)))
            sorted_ = sorted(zip(values, range(len(rows))), key=lambda it: orders[it[0]], reverse=is_descending)
            rows = [rows[n] for _, n in sorted_]
        yield from _filled(iter(rows))


class Slice(Operator):
    """LIMIT and OFFSET."""

    def __init__(self, before: Operator, start: int, length: Optional[int]) -> None:
        self.before, self.start = before, start
        self.end = None if length is None else start + length
        self.schema, self.certain = before.schema, before.certain

    def run(self, batches: Iterable[Batch]) -> Iterator[Batch]:
        """The rows from one on."""
        at = 0
        if self.end == 0:
            return
        for batch in self.before.run(batches):
            yield batch[max(self.start - at, 0):None if self.end is None else self.end - at]
            at += len(batch)
            if self.end is not None and at >= self.end:
                return


def _filled(rows: Iterable[Row]) -> Iterator[Batch]:
    """Rows in batches."""
    left = iter(rows)
    while batch := list(islice(left, FULL)):
        yield batch
