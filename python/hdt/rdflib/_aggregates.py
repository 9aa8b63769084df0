"""GROUP BY and its aggregates, over rows as they come."""

from __future__ import annotations

from collections import Counter
from collections.abc import Iterable, Iterator, Sequence
from decimal import Decimal
from functools import reduce
from itertools import repeat
from typing import Any, Optional

from hdt.rdflib._cells import Batch, Cell, Cells, Layout, Order, Row, Value, layout_of
from hdt.rdflib._expressions import Expression
from hdt.rdflib._operators import Operator
from rdflib import XSD
from rdflib.plugins.sparql.datatypes import type_promotion
from rdflib.term import Literal, URIRef, Variable

Key = Any
_FLOATS = (XSD.float, XSD.double)


class Aggregate:
    """An aggregate of the values of an expression in each group. Values that are errors or lacking are passed over."""

    def __init__(self, cells: Cells, expression: Optional[Expression], distinct: bool) -> None:
        self.cells, self.expression, self.distinct = cells, expression, distinct
        self._seen: set[tuple[Key, Any]] = set()

    def add(self, keys: list[Key], batch: Batch, layout: Layout) -> None:
        """Take the rows of a batch, each of which is in the group with its key."""
        assert self.expression
        pairs = list(zip(keys, self.expression.values(batch, layout)))
        found = [(key, cell) for key, cell in pairs if cell is not None]
        if len(found) < len(pairs) and not isinstance(self.expression.expr, Variable):
            self.fail({key for key, cell in pairs if cell is None})
        self.take(self._fresh(found) if self.distinct else found)

    def fail(self, keys: set[Key]) -> None:
        """Take errors of an expression, with the keys of their groups."""

    def _fresh(self, found: list[tuple[Key, Cell]]) -> list[tuple[Key, Cell]]:
        """Those values that their group doesn't have yet."""
        same = self.cells.same(cell for _, cell in found)
        fresh = []
        for key, cell in found:
            mark = key, same.get(cell, cell)
            if mark not in self._seen:
                self._seen.add(mark)
                fresh.append((key, cell))
        return fresh

    def take(self, found: list[tuple[Key, Cell]]) -> None:
        """Take values with the keys of their groups."""
        raise NotImplementedError

    def value(self, key: Key) -> Optional[Cell]:
        """The value for a group."""
        raise NotImplementedError


class Count(Aggregate):
    """COUNT, also of whole solutions."""

    def __init__(self, cells: Cells, expression: Optional[Expression], distinct: bool) -> None:
        super().__init__(cells, expression, distinct)
        self._counts: Counter[Key] = Counter()

    def add(self, keys: list[Key], batch: Batch, layout: Layout) -> None:
        """Take the rows of a batch."""
        if self.expression:
            super().add(keys, batch, layout)
        elif not self.distinct:
            self._counts.update(keys)
        else:
            places = [at for it, at in layout.items() if isinstance(it, Variable)]
            same = self.cells.same(row[at] for row in batch for at in places)
            rows = (tuple([same.get(row[at], row[at]) for at in places]) for row in batch)
            for mark in zip(keys, rows):
                if mark not in self._seen:
                    self._seen.add(mark)
                    self._counts[mark[0]] += 1

    def take(self, found: list[tuple[Key, Cell]]) -> None:
        """Count the values."""
        self._counts.update(key for key, _ in found)

    def value(self, key: Key) -> Cell:
        """How many there are."""
        return Literal(self._counts[key])


class Sum(Aggregate):
    """SUM. A value that is no number is an error, so there is no sum."""

    def __init__(self, cells: Cells, expression: Optional[Expression], distinct: bool) -> None:
        super().__init__(cells, expression, distinct)
        self._sums: dict[Key, dict[URIRef, list[Any]]] = {}  # a sum and how many, for each datatype
        self._failed: set[Key] = set()

    def fail(self, keys: set[Key]) -> None:
        """Have no sum of groups with an error. (A variable without a value is passed over, as rdflib does.)"""
        self._failed |= keys

    def take(self, found: list[tuple[Key, Cell]]) -> None:
        """Add the numbers."""
        numbers, sums = self.cells.numbers({cell for _, cell in found}), self._sums
        for key, cell in found:
            number = numbers[cell]
            if number is None:
                self._failed.add(key)
                continue
            value, datatype = number
            of_key = sums.get(key)
            if of_key is None:
                of_key = sums[key] = {}
            it = of_key.get(datatype)
            if it is None:
                of_key[datatype] = [value, 1]
            else:
                try:
                    it[0] += value
                except ArithmeticError:
                    self._failed.add(key)
                it[1] += 1

    def _total(self, key: Key) -> tuple[Value, int, Optional[URIRef]]:
        """The sum, how many numbers there are, and the datatype of the sum. Raises ArithmeticError."""
        sums = self._sums.get(key, {})
        count = int(sum(it[1] for it in sums.values()))
        datatypes = list(sums)
        if len(datatypes) == 1 and count > 1:
            datatypes *= 2  # (the sum of two of xsd:byte is of xsd:integer)
        datatype = reduce(type_promotion, datatypes) if datatypes else None
        values = [it[0] for it in sums.values()]
        if any(it in _FLOATS for it in datatypes):
            values = list(map(float, values))
        return sum(values), count, datatype

    def value(self, key: Key) -> Optional[Cell]:
        """The sum; 0 of no numbers."""
        if key in self._failed:
            return None
        try:
            total, _, datatype = self._total(key)
            return Literal(total, datatype=datatype)
        except (ArithmeticError, ValueError):
            return None


class Average(Sum):
    """AVG, as SUM."""

    def value(self, key: Key) -> Optional[Cell]:
        """The average; 0 of no numbers."""
        if key in self._failed:
            return None
        try:
            total, count, datatype = self._total(key)
            if not count:
                return Literal(0)
            return Literal(total / count if datatype in _FLOATS else Decimal(total) / count)
        except (ArithmeticError, ValueError):
            return None


class Least(Aggregate):
    """MIN, in the order of ORDER BY."""

    def __init__(self, cells: Cells, expression: Optional[Expression], distinct: bool) -> None:
        super().__init__(cells, expression, False)
        self._best: dict[Key, tuple[Order, Cell]] = {}

    def take(self, found: list[tuple[Key, Cell]]) -> None:
        """Keep the least ones."""
        orders, best = self.cells.orders({cell for _, cell in found}), self._best
        for key, cell in found:
            order, now = orders[cell], best.get(key)
            if now is None or self.is_better(order, now[0]):
                best[key] = order, cell

    def is_better(self, order: Order, other: Order) -> bool:
        """Whether one is less."""
        return order < other

    def value(self, key: Key) -> Optional[Cell]:
        """The least value."""
        return self._best[key][1] if key in self._best else None


class Greatest(Least):
    """MAX, in the order of ORDER BY."""

    def is_better(self, order: Order, other: Order) -> bool:
        """Whether one is greater."""
        return order > other


class Sample(Aggregate):
    """SAMPLE, and what a variable of GROUP BY is: the first value."""

    def __init__(self, cells: Cells, expression: Optional[Expression], distinct: bool) -> None:
        super().__init__(cells, expression, False)
        self._first: dict[Key, Cell] = {}

    def take(self, found: list[tuple[Key, Cell]]) -> None:
        """Keep the first ones."""
        for key, cell in found:
            self._first.setdefault(key, cell)

    def value(self, key: Key) -> Optional[Cell]:
        """The first value."""
        return self._first.get(key)


class GroupConcat(Aggregate):
    """GROUP_CONCAT. It keeps the texts."""

    separator = " "

    def __init__(self, cells: Cells, expression: Optional[Expression], distinct: bool) -> None:
        super().__init__(cells, expression, distinct)
        self._texts: dict[Key, list[str]] = {}

    def take(self, found: list[tuple[Key, Cell]]) -> None:
        """Keep the texts."""
        terms = self.cells.terms(cell for _, cell in found)
        for key, cell in found:
            self._texts.setdefault(key, []).append(str(terms.get(cell, cell)))

    def value(self, key: Key) -> Cell:
        """The texts with the separator between them."""
        return Literal(self.separator.join(self._texts.get(key, [])))


_KINDS: dict[str, type[Aggregate]] = {
    "Aggregate_Count": Count, "Aggregate_Sum": Sum, "Aggregate_Avg": Average, "Aggregate_Min": Least,
    "Aggregate_Max": Greatest, "Aggregate_Sample": Sample, "Aggregate_GroupConcat": GroupConcat}


def aggregate_of(cells: Cells, ctx: Any, part: Any) -> Aggregate:
    """An aggregate of rdflib's algebra. Raises NotImplementedError for an unknown one."""
    if part.name not in _KINDS:
        raise NotImplementedError
    expression = None if part.vars == "*" else Expression(cells, ctx, part.vars)
    if expression is None and part.name != "Aggregate_Count":
        raise NotImplementedError
    made = _KINDS[part.name](cells, expression, bool(part.distinct))
    if isinstance(made, GroupConcat) and part.separator is not None:
        made.separator = str(part.separator)
    return made


class Grouping(Operator):
    """The groups of the rows of a part, with their aggregates: a row for each.

    It keeps the keys of the groups and what their aggregates need: a few numbers, different terms for DISTINCT, texts
    for GROUP_CONCAT. The time is linear in the rows. What the query was given, `base`, begins each row.
    """

    def __init__(
        self, cells: Cells, rows: Operator, keys: Optional[list[Expression]], aggregates: dict[Any, Aggregate],
        given: Sequence[Any], base: Row,
    ) -> None:
        self.cells, self.rows, self.keys, self.aggregates, self.base = cells, rows, keys, aggregates, base
        self.schema = (*given, *aggregates)
        counts = (it for it, aggregate in aggregates.items() if isinstance(aggregate, Count))
        self.certain = frozenset(given) | frozenset(counts)

    def run(self, batches: Iterable[Batch]) -> Iterator[Batch]:
        """The groups of the rows, in the order in which they come first."""
        layout = layout_of(self.rows.schema)
        groups: dict[Key, None] = {} if self.keys else {(): None}
        for batch in self.rows.run(batches):
            if not batch:
                continue
            keys = self._keys(batch, layout)
            groups.update(zip(keys, repeat(None)))
            for aggregate in self.aggregates.values():
                aggregate.add(keys, batch, layout)
        yield [self.base + tuple([it.value(key) for it in self.aggregates.values()]) for key in groups]

    def _keys(self, batch: Batch, layout: Layout) -> list[Key]:
        """The group of each row."""
        if not self.keys:
            return [()] * len(batch)
        columns = []
        for expression in self.keys:
            values = expression.values(batch, layout)
            same = self.cells.same(values)
            columns.append([same.get(cell, cell) for cell in values] if same else values)
        return columns[0] if len(columns) == 1 else list(zip(*columns))
