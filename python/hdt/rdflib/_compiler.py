"""A part of rdflib's algebra as an operator over rows."""

from __future__ import annotations

from collections.abc import Callable, Iterator, Sequence
from typing import Any, NamedTuple, Optional

from hdt.rdflib._aggregates import Grouping, aggregate_of
from hdt.rdflib._algebra import (Chain, Disjoint, Distinct, Either, Exists, Extended, Filtered, Optionally, Ordered,
                                 Projected, Pushed, Rows, Same, Slice)
from hdt.rdflib._cells import Cells, Row, Solution
from hdt.rdflib._counts import counted
from hdt.rdflib._expressions import Expression, conjuncts, parts_of
from hdt.rdflib._file import OpenFile, portions
from hdt.rdflib._join import Join
from hdt.rdflib._operators import Filter, Given, Operator
from rdflib.plugins.sparql.parserutils import CompValue
from rdflib.term import BNode, Variable

_EXISTS = {"Builtin_EXISTS": True, "Builtin_NOTEXISTS": False}
_NUMBER = Variable(" number")  # (which no query can have)


class Scope(NamedTuple):
    """The variables that a part may give values, and those that it always does."""

    possible: frozenset[Any]
    certain: frozenset[Any]


class Compiler:
    """Makes operators of the parts of one query. What the query was given is a first row of each."""

    def __init__(self, file: OpenFile, ctx: Any) -> None:
        self.file, self.ctx, self.cells = file, ctx, Cells(file)
        bindings = dict(ctx.bindings.items())
        self.base: Row = tuple(bindings.values())
        self.unit = Given(tuple(bindings), frozenset(bindings))
        self._scopes: dict[int, Scope] = {}
        # The variables that have the values of outside in a part of EXISTS, while it is made.
        self._substituted: Optional[frozenset[Any]] = None

    # ---- what may be pushed

    def scope(self, part: Any) -> Scope:
        """The scope of a part."""
        if id(part) not in self._scopes:
            self._scopes[id(part)] = self._scope_of(part)
        return self._scopes[id(part)]

    def _scope_of(self, part: Any) -> Scope:
        name = part.name
        if name == "BGP":
            found = frozenset(it for triple in part.triples for it in triple if isinstance(it, (Variable, BNode)))
            return Scope(found, found)
        if name in ("Join", "LeftJoin", "Union", "Minus"):
            return self._scope_of_two(name, self.scope(part.p1), self.scope(part.p2))
        if name == "Extend":
            below = self.scope(part.p)
            always = {part.var} if isinstance(part.expr, Variable) and part.expr in below.certain else set()
            return Scope(below.possible | {part.var}, below.certain | always)
        if name == "Project":
            below, columns = self.scope(part.p), frozenset(part.PV)
            return Scope(below.possible & columns, below.certain & columns)
        if name == "AggregateJoin":
            counts = frozenset(it.res for it in part.A if it.name == "Aggregate_Count")
            return Scope(frozenset(it.res for it in part.A), counts)
        if name == "values":
            every = [frozenset(it for it, value in row.items() if value != "UNDEF") for row in part.res]
            return Scope(frozenset().union(*part.res), frozenset.intersection(*every) if every else frozenset())
        if name in ("Filter", "ToMultiSet", "Distinct", "Reduced", "Slice", "OrderBy", "Group") and part.p:
            return self.scope(part.p)
        raise NotImplementedError

    @staticmethod
    def _scope_of_two(name: str, one: Scope, other: Scope) -> Scope:
        if name == "Minus":
            return one
        certain = {"Join": one.certain | other.certain, "LeftJoin": one.certain, "Union": one.certain & other.certain}
        return Scope(one.possible | other.possible, certain[name])

    def is_pushable(self, part: Any, known: frozenset[Any]) -> bool:
        """Whether a part may get rows with values of these variables, instead of being joined with them afterwards.

        Below OPTIONAL, MINUS, BIND and FILTER that holds if what they see of these variables is the same either way.
        Within EXISTS they are to see the values.
        """
        name, substituted = part.name, self._substituted is not None
        if name in ("Join", "Union"):
            return all(self.is_pushable(it, known) for it in (part.p1, part.p2))
        if name == "BGP" or (name == "ToMultiSet" and part.p and part.p.name == "values"):
            return True
        if name in ("Filter", "Extend"):
            if name == "Extend" and part.var in known or not self.is_pushable(part.p, known):
                return False
            return substituted or self._sees(part.expr) & known <= self.scope(part.p).certain
        if name == "LeftJoin":
            if not all(self.is_pushable(it, known) for it in (part.p1, part.p2)):
                return False
            seen = self.scope(part.p2).possible | self._sees(part.expr)
            return substituted or seen & known <= self.scope(part.p1).certain
        if name == "Minus" and not substituted:
            return self.is_pushable(part.p1, known) and self.scope(part.p1).possible & known <= self.scope(
                part.p1).certain
        return False

    def _sees(self, expr: Any) -> frozenset[Any]:
        """The variables that an expression has, those of EXISTS too."""
        return frozenset(it for it in parts_of(expr) if isinstance(it, Variable))

    # ---- operators

    def operator(self, part: Any) -> Operator:
        """The operator of a part by itself, for the row of what the query was given. Raises NotImplementedError."""
        substituted, self._substituted = self._substituted, None
        try:
            return self._made(part, self.unit)
        finally:
            self._substituted = substituted

    def _made(self, part: Any, given: Given) -> Operator:
        """The operator that joins rows with the solutions of a part."""
        make: Optional[Callable[[Any, Given], Operator]] = getattr(self, "_of_" + part.name, None)
        if make is None:
            raise NotImplementedError
        known = frozenset(given.schema) - frozenset(self.unit.schema)
        if given is self.unit or self.is_pushable(part, known):
            return make(part, given)
        if self._substituted is not None:
            raise NotImplementedError
        return self._rows(part, given)

    def _rows(self, part: Any, given: Given, by: Optional[frozenset[Any]] = None) -> Rows:
        """The solutions of a part by itself, joined with rows."""
        made = self.operator(part)

        def rows() -> Iterator[Row]:
            return (row for batch in made.run([[self.base]]) for row in batch)

        return Rows(self.cells, given, Given(made.schema, made.certain), rows, by)

    def _of_BGP(self, part: Any, given: Given) -> Operator:
        return self._join(part.triples, given) if part.triples else Same(given)

    def _join(self, triples: list[Any], given: Given, filters: Sequence[Filter] = ()) -> Join:
        constants = frozenset(self.unit.schema) | (self._substituted or frozenset())
        return Join(self.cells, triples, given, filters, constants)

    def _of_Filter(self, part: Any, given: Given) -> Operator:
        return self._filtered(part.p, part.expr, given)

    def _filtered(self, part: Any, expr: Any, given: Given) -> Operator:
        """A part with a filter that sees what comes in, too. A join makes those tests early that it can."""
        tests = conjuncts(expr)
        exists = [it for it in tests if isinstance(it, CompValue) and it.name in _EXISTS]
        others = [Expression(self.cells, self.ctx, it) for it in tests if not any(it is each for each in exists)]
        early = [it for it in others if it.is_pure]
        if triples := self._triples(part):
            before: Operator = self._join(triples, given, early)
            others = [it for it in others if not it.is_pure]
        else:
            before = self._made(part, given)
        filters: list[Filter] = [*others, *(self._exists(it, before) for it in exists)]
        return Filtered(before, filters) if filters else before

    def _triples(self, part: Any) -> Optional[list[Any]]:
        """The patterns of a part that is a join of basic graph patterns."""
        if part.name == "BGP":
            return list(part.triples)
        if part.name != "Join":
            return None
        one, other = self._triples(part.p1), self._triples(part.p2)
        return None if one is None or other is None else one + other

    def _exists(self, test: Any, before: Operator) -> Filter:
        """EXISTS for rows, or NOT EXISTS: by sending their values through its part, if that may be done."""
        part, wanted, substituted = test.graph, _EXISTS[test.name], self._substituted
        seen = self._sees(part) | frozenset(self.unit.schema)
        columns = [it for it in before.schema if it in seen]
        self._substituted = frozenset(columns)
        try:
            made = self._made(part, Given(tuple(columns), before.certain & frozenset(columns)))
            return Exists(made, columns, wanted)
        except NotImplementedError:
            return Expression(self.cells, self.ctx, test)
        finally:
            self._substituted = substituted

    def _of_Join(self, part: Any, given: Given) -> Operator:
        if triples := self._triples(part):
            return self._join(triples, given)
        first, second = part.p1, part.p2
        if self._goes_first(second) and not self._goes_first(first):
            first, second = second, first
        before = self._made(first, given)
        return Chain(before, self._made(second, Given(before.schema, before.certain)))

    def _goes_first(self, part: Any) -> bool:
        """Whether a part is made by itself anyway, or has its rows: then a pattern may be asked for their values."""
        return part.name == "ToMultiSet"

    def _of_LeftJoin(self, part: Any, given: Given) -> Operator:
        before = self._made(part.p1, given)
        known = frozenset(before.schema) - frozenset(self.unit.schema)
        if self.is_pushable(part.p2, known):
            number = Given((*before.schema, _numbered(before.schema)), before.certain)
            return Pushed(before, self._filtered(part.p2, part.expr, number))
        rows = self._rows(part.p2, Given(before.schema, before.certain))
        test = self._filtered(CompValue("BGP", triples=[]), part.expr, Given(rows.schema, before.certain))
        return Optionally(before, rows, test)

    def _of_Union(self, part: Any, given: Given) -> Operator:
        return Either(given, [self._made(it, given) for it in (part.p1, part.p2)])

    def _of_Minus(self, part: Any, given: Given) -> Operator:
        before, own, other = self._made(part.p1, given), self.scope(part.p1), self.scope(part.p2)
        shared = own.possible & other.possible
        if not shared:
            return before
        columns = [it for it in before.schema if it in shared or it in self.unit.schema]
        if shared <= own.certain & other.certain and self.is_pushable(part.p2, shared):
            part_of_it = self._made(part.p2, Given(tuple(columns), frozenset(columns)))
            return Filtered(before, [Exists(part_of_it, columns, False)])
        return Disjoint(before, self._rows(part.p2, Given(before.schema, before.certain), shared))

    def _of_Extend(self, part: Any, given: Given) -> Operator:
        before = self._made(part.p, given)
        if part.var in before.schema:
            raise NotImplementedError
        return Extended(before, Expression(self.cells, self.ctx, part.expr), part.var)

    def _of_ToMultiSet(self, part: Any, given: Given) -> Operator:
        if not part.p:
            raise NotImplementedError
        if part.p.name != "values":
            return self._made(part.p, given)
        schema = list(dict.fromkeys(it for row in part.p.res for it in row))
        rows = [tuple(None if row.get(it, "UNDEF") == "UNDEF" else row[it] for it in schema) for row in part.p.res]
        return Rows(self.cells, given, Given(tuple(schema), self.scope(part.p).certain), lambda: rows)

    def _of_AggregateJoin(self, part: Any, given: Given) -> Operator:
        try:
            rows = counted(self.cells, given.schema, part)
            names = tuple(it.res for it in part.A)
            return Rows(self.cells, given, Given(names, frozenset(names)), lambda: rows)
        except NotImplementedError:
            pass
        if part.p.name != "Group":
            raise NotImplementedError
        keys = part.p.expr and [Expression(self.cells, self.ctx, it) for it in part.p.expr]
        aggregates = {it.res: aggregate_of(self.cells, self.ctx, it) for it in part.A}
        return Grouping(self.cells, self._made(part.p.p, given), keys, aggregates, given.schema, self.base)

    def _of_Project(self, part: Any, given: Given) -> Operator:
        return Projected(self._made(part.p, given), [*given.schema, *part.PV])

    def _of_Distinct(self, part: Any, given: Given) -> Operator:
        return Distinct(self.cells, self._made(part.p, given))

    _of_Reduced = _of_Distinct

    def _of_OrderBy(self, part: Any, given: Given) -> Operator:
        by = [(Expression(self.cells, self.ctx, it.expr), it.order == "DESC") for it in part.expr]
        return Ordered(self.cells, self._made(part.p, given), by)

    def _of_Slice(self, part: Any, given: Given) -> Operator:
        return Slice(self._made(part.p, given), part.start, part.length)


def _numbered(schema: Sequence[Any]) -> Variable:
    """A variable that a schema doesn't have, for the numbers of its rows."""
    return Variable(f"{_NUMBER}{len(schema)}")


def solutions(file: OpenFile, ctx: Any, part: Any) -> Iterator[Solution]:
    """The solutions of a part of a query, whose terms are made a batch at a time. Raises NotImplementedError."""
    compiler = Compiler(file, ctx)
    return _solutions(compiler, compiler.operator(part))


def _solutions(compiler: Compiler, made: Operator) -> Iterator[Solution]:
    ctx, cells = compiler.ctx, compiler.cells
    columns = [(it, at) for at, it in enumerate(made.schema)]
    for batch in portions(row for batch in made.run([[compiler.base]]) for row in batch):
        terms = cells.terms(cell for row in batch for cell in row)
        for row in batch:
            yield Solution(ctx, {it: terms.get(row[at], row[at]) for it, at in columns if row[at] is not None})
