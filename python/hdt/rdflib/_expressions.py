"""Expressions over rows: comparisons of numbers by themselves, the rest by rdflib, each for the same cells once."""

from __future__ import annotations

import operator
from collections.abc import Callable, Iterator
from types import SimpleNamespace
from typing import Any, Optional

from hdt.rdflib._cells import NUMERIC, Batch, Cell, Cells, Layout, Solution, number_of
from hdt.rdflib._operators import Filter
from rdflib import RDF, XSD
from rdflib.plugins.sparql import operators
from rdflib.plugins.sparql.datatypes import XSD_DTs
from rdflib.plugins.sparql.parserutils import CompValue, Expr
from rdflib.plugins.sparql.sparql import NotBoundError, SPARQLError
from rdflib.term import Identifier, Literal, URIRef, Variable

Call = Callable[[Solution], Any]  # an expression: a term for a solution; raises SPARQLError

_MOST = 65_536  # answers that are kept, at most twice as many
_COMPARED: dict[str, Callable[[Any, Any], Any]] = {
    "<": operator.lt, ">": operator.gt, "<=": operator.le, ">=": operator.ge, "=": operator.eq, "!=": operator.ne}
_NEW_EACH_TIME = {"Builtin_RAND", "Builtin_UUID", "Builtin_STRUUID", "Builtin_BNODE"}
_OF_A_GRAPH = {"Builtin_EXISTS", "Builtin_NOTEXISTS"}
_CASTS = {XSD[name] for name in "string dateTime float double decimal integer boolean".split()}
# What rdflib's functions raise for some literals that are no values of their types.
_ILL_TYPED = (TypeError, ValueError, ArithmeticError, AttributeError, RecursionError)
TRUE, FALSE = Literal(True), Literal(False)
_BOOLEAN, _STRING = XSD.boolean, XSD.string  # (which rdflib makes anew at each use)


def parts_of(expr: Any) -> Iterator[Any]:
    """An expression and what it consists of."""
    left = [expr]
    while left:
        it = left.pop()
        yield it
        if isinstance(it, CompValue):
            left += list(it.values())
        elif isinstance(it, (list, tuple)):
            left += list(it)


def is_true(term: Any) -> bool:
    """The effective boolean value of a term (SPARQL 1.1, 17.2.2). Raises SPARQLError."""
    if isinstance(term, Literal):
        datatype = term.datatype
        if datatype == _BOOLEAN:
            return term.value is True
        if datatype is None or datatype == _STRING:
            return len(term) > 0
        if datatype in NUMERIC:
            number = number_of(term)
            return bool(number and number.value == number.value and number.value)
    raise SPARQLError("it has no boolean value")


def compared(op: str, one: Any, other: Any) -> bool:
    """Whether one term is in a relation to another one, as rdflib says, also of literals of different types.

    Raises SPARQLError for what can't be compared.
    """
    a, b = number_of(one), number_of(other)
    if a and b:
        return bool(_COMPARED[op](a.value, b.value))
    both = isinstance(one, Literal) and isinstance(other, Literal)
    if op not in ("=", "!=") and (not both or None not in (one.datatype, other.datatype)
                                  and one.datatype not in XSD_DTs and other.datatype not in XSD_DTs):
        raise SPARQLError("they have no order")
    try:
        found = (one.eq(other) if op == "=" else one.neq(other) if op == "!=" else _COMPARED[op](one, other))
    except _ILL_TYPED as error:
        raise SPARQLError(str(error)) from None
    if found is NotImplemented:
        raise SPARQLError("they can't be compared")
    return bool(found)


# ---- expressions as calls


def call_of(expr: Any) -> Call:
    """An expression as a call. Only what rdflib does otherwise than SPARQL says, or slowly, is not left to it."""
    if isinstance(expr, Variable):
        return lambda solution: _value(solution, expr)
    if not isinstance(expr, Expr):
        return lambda _: expr
    made = _MADE.get(expr.name)
    return made(expr) if made else lambda solution: _by_rdflib(expr, solution)


def _value(solution: Solution, variable: Variable) -> Any:
    value = solution.get(variable)
    if value is None or value is variable:
        raise NotBoundError("it has no value")
    return value


def _by_rdflib(expr: Expr, solution: Solution) -> Any:
    try:
        value = expr.eval(solution)
    except _ILL_TYPED as error:
        raise SPARQLError(str(error)) from None
    if isinstance(value, SPARQLError):
        raise value
    return value


def _relation(expr: Expr) -> Call:
    op, one = expr.op, call_of(expr.expr)
    if op in ("IN", "NOT IN"):
        others = [] if expr.other == RDF.nil else [call_of(each) for each in expr.other]
        return lambda solution: _truth(_is_among(one(solution), others, solution) is (op == "IN"))
    other = call_of(expr.other)
    return lambda solution: _truth(compared(op, one(solution), other(solution)))


def _is_among(term: Any, others: list[Call], solution: Solution) -> bool:
    error = None
    for other in others:
        try:
            if compared("=", term, other(solution)):
                return True
        except SPARQLError as why:
            error = why
    if error:
        raise error
    return False


def _truth(value: bool) -> Literal:
    return TRUE if value else FALSE


def _logic(expr: Expr) -> Call:
    """`&&` and `||`: an error is passed over if another operand decides (SPARQL 1.1, 17.2)."""
    calls = [call_of(each) for each in [expr.expr, *expr.other]]
    deciding = expr.name == "ConditionalOrExpression"

    def call(solution: Solution) -> Literal:
        error = None
        for each in calls:
            try:
                if is_true(each(solution)) is deciding:
                    return _truth(deciding)
            except SPARQLError as why:
                error = why
        if error:
            raise error
        return _truth(not deciding)

    return call


def _not(expr: Expr) -> Call:
    call = call_of(expr.expr)
    return lambda solution: _truth(not is_true(call(solution)))


def _is_numeric(expr: Expr) -> Call:
    call = call_of(expr.arg)
    return lambda solution: _truth(number_of(call(solution)) is not None)


def _arithmetic(expr: Expr) -> Call:
    """`+`, `-`, `*` and `/` by rdflib, but of literals that are no value of their type, at which it breaks."""
    calls = [call_of(each) for each in [expr.expr, *expr.other]]
    by_rdflib = getattr(operators, expr.name)

    def call(solution: Solution) -> Any:
        one, *others = (each(solution) for each in calls)
        for it in (one, *others):
            if isinstance(it, Literal) and it.datatype in NUMERIC and number_of(it) is None:
                raise SPARQLError("it is no number")
        try:
            return by_rdflib(SimpleNamespace(expr=one, other=others, op=expr.op), solution)
        except _ILL_TYPED as error:
            raise SPARQLError(str(error)) from None

    return call


_MADE: dict[str, Callable[[Expr], Call]] = {
    "AdditiveExpression": _arithmetic, "MultiplicativeExpression": _arithmetic, "RelationalExpression": _relation,
    "ConditionalAndExpression": _logic, "ConditionalOrExpression": _logic, "UnaryNot": _not,
    "Builtin_isNUMERIC": _is_numeric}


# ---- expressions over rows


class Expression(Filter):
    """An expression over rows. `variables` are those that it has; EXISTS within it may depend on any other one, too."""

    def __init__(self, cells: Cells, ctx: Any, expr: Any) -> None:
        self.cells, self.ctx, self.expr = cells, ctx, expr
        parts = list(parts_of(expr))
        names = {it.name for it in parts if isinstance(it, CompValue)}
        self.variables = frozenset(it for it in parts if isinstance(it, Variable))
        self.depends_on_all = bool(names & _OF_A_GRAPH)
        casts = all(it.iri in _CASTS for it in parts if isinstance(it, CompValue) and it.name == "Function")
        self.is_pure = casts and not names & (_NEW_EACH_TIME | _OF_A_GRAPH)
        self._call = call_of(expr)
        self._numbers = _comparison_of(expr)
        self._bound = _bound_of(expr)
        self._kept: dict[Any, Any] = {}

    def passing(self, batch: Batch, layout: Layout) -> Batch:
        """The rows for which it is true; an error is not."""
        if self._bound and self._bound[0] in layout:
            at, wanted = layout[self._bound[0]], self._bound[1]
            return [row for row in batch if (row[at] is not None) is wanted]
        return [row for row, is_so in zip(batch, self._each(batch, layout, self._holds)) if is_so]

    def values(self, batch: Batch, layout: Layout) -> list[Optional[Cell]]:
        """The cell of its value for each row, or None if it has no value, or an error."""
        if isinstance(self.expr, Variable):
            at = layout.get(self.expr)
            return [None] * len(batch) if at is None else [row[at] for row in batch]
        return self._each(batch, layout, self._value)

    def _holds(self, found: dict[Any, Any]) -> bool:
        try:
            return is_true(self._call(Solution(self.ctx, found)))
        except SPARQLError:
            return False

    def _value(self, found: dict[Any, Any]) -> Optional[Cell]:
        try:
            value = self._call(Solution(self.ctx, found))
        except SPARQLError:
            return None
        return value if isinstance(value, Identifier) else None

    def _each(self, batch: Batch, layout: Layout, answer: Callable[[dict[Any, Any]], Any]) -> list[Any]:
        """The answers for the rows, each of which depends on the terms of the variables."""
        places = [(it, at) for it, at in layout.items() if self.depends_on_all or it in self.variables]
        keys = [tuple([row[at] for _, at in places]) for row in batch]
        is_kept = self.is_pure and not any(isinstance(cell, Identifier) for key in keys for cell in key)
        known = self._kept if is_kept else {}
        if len(known) > _MOST:
            known.clear()
        lacking = {key for key in keys if key not in known} if is_kept else set(keys)
        if self._numbers and is_kept:
            self._compare(lacking, [it for it, _ in places], known, answer == self._holds)
            lacking = {key for key in lacking if key not in known}
        terms = self.cells.terms({cell for key in lacking for cell in key})

        def answer_of(key: tuple[Cell, ...]) -> Any:
            pairs = zip(places, key)
            return answer({it: terms.get(cell, cell) for (it, _), cell in pairs if cell is not None})

        if not is_kept:
            return [answer_of(key) for key in keys]
        for key in lacking:
            known[key] = answer_of(key)
        return [known[key] for key in keys]

    def _compare(self, keys: set[tuple[Cell, ...]], names: list[Any], known: dict[Any, Any], is_test: bool) -> None:
        """Answer for those keys which are numbers, with a bool or a literal."""
        assert self._numbers
        test, variables = self._numbers
        if not all(it in names for it in variables):
            return
        places = [names.index(it) for it in variables]
        numbers = self.cells.numbers({key[at] for key in keys for at in places} - {None})
        for key in keys:
            found = [numbers.get(key[at]) for at in places]
            if None not in found:
                is_so = test(*(it.value for it in found if it))
                known[key] = is_so if is_test else _truth(is_so)


def _comparison_of(expr: Any) -> Optional[tuple[Callable[..., bool], list[Variable]]]:
    """A comparison of a variable with a number, or of two variables: a test of numbers, and the variables."""
    if not isinstance(expr, Expr) or expr.name != "RelationalExpression" or expr.op not in _COMPARED:
        return None
    test, one, other = _COMPARED[expr.op], expr.expr, expr.other
    if isinstance(one, Variable) and isinstance(other, Variable):
        return test, [one, other]
    if isinstance(one, Variable) and (number := number_of(other)):
        constant = number.value
        return (lambda value: test(value, constant)), [one]
    if isinstance(other, Variable) and (number := number_of(one)):
        given = number.value
        return (lambda value: test(given, value)), [other]
    return None


def _bound_of(expr: Any) -> Optional[tuple[Variable, bool]]:
    """The variable of BOUND or of its negation, and whether it is to have a value."""
    if not isinstance(expr, Expr) or expr.name not in ("Builtin_BOUND", "UnaryNot"):
        return None
    if expr.name == "Builtin_BOUND":
        return expr.arg, True
    found = _bound_of(expr.expr)
    return found and (found[0], not found[1])


def conjuncts(expr: Any) -> list[Any]:
    """The expressions that have to be true for one to be."""
    if isinstance(expr, Expr) and expr.name == "ConditionalAndExpression":
        return [each for it in [expr.expr, *expr.other] for each in conjuncts(it)]
    return [] if isinstance(expr, CompValue) and expr.name == "TrueFilter" else [expr]


def is_constant(term: Any) -> bool:
    """Whether an expression is a term."""
    return isinstance(term, (URIRef, Literal))
