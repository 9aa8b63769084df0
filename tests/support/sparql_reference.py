"""SPARQL's algebra as the recommendation defines it, from the bottom up, over a set of triples; and random queries.

It takes the parts into which rdflib translates a query. Nothing is ordered or pushed into another part, so it is slow,
and says what the answer is.
"""

from __future__ import annotations

from collections import Counter
from collections.abc import Callable, Iterable
from typing import Any, Optional, Union

from hypothesis import strategies as st
from rdflib import BNode, Literal, URIRef, Variable
from rdflib.paths import AlternativePath, InvPath, MulPath, NegatedPath, Path, SequencePath
from rdflib.plugins.sparql.parserutils import CompValue

Triple = tuple[Any, Any, Any]
Solution = dict[Any, Any]
Truth = Optional[bool]  # None: an error


def is_open(term: Any) -> bool:
    """Whether a term of a pattern is a variable."""
    return isinstance(term, (Variable, BNode))


def agree(one: Solution, other: Solution) -> bool:
    """Whether two solutions are compatible (18.3)."""
    return all(one[it] == other[it] for it in one.keys() & other.keys())


class Reference:
    """A graph, and the solutions of parts of queries over it."""

    def __init__(self, triples: Iterable[Triple]) -> None:
        self.triples = set(triples)
        self.nodes = {term for s, _, o in self.triples for term in (s, o)}

    def solutions(self, part: Any) -> list[Solution]:
        """The solutions of a part, as often as each comes."""
        made: Callable[[Any], list[Solution]] = getattr(self, part.name)
        return made(part)

    # ---- basic graph patterns and paths (18.3.1, 18.4)

    def BGP(self, part: Any) -> list[Solution]:
        found: list[Solution] = [{}]
        for s, p, o in part.triples:
            if not isinstance(p, Path):
                values: Iterable[Triple] = self.triples
            else:
                ends = {it for it in (s, o) if not is_open(it)}
                values = [(a, p, b) for a, b in self.pairs(p, self.nodes | ends)]
            found = [one for before in found for value in values
                     if (one := matched(before, (s, p, o), value)) is not None]
        return found

    def pairs(self, path: Any, nodes: set[Any]) -> list[tuple[Any, Any]]:
        """The ends of a path, as often as ways lead from one to the other."""
        if isinstance(path, URIRef):
            return [(s, o) for s, p, o in self.triples if p == path]
        if isinstance(path, InvPath):
            return [(b, a) for a, b in self.pairs(path.arg, nodes)]
        if isinstance(path, AlternativePath):
            return [pair for each in path.args for pair in self.pairs(each, nodes)]
        if isinstance(path, SequencePath):
            found = self.pairs(path.args[0], nodes)
            for each in path.args[1:]:
                found = [(a, d) for a, b in found for c, d in self.pairs(each, nodes) if b == c]
            return found
        if isinstance(path, NegatedPath):
            return [(s, o) for s, p, o in self.triples if p not in path.args]
        assert isinstance(path, MulPath)
        step = set(self.pairs(path.path, nodes))
        closed = step | ({(it, it) for it in nodes} if path.zero else set())
        while path.more and not closed >= (more := {(a, d) for a, b in closed for c, d in step if b == c}):
            closed |= more
        return list(closed)

    # ---- the rest of the algebra (18.5)

    def Join(self, part: Any) -> list[Solution]:
        others = self.solutions(part.p2)
        return [{**one, **other} for one in self.solutions(part.p1) for other in others if agree(one, other)]

    def LeftJoin(self, part: Any) -> list[Solution]:
        found, others = [], self.solutions(part.p2)
        for one in self.solutions(part.p1):
            merged = [{**one, **other} for other in others if agree(one, other)]
            found += [it for it in merged if self.truth(part.expr, it)] or [one]
        return found

    def Union(self, part: Any) -> list[Solution]:
        return self.solutions(part.p1) + self.solutions(part.p2)

    def Minus(self, part: Any) -> list[Solution]:
        others = self.solutions(part.p2)
        return [one for one in self.solutions(part.p1)
                if not any(one.keys() & other.keys() and agree(one, other) for other in others)]

    def Filter(self, part: Any) -> list[Solution]:
        return [one for one in self.solutions(part.p) if self.truth(part.expr, one)]

    def Extend(self, part: Any) -> list[Solution]:
        return [{**one, part.var: value} if (value := self.value(part.expr, one)) is not None else one
                for one in self.solutions(part.p)]

    def ToMultiSet(self, part: Any) -> list[Solution]:
        return self.solutions(part.p)

    def values(self, part: Any) -> list[Solution]:
        return [{it: value for it, value in row.items() if value != "UNDEF"} for row in part.res]

    def Project(self, part: Any) -> list[Solution]:
        return [{it: value for it, value in one.items() if it in part.PV} for one in self.solutions(part.p)]

    def Distinct(self, part: Any) -> list[Solution]:
        return [dict(it) for it in {frozenset(one.items()) for one in self.solutions(part.p)}]

    def AggregateJoin(self, part: Any) -> list[Solution]:
        groups: dict[Any, list[Solution]] = {} if part.p.expr else {(): []}
        for one in self.solutions(part.p.p):
            groups.setdefault(tuple(one.get(it) for it in part.p.expr or []), []).append(one)
        return [{it.res: value for it in part.A if (value := aggregated(it, its)) is not None}
                for its in groups.values()]

    # ---- expressions (17.2)

    def value(self, expr: Any, solution: Solution) -> Any:
        """The value of an expression; None if it is an error."""
        if isinstance(expr, Variable):
            return solution.get(expr)
        if not isinstance(expr, CompValue):
            return expr
        found = self.truth(expr, solution)
        return None if found is None else Literal(found)

    def truth(self, expr: Any, solution: Solution) -> Truth:
        """Whether an expression is true."""
        if expr.name == "TrueFilter":
            return True
        if expr.name in ("ConditionalAndExpression", "ConditionalOrExpression"):
            found = [self.truth(each, solution) for each in [expr.expr, *expr.other]]
            deciding = expr.name == "ConditionalOrExpression"
            return deciding if deciding in found else None if None in found else not deciding
        if expr.name == "UnaryNot":
            inner = self.truth(expr.expr, solution)
            return None if inner is None else not inner
        if expr.name == "Builtin_BOUND":
            return expr.arg in solution
        if expr.name == "Builtin_isIRI":
            value = self.value(expr.arg, solution)
            return None if value is None else isinstance(value, URIRef)
        if expr.name in ("Builtin_EXISTS", "Builtin_NOTEXISTS"):
            there = bool(self.solutions(substituted(expr.graph, solution)))
            return there is (expr.name == "Builtin_EXISTS")
        return compared(expr.op, self.value(expr.expr, solution), self.value(expr.other, solution))


def matched(before: Solution, pattern: Triple, value: Triple) -> Optional[Solution]:
    """A solution with the values that a triple gives a pattern; None if it doesn't match."""
    found: Solution = dict(before)
    for place, term in zip(pattern, value):
        if not is_open(place):
            if not place == term:
                return None
        elif found.setdefault(place, term) != term:
            return None
    return found


def compared(op: str, one: Any, other: Any) -> Truth:
    """A comparison of IRIs and integers."""
    if one is None or other is None:
        return None
    numbers = [it.value for it in (one, other) if isinstance(it, Literal)]
    if len(numbers) == 2:
        a, b = numbers
        return bool({"<": a < b, ">": a > b, "=": a == b, "!=": a != b}[op])
    return {"=": one == other, "!=": one != other}.get(op)


def aggregated(part: Any, group: list[Solution]) -> Any:
    """COUNT, SUM, MIN or the sample of a variable that all have in common."""
    if part.name == "Aggregate_Count" and part.vars == "*":
        return Literal(len(group))
    values = [one[part.vars] for one in group if part.vars in one]
    if part.name == "Aggregate_Count":
        return Literal(len(set(values) if part.distinct else values))
    if part.name == "Aggregate_Sum":
        its = set(values) if part.distinct else values
        return None if any(isinstance(it, URIRef) for it in its) else Literal(sum(it.value for it in its))
    if part.name == "Aggregate_Min":
        key: Callable[[Any], Any] = lambda it: (isinstance(it, Literal), it.value if isinstance(it, Literal) else it)
        return min(values, key=key, default=None)
    return values[0] if values else None


def substituted(part: Any, solution: Solution) -> Any:
    """A part with the values of a solution in place of its variables (18.6)."""
    if isinstance(part, CompValue):
        made: Any = type(part)(part.name, **part)
        for name, value in part.items():
            made[name] = substituted(part.graph if name == "graph" else value, solution)
        return made
    if isinstance(part, (list, tuple)):
        return type(part)([substituted(it, solution) for it in part])
    return solution.get(part, part) if isinstance(part, Variable) else part


# ---- random queries

NODES = ["<u:a>", "<u:b>", "<u:c>", "1", "2", "3"]
PREDICATES = ["<u:p>", "<u:q>", "<u:r>"]
PLACES = ["?a", "?b", "?c", "?d"]
TERMS: dict[str, Any] = {it: URIRef(it[1:-1]) if it[0] == "<" else Literal(int(it)) for it in NODES}

triples = st.lists(st.tuples(st.sampled_from(NODES[:3]), st.sampled_from(PREDICATES), st.sampled_from(NODES)),
                   min_size=1, max_size=9, unique=True)
paths: Any = st.recursive(
    st.sampled_from([*PREDICATES, "!<u:p>", "!(<u:p>|<u:q>)"]),
    lambda inner: st.builds("({})*".format, inner) | st.builds("({})+".format, inner) | st.builds("({})?".format, inner)
    | st.builds("(^{})".format, inner) | st.builds("({}/{})".format, inner, inner)
    | st.builds("({}|{})".format, inner, inner), max_leaves=3)
places = st.sampled_from(PLACES) | st.sampled_from([*PLACES, *NODES])
tests: Any = st.recursive(
    st.builds("{} {} {}".format, places, st.sampled_from(["=", "!=", "<", ">"]), places)
    | st.builds("bound({})".format, st.sampled_from(PLACES)) | st.builds("isIRI({})".format, st.sampled_from(PLACES)),
    lambda inner: st.builds("!({})".format, inner) | st.builds("({} && {})".format, inner, inner)
    | st.builds("({} || {})".format, inner, inner), max_leaves=3)
predicates = st.sampled_from(PREDICATES) | st.sampled_from(["?d", *PREDICATES]) | paths
patterns = st.builds("{} {} {} .".format, places, predicates, places)


@st.composite
def groups(draw: Any, depth: int = 2) -> str:
    """What is between the braces of a group."""
    parts = draw(st.lists(patterns, min_size=1, max_size=3))
    for _ in range(draw(st.integers(0, 2))):
        parts.append(draw(parts_of_groups(depth)))
    return " ".join(draw(st.permutations(parts)))


def parts_of_groups(depth: int) -> Any:
    """A part of a group that is no pattern."""
    values = st.sampled_from(["VALUES ?a { <u:a> <u:b> }", "VALUES (?a ?b) { (<u:a> UNDEF) (UNDEF 1) (<u:c> 2) }",
                              "VALUES ?d { <u:p> 3 <u:none> }"])
    filters = st.builds("FILTER({})".format, tests)
    if not depth:
        return values | filters
    inner = groups(depth - 1)
    return st.one_of(
        values, filters, st.builds("OPTIONAL {{ {} }}".format, inner), st.builds("OPTIONAL {{ {} }}".format, inner),
        st.builds("MINUS {{ {} }}".format, inner), st.builds("{{ {} }} UNION {{ {} }}".format, inner, inner),
        st.builds("{{ {} }}".format, inner),
        st.builds("FILTER {}EXISTS {{ {} }}".format, st.sampled_from(["", "NOT "]), inner),
        st.builds("{{ SELECT DISTINCT ?a ?b {{ {} }} }}".format, inner),
        st.builds("{{ SELECT ?a (COUNT(?b) AS ?c) (SUM(DISTINCT ?d) AS ?e) {{ {} }} GROUP BY ?a }}".format, inner),
        st.builds("{{ SELECT (MIN(?b) AS ?c) (COUNT(*) AS ?d) {{ {} }} }}".format, inner),
        st.builds("{{ {} BIND({} AS ?e) }}".format, inner, st.sampled_from(["?a", "?b", "?a = ?b", "1"])))


def shown(found: Iterable[Solution]) -> Counter[Union[frozenset[Any], None]]:
    """Solutions to compare."""
    return Counter(
        frozenset((str(it), value) for it, value in one.items() if isinstance(it, Variable)) for one in found)
