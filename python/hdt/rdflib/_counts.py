"""COUNT over one triple pattern, answered by counting."""

from __future__ import annotations

from typing import Any

from hdt.rdflib._cells import Cells, Row
from hdt.rdflib._file import ROLES, OpenFile, Search
from rdflib.paths import Path
from rdflib.term import BNode, Literal, Variable


def counted(cells: Cells, given: Any, part: Any) -> list[Row]:
    """The groups of an AggregateJoin of rdflib's algebra, if it counts the solutions of one triple pattern.

    Without GROUP BY the aggregates are COUNT of everything or of a variable of the pattern, also of DISTINCT ones; of
    the groups of all triples by their predicates, they are COUNT of everything, and the predicate. Else raises
    NotImplementedError. It takes one count of each predicate, or for DISTINCT a walk over the IDs of the triples.
    """
    file, triple, keys = cells.file, *_pattern(part)
    terms = [None if isinstance(it, (Variable, BNode)) else it for it in triple]
    if keys == [triple[1]] and terms == [None] * 3 and not given:
        return _by_predicate(file, part.A, keys[0])
    if keys or not all(_is_counted(it, triple) for it in part.A) or set(triple) & set(given):
        raise NotImplementedError
    searches = file.searches(terms)
    if len(searches) > 1:
        raise NotImplementedError  # (a triple of two spellings would count twice)
    count = file.count(searches)
    return [tuple(
        Literal(_distinct(cells, searches, triple.index(it.vars)) if it.distinct else count) for it in part.A)]


def _pattern(part: Any) -> tuple[list[Any], list[Variable]]:
    """The pattern of a part that is one, with different variables, and the variables of GROUP BY."""
    group = part.p
    bgp = group.p if group.name == "Group" else None
    if bgp is None or bgp.name != "BGP" or len(bgp.triples) != 1:
        raise NotImplementedError
    triple, keys = list(bgp.triples[0]), list(group.expr or [])
    variables = [term for term in triple if isinstance(term, (Variable, BNode))]
    if isinstance(triple[1], Path) or len(set(variables)) < len(variables):
        raise NotImplementedError
    return triple, keys


def _is_counted(aggregate: Any, triple: list[Any]) -> bool:
    if aggregate.name != "Aggregate_Count" or (aggregate.distinct and aggregate.vars == "*"):
        return False
    return aggregate.vars == "*" or (isinstance(aggregate.vars, Variable) and aggregate.vars in triple)


def _by_predicate(file: OpenFile, aggregates: list[Any], key: Variable) -> list[Row]:
    """A row for each predicate."""
    names = [(it.name, it.vars, bool(it.distinct)) for it in aggregates]
    if not set(names) <= {("Aggregate_Sample", key, False), ("Aggregate_Count", "*", False)}:
        raise NotImplementedError
    node = file.node_of_predicate
    return [
        tuple(node[number] if name == "Aggregate_Sample" else Literal(count) for name, _, _ in names)
        for number, count in file.by_predicate().items()
    ]


def _distinct(cells: Cells, searches: list[Search], role: int) -> int:
    """How many different terms a role has in the triples of these searches; literals differ as rdflib says."""
    file = cells.file
    numbers: set[int] = set()
    for search in searches:
        numbers.update(file.graph.id_array(*search).column(ROLES[role]))
    if role == 1:
        return len(numbers)
    nodes = map(file.node_of_object, numbers) if role == 2 else numbers
    literals = {node for node in nodes if file.is_literal(*file.place(node))}
    same = cells.same(literals)
    return len(numbers) - len(literals) + len({same.get(node, node) for node in literals})
