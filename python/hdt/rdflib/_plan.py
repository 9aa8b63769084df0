"""Queries of SPARQL over a store, evaluated over IDs."""

from __future__ import annotations

from collections.abc import Iterator
from contextlib import contextmanager
from typing import Any

from hdt.rdflib._compiler import solutions
from hdt.rdflib._store import HDTStore
from rdflib.plugins.sparql import CUSTOM_EVALS

_NAME = "hdt"


def plan_sparql(on: bool = True) -> None:
    """From now on evaluate queries over an HDTStore over the IDs of the file; with `on` false, no longer.

    It holds for the whole process and is off at first. Patterns are joined over IDs in an order by counts, and so are
    paths, FILTER, EXISTS, OPTIONAL, UNION, MINUS, VALUES, subqueries and aggregates; COUNT over one pattern is answered
    by counting. The answers are those of SPARQL 1.1, in any order if the query gives none; the module says in what they
    differ from rdflib's. Other stores are evaluated as before. Constant time.

    >>> plan_sparql()
    >>> with HDTStore("graph.hdt") as store:
    ...     [str(row.n) for row in Graph(store).query("SELECT (COUNT(*) AS ?n) { ?s <u:p> ?o }")]
    ['2']
    >>> plan_sparql(False)
    """
    if on:
        CUSTOM_EVALS[_NAME] = evaluated
    else:
        CUSTOM_EVALS.pop(_NAME, None)


@contextmanager
def planned() -> Iterator[None]:
    """`plan_sparql` while the `with` statement runs. A result is evaluated when it is read: so read it inside.

    >>> with HDTStore("graph.hdt") as store, planned():
    ...     [str(row.o) for row in Graph(store).query("SELECT ?o { ?s <u:p> ?x . ?x <u:p> ?o }")]
    ['u:a', 'u:b']
    """
    before = CUSTOM_EVALS.get(_NAME)
    plan_sparql()
    try:
        yield
    finally:
        if before is None:
            plan_sparql(False)
        else:
            CUSTOM_EVALS[_NAME] = before


def evaluated(ctx: Any, part: Any) -> Any:
    """The solutions of a part of a query, as rdflib asks an evaluator for them.

    Raises NotImplementedError, at which rdflib evaluates the part itself, if it isn't one that is evaluated over IDs.
    """
    store = getattr(ctx.graph, "store", None)
    if not isinstance(store, HDTStore):
        raise NotImplementedError
    return solutions(store.opened, ctx, part)
