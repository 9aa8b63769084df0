"""DESCRIBE, which rdflib 6.1.1 can't evaluate."""

from __future__ import annotations

from collections.abc import Iterable
from typing import Any

from rdflib.graph import Graph
from rdflib.plugins.sparql.evaluate import evalQuery
from rdflib.term import BNode, URIRef, Variable


def described(graph: Graph, query: Any, named: Any, bindings: Any, base: Any) -> dict[str, Any]:
    """The result of DESCRIBE: the triples of each resource that is named, or that a variable has in a solution.

    They are those with the resource as their subject, and those of the blank nodes that they lead to. Raises what the
    evaluation raises. The time and the graph are linear in these triples.
    """
    query.algebra.name = "SelectQuery"
    found = evalQuery(graph, query, bindings, base)
    variables = [it for it in named or found["vars_"] if isinstance(it, Variable)]
    resources = dict.fromkeys(it for it in named or [] if isinstance(it, URIRef))
    if variables:
        for row in found["bindings"]:
            resources.update((row[it], None) for it in variables if isinstance(row.get(it), (URIRef, BNode)))
    return {"type_": "DESCRIBE", "graph": _described(graph, resources)}


def _described(graph: Graph, resources: Iterable[Any]) -> Graph:
    result, left = Graph(), list(resources)
    seen = set(left)
    for resource in left:
        for triple in graph.triples((resource, None, None)):
            result.add(triple)
            last = triple[2]
            if isinstance(last, BNode) and last not in seen:
                seen.add(last)
                left.append(last)
    return result
