"""hdt.rdflib on more than 2^20 triples and strings of a role. (test_large_packages has the other packages.)"""

from __future__ import annotations

from collections.abc import Iterator
from typing import Any

import pytest

from support.rdflib_package import store
from support.large import COUNT, LARGE, Files, Large
from test_large_calls import GIVEN, column_of, id_pattern, ids_of, pattern

from rdflib import Graph, Literal, URIRef


@pytest.fixture(params=LARGE)
def it(request: pytest.FixtureRequest) -> Large:
    """A large graph."""
    return LARGE[request.param]


@pytest.fixture
def opened(it: Large, large_files: Files) -> Iterator[Any]:
    """The store of the graph."""
    with store.HDTStore(large_files.file(it)) as made:
        yield made


def terms_of(it: Large, given: tuple[bool, ...]) -> list[Any]:
    """The last terms of the roles that are given, and None."""
    return [None if string is None else Literal(string[1:-1]) if string[0] == '"' else URIRef(string)
            for string in pattern(it, given)]


def test_rdflib(it: Large, opened: Any) -> None:
    """The matches of each pattern: how many, as IDs, and those after many others as terms."""
    graph = Graph(opened)
    assert len(graph) == COUNT
    for given in GIVEN:
        terms, count = terms_of(it, given), COUNT if it.matches_all(given) else 1
        found, counted = opened.search(terms, offset=count - 1)
        assert (list(found), counted, opened.count(terms)) == ([tuple(terms_of(it, (True,) * 3))], count, count)
    assert tuple(terms_of(it, (True,) * 3)) in graph
    search, = opened.opened.searches(terms_of(it, it.constant))
    assert search == tuple(id_pattern(it, it.constant))
    rows, everything = list(opened.opened.found(search)), ids_of(it)
    assert (len(rows), rows == list(zip(everything[::3], everything[1::3], everything[2::3]))) == (COUNT, True)


def test_queries(it: Large, opened: Any) -> None:
    """The numbers of triples and of different IRIs, by counting."""
    counted = {"*": COUNT, **{f"DISTINCT ?{name}": it.count(role) for role, name in enumerate("spo")}}
    if it.name == "objects":
        del counted["DISTINCT ?o"]  # (each literal would be made)
    with store.planned():
        for what, count in counted.items():
            row, = Graph(opened).query(f"SELECT (COUNT({what}) AS ?n) {{ ?s ?p ?o }}")
            assert (what, int(row.n)) == (what, count)


@pytest.mark.parametrize("name", ["predicates", "objects", "shared"])
def test_terms(name: str, large_files: Files) -> None:
    """All matches as terms."""
    it = LARGE[name]
    with store.HDTStore(large_files.file(it)) as opened:
        found = [triple for triple, _ in opened.triples(terms_of(it, it.constant))]
    assert len(found) == COUNT
    for role in range(3):
        column, strings = [triple[role] for triple in found], column_of(it, role)
        assert set(map(type, column)) == {Literal if strings[0][0] == '"' else URIRef}
        assert (role, "\n".join(column) == "\n".join(string.strip('"') for string in strings)) == (role, True)
