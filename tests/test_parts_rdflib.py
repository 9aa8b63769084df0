"""The store of rdflib over a folder of parts: it answers as the store over one file does."""

from __future__ import annotations

import pickle
from collections.abc import Iterator
from itertools import product
from pathlib import Path
from typing import Any

import pytest

from support.rdflib_package import hdt, store
from support.parts import graph_of, inputs, of_one, parts, text_of

from rdflib import Graph, Literal, URIRef

pytestmark = pytest.mark.filterwarnings("ignore")

HDTStore, planned = store.HDTStore, store.planned
A, B, TEXTS = "http://a/", "http://b/", ('"chat"@en', '"chat"@EN', '"chat"@zh-hant-TW', '"x"',
                                         '"x"^^<http://www.w3.org/2001/XMLSchema#string>', '"01"^^<u:t>')
GRAPH = graph_of(200) + [(f"{A}{n}", "u:text", text) for n, text in enumerate(TEXTS)] + [
    (f"{A}1", "u:knows", f"{A}2"), (f"{A}2", "u:knows", f"{A}3"), (f"{A}3", "u:knows", f"{A}3"),
    (f"{B}1", "u:knows", f"{A}1")]

QUERIES = [
    "SELECT * { ?s <u:knows> ?o }",
    "SELECT * { ?s <u:knows> ?o . ?o <u:knows> ?z . ?z ?p ?y }",
    "SELECT * { ?s <u:knows> ?s }",
    "SELECT ?s { ?s <u:text> 'chat'@En }",
    "SELECT ?s { ?s <u:text> 'chat'@ZH-Hant-tw }",
    "SELECT ?s { ?s <u:text> 'x' }",
    "SELECT ?s ?t { ?s <u:text> ?v . ?t <u:text> ?v }",
    "SELECT ?s { ?s <u:text> '01'^^<u:t> }",
    "SELECT DISTINCT * { <http://a/1> (<u:knows>|^<u:knows>)* ?x }",
    "SELECT ?p (COUNT(*) AS ?n) { ?s ?p ?o } GROUP BY ?p",
    "SELECT ?o (COUNT(?s) AS ?n) { ?s <u:p1> ?o } GROUP BY ?o",
    "SELECT (COUNT(DISTINCT ?o) AS ?n) { ?s ?p ?o }",
    "SELECT (COUNT(DISTINCT ?s) AS ?n) (COUNT(*) AS ?m) { ?s <u:p2> ?o }",
    "SELECT (COUNT(*) AS ?n) { ?s <u:none> ?o }",
    "ASK { <http://a/3> <u:knows> <http://a/3> }",
]


@pytest.fixture(scope="module")
def both(tmp_path_factory: pytest.TempPathFactory) -> Iterator[tuple[Graph, Graph]]:
    """Graphs over a file and over a folder."""
    folder = tmp_path_factory.mktemp("both")
    text = text_of(GRAPH)
    of_one(folder, text.encode()).close()
    parts.build(inputs(folder, text.splitlines(), 1), folder / "parts", 3)
    with HDTStore(folder / "one.hdt") as one, HDTStore(folder / "parts") as other:
        yield Graph(one), Graph(other)


def found(graph: Graph, query: str) -> list[str]:
    """The solutions of a query."""
    result = graph.query(query)
    rows: Any = [result.askAnswer] if result.type == "ASK" else result.bindings
    return sorted(repr(row if isinstance(row, bool) else sorted(row.items())) for row in rows)


@pytest.mark.parametrize("query", QUERIES)
def test_queries(both: tuple[Graph, Graph], query: str) -> None:
    """A query has the solutions that it has over one file, planned or not."""
    one, other = both
    expected = found(one, query)
    assert expected and found(other, query) == expected
    with planned():
        assert found(other, query) == expected


def test_triples(both: tuple[Graph, Graph]) -> None:
    """Each pattern finds the same."""
    one, other = both
    assert len(one) == len(other) == len(GRAPH)
    for triple in ([*one][0], (URIRef(f"{A}1"), URIRef("u:text"), Literal("chat", lang="eN"))):
        for kind in product((False, True), repeat=3):
            pattern: Any = tuple(term if has else None for term, has in zip(triple, kind))
            assert set(other.triples(pattern)) == set(one.triples(pattern))
            assert other.store.count(pattern) == one.store.count(pattern)
            rows, count = other.store.search(pattern, 2, 1)
            assert len(list(rows)) == max(min(2, len(set(one.triples(pattern))) - 1), 0)


def test_store(both: tuple[Graph, Graph], tmp_path: Path) -> None:
    """The header, a copy, a closed store, and a folder that is wrong."""
    one, other = both
    assert len(other.store.header()) == len(one.store.header()) == 2
    copy = pickle.loads(pickle.dumps(other.store))
    assert set(Graph(copy)) == set(other)
    assert isinstance(copy.hdt, parts.Graph)
    copy.close()
    with pytest.raises(ValueError, match="closed"):
        copy.hdt
    manifest = parts.build(inputs(tmp_path, text_of(GRAPH).splitlines(), 1), tmp_path / "parts", 2)
    path = tmp_path / "parts" / manifest.parts[1].file
    data = bytearray(path.read_bytes())
    data[len(data) // 2] ^= 1
    path.write_bytes(data)
    with pytest.raises(parts.PartFault, match="part-00001.hdt is damaged"):
        HDTStore(tmp_path / "parts")
    with pytest.raises(FileNotFoundError):
        HDTStore(tmp_path)
    assert issubclass(parts.PartFault, ValueError) and issubclass(hdt.Fault, ValueError)
