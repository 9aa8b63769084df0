"""SPARQL over HDT files, by rdflib alone and planned: answers are the recommendation's, and those of rdflib's store."""

from __future__ import annotations

from collections import Counter
from contextlib import ExitStack
from collections.abc import Iterator
from pathlib import Path
from typing import Any, Optional
from unittest import mock

import pytest
from hypothesis import given, settings
from hypothesis import strategies as st

from support.rdflib_package import hdt, join, store
from support import rdf_graphs as rdf
from support.rdf_graphs import (XSD, Row, blank, evaluated, from_turtle, iri, plain, rows, stored, tagged, typed,
                                written)
from support.sparql_queries import COUNTS, QUERIES, SPARQL, SPECIFIED, TURTLE, Answer, Specified, people

import rdflib
from rdflib import BNode, Graph, Literal, URIRef, Variable
from rdflib.graph import ReadOnlyGraphAggregate
from rdflib.plugins.sparql import CUSTOM_EVALS
from rdflib.plugins.sparql.processor import prepareQuery

# rdflib's of literals that are no value of their type, and of IRIs
pytestmark = pytest.mark.filterwarnings("ignore")

modes = pytest.mark.parametrize("mode", rdf.MODES)


def answer(graph: Graph, query: Any, **options: Any) -> Any:
    """An answer to compare: rows in order if the query gives one, else how often each comes; or the error."""
    try:
        result = graph.query(query, **options)
        if result.type == "SELECT":
            names = sorted(map(str, result.vars or []))
            found = [tuple(repr(row.get(Variable(name))) for name in names) for row in result.bindings]
            ordered = isinstance(query, str) and "ORDER BY" in query and "DESC(?n)" not in query
            return names, found if ordered else Counter(found)
        return bool(result.askAnswer) if result.type == "ASK" else set(result.graph)
    except Exception as error:
        return type(error), str(error)


# ---- the recommendation's


def shown(term: Any) -> Optional[str]:
    """A term in short, as the answers of the recommendation are written here."""
    if term is None or isinstance(term, BNode):
        return term and "_"
    if isinstance(term, URIRef):
        return str(term).replace("#", "/").rpartition("/")[2]
    return f"{term}@{term.language}" if term.language else str(term)


def shown_answer(graph: Graph, query: str) -> Answer:
    """An answer in short; rows ascend if the query gives no order."""
    result = graph.query(SPARQL + query)
    if result.type == "ASK":
        return bool(result.askAnswer)
    if result.type == "CONSTRUCT":
        return sorted(tuple(map(shown, triple)) for triple in result.graph)
    found = [tuple(shown(row.get(name)) for name in result.vars or []) for row in result.bindings]
    return found if "ORDER BY" in query else sorted(found, key=lambda row: [(it is None, it) for it in row])


@pytest.mark.parametrize("it", SPECIFIED, ids=[f"{n}: {it.section}" for n, it in enumerate(SPECIFIED)])
def test_queries_of_the_recommendation(it: Specified) -> None:
    """Queries of the recommendation have its answers, in each mode."""
    _, triples = from_turtle(TURTLE + it.data)
    with stored(triples) as graph, stored(triples, exact=True) as other:
        for mode in rdf.MODES:
            with evaluated(mode):
                assert (mode, shown_answer(graph, it.query)) == (mode, it.answer)
                assert (mode, shown_answer(other, it.query)) == (mode, it.answer)


# ---- as rdflib's store


@pytest.fixture(scope="module")
def graphs() -> Iterator[list[tuple[Graph, Graph]]]:
    """Graphs of people, in rdflib's store and in a file."""
    with ExitStack() as stack:
        both = [from_turtle(people(seed)) for seed in range(3)]
        yield [(memory, stack.enter_context(stored(triples))) for memory, triples in both]


# Queries whose answers rdflib gets wrong. (test_rdflib_answers says what is different else.)
ONCE = {"path star"}  # a node of a cycle comes twice by rdflib
NO_GROUPS = {"groups of none", "groups of no triples", "groups of an absent term"}  # rdflib has a group of nothing


@pytest.mark.parametrize("name", [it for it in [*QUERIES, *COUNTS] if it != "describe"])
def test_queries(graphs: list[tuple[Graph, Graph]], name: str) -> None:
    """Queries have the answers that they have over rdflib's store, errors too."""
    query = SPARQL + {**QUERIES, **COUNTS}[name]
    for memory, graph in graphs:
        by_rdflib = wanted = answer(memory, query)
        if name in ONCE:
            wanted = wanted[0], Counter(set(wanted[1]))
        elif name in NO_GROUPS:
            wanted = wanted[0], Counter()
        assert under("rdflib", graph, query) == by_rdflib
        for mode in ("ids", "tables"):
            assert (mode, under(mode, graph, query)) == (mode, wanted)


def some_groups(answer: Any) -> Any:
    """An answer without the group of nothing that rdflib has."""
    names, rows = answer
    return names, Counter({row: count for row, count in rows.items() if row[names.index("n")] != "None"})


def under(mode: str, graph: Graph, query: Any, **options: Any) -> Any:
    """An answer in a mode."""
    with evaluated(mode):
        return answer(graph, query, **options)


VARIABLES = ["?a", "?b", "?c", "?d"]


def spoken(literal: Literal) -> bool:
    """Whether rdflib 6.1.1 writes the literal in a form that it reads as the same one."""
    return not set(literal) & set("\\\r\n\t\u2028\x85") and literal.datatype != URIRef(XSD + "token")


@st.composite
def patterns(draw: Any, triples: list[Row], most: int) -> str:
    """A basic graph pattern, with terms of these triples and variables that repeat."""
    drawn = []
    for _ in range(draw(st.integers(1, most))):
        terms = [it.term for it in draw(st.sampled_from(triples))]
        free = [isinstance(it, BNode) or (isinstance(it, Literal) and not spoken(it)) for it in terms]
        drawn.append(" ".join(
            draw(st.sampled_from(VARIABLES)) if must or draw(st.sampled_from([True, True, False])) else term.n3()
            for must, term in zip(free, terms)))
    return " . ".join(drawn)


@settings(max_examples=settings.default.max_examples // 4)
@given(rows(most=12), st.data())
def test_random_patterns(triples: list[Row], data: st.DataObject) -> None:
    """Random basic graph patterns, and counts of one pattern, have the answers of rdflib's store, in each mode."""
    memory = rdf.in_memory(triples)
    with stored(triples) as graph:
        for _ in range(2):
            pattern, one = data.draw(patterns(triples, 4)), data.draw(patterns(triples, 1))
            group = data.draw(st.sampled_from(["?a", "?b", "?a ?b", "?c ?b"]))
            for query in (f"SELECT * {{ {pattern} }}", f"SELECT (COUNT(*) AS ?n) {{ {one} }}",
                          f"SELECT {group} (COUNT(?b) AS ?n) {{ {one} }} GROUP BY {group}"):
                with rdf.exact():
                    prepared = prepareQuery(query)
                found = {mode: under(mode, graph, prepared) for mode in rdf.MODES}
                wanted = answer(memory, prepared)
                if "GROUP" in query:
                    found, wanted = {mode: some_groups(it) for mode, it in found.items()}, some_groups(wanted)
                assert found == dict.fromkeys(rdf.MODES, wanted), query


TAGS = ["en", "EN", "en-us", "en-US", "zh-hant-tw", "zh-Hant-TW", "zH-hANT-tw"]
NODES = st.sampled_from([iri("u:a"), iri("u:b"), blank("c")])
PREDICATES = st.sampled_from([iri("u:p"), iri("u:q")])
TAGGED = st.builds(tagged, st.sampled_from("xy"), st.sampled_from(TAGS))
JOINS = ["SELECT * { ?a <u:p> ?v . ?b <u:q> ?v }", "SELECT * { ?a <u:p> ?v . ?a <u:q> ?v }",
         "SELECT * { ?a ?p ?v . ?b ?p ?v . ?b <u:q> ?v }", 'SELECT * { ?a ?p "x"@EN-US, ?w }']


@settings(max_examples=settings.default.max_examples // 5)
@given(st.lists(st.tuples(NODES, PREDICATES, TAGGED), min_size=1, max_size=10, unique=True))
def test_joins_of_spellings(triples: list[Row]) -> None:
    """Literals that rdflib takes for equal join, as sets of solutions: a file keeps both spellings."""
    memory = rdf.in_memory(triples)
    with stored(triples) as graph:
        for query in JOINS:
            wanted = {frozenset(row.items()) for row in memory.query(query).bindings}
            for mode in rdf.MODES:
                with evaluated(mode):
                    assert {frozenset(row.items()) for row in graph.query(query).bindings} == wanted, (mode, query)


@modes
def test_joins_of_plain_literals_and_strings(tmp_path: Path, mode: str) -> None:
    """A plain literal joins one of xsd:string, but not in the exact mode."""
    triples = [(b"u:a", b"u:p", b'"x"'), (b"u:b", b"u:q", f'"x"^^<{XSD}string>'.encode()), (b"u:c", b"u:q", b'"z"')]
    query = "SELECT ?a ?b { ?a <u:p> ?v . ?b <u:q> ?v }"
    path = written(tmp_path, triples)
    with evaluated(mode), store.HDTStore(path) as it, store.HDTStore(path, exact=True) as other:
        assert [tuple(map(str, row)) for row in Graph(it).query(query)] == [("u:a", "u:b")]
        assert list(Graph(other).query(query)) == []


@modes
def test_spellings_give_a_solution_once(mode: str) -> None:
    """A given literal with two spellings in the file gives each solution once, and counts it once."""
    triples = [(iri("u:a"), iri("u:q"), tagged("x", "en")), (iri("u:a"), iri("u:q"), tagged("x", "EN")),
               (iri("u:b"), iri("u:p"), tagged("x", "eN")),
               (iri("u:c"), iri("u:q"), tagged("x", "en")), (iri("u:d"), iri("u:q"), tagged("x", "EN"))]
    with evaluated(mode), stored(triples) as graph:
        assert sorted(str(row.a) for row in graph.query('SELECT ?a { ?a <u:q> "x"@En }')) == ["u:a", "u:c", "u:d"]
        assert [str(row.n) for row in graph.query('SELECT (COUNT(*) AS ?n) { ?a <u:q> "x"@En }')] == ["3"]
        # (once or twice, by the order of the join: the price of a wider equality over a file that has both)
        assert {str(row.a) for row in graph.query("SELECT ?a { ?b <u:p> ?v . ?a <u:q> ?v }")} == {"u:a", "u:c", "u:d"}


@modes
def test_each_spelling_is_searched_for_at_a_value(mode: str) -> None:
    """A given literal with two spellings is found in both by a pattern one of whose variables has a value."""
    triples = [(iri("u:a"), iri("u:q"), tagged("x", "en")), (iri("u:b"), iri("u:q"), tagged("x", "EN")),
               (iri("u:a"), iri("u:r"), iri("u:c")), (iri("u:b"), iri("u:r"), iri("u:d"))]
    with evaluated(mode), stored(triples) as graph:
        for value, subject in (("u:c", "u:a"), ("u:d", "u:b")):
            found = graph.query(f'SELECT ?a {{ ?a <u:r> <{value}> . ?a <u:q> "x"@En }}')
            assert [str(row.a) for row in found] == [subject]


@modes
def test_a_pattern_with_a_loop_of_many_rows(mode: str) -> None:
    """A pattern whose new variable is there twice compares its two values for each of many rows, too."""
    triples = [it for n in range(1, 90) for it in (
        (iri(f"u:n{n}"), iri("u:p"), iri(f"u:n{n + 1}")), (iri(f"u:n{n}"), iri("u:q"), iri(f"u:{'qr'[n % 2]}")))]
    with evaluated(mode), stored(triples) as graph:
        found = graph.query("SELECT ?x ?y { ?a <u:p> ?x . ?x ?y ?y }")
        assert sorted((str(x), str(y)) for x, y in found) == sorted((f"u:n{n}", "u:q") for n in range(2, 90, 2))


@modes
def test_groups_of_spellings(mode: str) -> None:
    """Literals that rdflib takes for equal are one group."""
    triples = [(iri("u:a"), iri("u:q"), tagged("x", "en")), (iri("u:a"), iri("u:q"), tagged("x", "EN")),
               (iri("u:b"), iri("u:q"), tagged("y", "en"))]
    with evaluated(mode), stored(triples) as graph:
        found = graph.query("SELECT ?o (COUNT(*) AS ?n) { ?a <u:q> ?o } GROUP BY ?o")
        assert sorted((str(row.o), str(row.n)) for row in found) == [("x", "2"), ("y", "1")]


DISTINCT = {
    "objects": "SELECT (COUNT(DISTINCT ?o) AS ?n) { ?a <u:q> ?o }",
    "all roles": "SELECT (COUNT(DISTINCT ?o) AS ?n) (COUNT(DISTINCT ?a) AS ?m) (COUNT(DISTINCT ?p) AS ?k) { ?a ?p ?o }",
    "with others": "SELECT (COUNT(?a) AS ?n) (COUNT(DISTINCT ?a) AS ?m) { ?a ?p ?o }",
    "nothing": "SELECT (COUNT(DISTINCT ?a) AS ?n) { ?a <u:none> ?o }",
    "solutions": "SELECT (COUNT(DISTINCT *) AS ?n) { ?a ?p ?o }",
    "groups": "SELECT ?a (COUNT(DISTINCT ?o) AS ?n) { ?a <u:q> ?o } GROUP BY ?a",
    "a given one": 'SELECT (COUNT(DISTINCT ?a) AS ?n) { ?a <u:q> "y"@en }',
}


@pytest.mark.parametrize("name", DISTINCT)
def test_distinct_counts(name: str) -> None:
    """COUNT of different terms is what rdflib counts over the file: for it tags of either case are one."""
    objects = [tagged("x", "en"), tagged("x", "EN"), tagged("y", "en"), plain("x"), iri("u:b"), blank("b"), iri("u:a")]
    triples = [(iri(s), iri(p), o) for s in ("u:a", "u:b") for p in ("u:p", "u:q") for o in objects]
    triples.append((iri("u:c"), iri("u:q"), iri("u:z")))  # (a group with other counts)
    with stored(triples) as graph:
        wanted = under("rdflib", graph, DISTINCT[name])
        assert {mode: under(mode, graph, DISTINCT[name]) for mode in rdf.MODES} == dict.fromkeys(rdf.MODES, wanted)
        if name in ("objects", "all roles", "with others", "nothing"):
            assert calls(graph, DISTINCT[name], "ids")["searches"] == 0


GIVEN: list[dict[str, Any]] = [{"x": URIRef("http://example.org/n1")}, {"c": URIRef("http://example.org/c1")},
                               {"x": BNode("none")}, {"y": Literal(1)}, {"z": Literal(1)}]


@pytest.mark.parametrize("given_values", GIVEN, ids=str)
@pytest.mark.parametrize("query", [
    "SELECT ?x ?y ?c { ?x :knows ?y . ?y :city ?c }", "SELECT ?y (COUNT(*) AS ?n) { ?x :knows ?y } GROUP BY ?y",
    "SELECT ?x (COUNT(?s) AS ?n) { ?s a ?x } GROUP BY ?x"])
def test_bindings_of_before(graphs: list[tuple[Graph, Graph]], given_values: dict[str, Any], query: str) -> None:
    """Bindings that a query is given hold in each mode."""
    for memory, graph in graphs:
        wanted = answer(memory, SPARQL + query, initBindings=given_values)
        found = {mode: under(mode, graph, SPARQL + query, initBindings=given_values) for mode in rdf.MODES}
        if "GROUP" in query:
            found, wanted = {mode: some_groups(it) for mode, it in found.items()}, some_groups(wanted)
        assert found == dict.fromkeys(rdf.MODES, wanted)


@modes
def test_prepared_queries(graphs: list[tuple[Graph, Graph]], mode: str) -> None:
    """A prepared query is evaluated too."""
    query = prepareQuery(SPARQL + QUERIES["mutual"])
    for memory, graph in graphs:
        with evaluated(mode):
            assert set(graph.query(query)) == set(memory.query(query))


EXACT = [("1e0", "u:a", ["u:a", "u:c"]), ("01", "u:c", ["u:a", "u:c"]),
         (f'"2020-01-01T00:00:00Z"^^<{XSD}dateTime>', "u:b", ["u:b"])]


@modes
def test_literals_of_a_query_keep_their_spelling(mode: str) -> None:
    """rdflib turns 1e0 into 1.0 and Z into +00:00 where it reads a query; a query over the store finds what it says."""
    triples = [(iri("u:a"), iri("u:p"), typed("1e0", XSD + "double")),
               (iri("u:b"), iri("u:p"), typed("2020-01-01T00:00:00Z", XSD + "dateTime")),
               (iri("u:c"), iri("u:p"), typed("01", XSD + "integer"))]
    with evaluated(mode), stored(triples) as graph:
        for term, one, equal in EXACT:
            for where, wanted in ((f"?s <u:p> {term}", [one]), (f"VALUES ?o {{ {term} }} ?s <u:p> ?o", [one]),
                                  (f"?s <u:p> ?o FILTER(?o = {term})", equal)):
                assert sorted(str(row.s) for row in graph.query(f"SELECT ?s {{ {where} }}")) == wanted
        assert rdflib.NORMALIZE_LITERALS
        with pytest.raises(Exception):
            graph.query("SELECT nonsense")
        assert rdflib.NORMALIZE_LITERALS


@modes
def test_two_files(mode: str) -> None:
    """rdflib's view of two graphs as one is evaluated by rdflib, over both."""
    first, second = [(iri("u:a"), iri("u:p"), iri("u:b"))], [(iri("u:b"), iri("u:p"), iri("u:c"))]
    with evaluated(mode), stored(first) as a, stored(second) as b:
        both = ReadOnlyGraphAggregate([a, b])
        found = both.query("SELECT ?x ?z { ?x <u:p> ?y . ?y <u:p> ?z }")
        assert [tuple(row) for row in found] == [(URIRef("u:a"), URIRef("u:c"))]


# ---- switching it on and off


def test_planning_is_switched() -> None:
    """It is off at first; `planned` puts back what was there."""
    assert "hdt" not in CUSTOM_EVALS
    with store.planned():
        assert "hdt" in CUSTOM_EVALS
        with store.planned():
            pass
        assert "hdt" in CUSTOM_EVALS
    assert "hdt" not in CUSTOM_EVALS
    with pytest.raises(KeyError), store.planned():
        raise KeyError
    assert "hdt" not in CUSTOM_EVALS
    with evaluated("rdflib"):
        store.plan_sparql()
        store.plan_sparql()
        with store.planned():
            pass
        assert "hdt" in CUSTOM_EVALS
        store.plan_sparql(False)
        store.plan_sparql(on=False)
        assert "hdt" not in CUSTOM_EVALS


class Counted:
    """A graph of the package that counts the calls of some methods."""

    def __init__(self, graph: hdt.Graph) -> None:
        self.graph = graph
        self.calls: Counter[str] = Counter()

    def __getattr__(self, name: str) -> Any:
        self.calls[name] += 1
        return getattr(self.graph, name)

    def __len__(self) -> int:
        return len(self.graph)


def calls(graph: Graph, query: str, mode: str) -> Counter[str]:
    """How often a query calls each method of the open file."""
    with evaluated(mode):
        file = graph.store.opened
        file.graph = counted = Counted(file.graph)
        try:
            list(graph.query(query))
        finally:
            file.graph = counted.graph
        counted.calls["searches"] = counted.calls["find_ids"] + counted.calls["_first_ids"]
        return counted.calls


def test_a_plan_takes_few_searches() -> None:
    """A rare pattern goes first wherever it is written; rdflib's order goes through the common one."""
    triples = [(iri(f"u:s{n}"), iri("u:common"), iri(f"u:o{n}")) for n in range(1_000)]
    triples += [(iri(f"u:o{n}"), iri("u:to"), iri(f"u:t{n}")) for n in range(1_000)]
    triples += [(iri("u:t7"), iri("u:rare"), plain("x"))]
    query = "SELECT * { ?a <u:common> ?b . ?b <u:to> ?c . ?c <u:rare> ?d }"
    with stored(triples) as graph:
        searches = {mode: calls(graph, query, mode)["searches"] for mode in rdf.MODES}
        # (a filter comes before the pattern that doesn't need it)
        filtered = calls(graph, "SELECT * { ?a <u:common> ?b . ?b <u:to> ?c FILTER(?b = <u:o7>) }", "ids")
    assert searches["rdflib"] > 1_000
    assert searches["ids"] < 10 and filtered["searches"] < 10


def test_a_join_of_many_takes_few_searches() -> None:
    """After some searches for a pattern its triples are read at once, as far as that takes less."""
    triples = [(iri(f"u:s{n}"), iri("u:p"), iri(f"u:s{n + 1}")) for n in range(2_000)]
    query = "SELECT * { ?a <u:p> ?b . ?b <u:p> ?c }"
    with stored(triples) as graph:
        searches = calls(graph, query, "ids")["searches"]
        assert 64 < searches < 300
        with mock.patch.object(join, "_MOST_READ", 1_999):
            assert calls(graph, query, "ids")["searches"] >= 2_000


def test_a_node_is_not_searched_where_it_cannot_be() -> None:
    """Objects that are no subjects are not looked for as subjects."""
    with stored([(iri(f"u:s{n}"), iri("u:p"), iri(f"u:o{n}")) for n in range(100)]) as graph:
        assert calls(graph, "SELECT * { ?a <u:p> ?b . ?b <u:p> ?c }", "ids")["searches"] == 2  # (two pages)


@pytest.mark.parametrize("name", list(COUNTS)[:3])
def test_counts_are_not_walked(graphs: list[tuple[Graph, Graph]], name: str) -> None:
    """COUNT over one pattern goes through no triples."""
    _, graph = graphs[0]
    assert calls(graph, SPARQL + COUNTS[name], "ids")["searches"] == 0
    assert calls(graph, SPARQL + COUNTS["predicates"], "ids")["searches"] == 0
    assert calls(graph, SPARQL + COUNTS["classes"], "ids")["searches"] == 1


def test_groups_make_few_terms() -> None:
    """Groups by class make a term of each class only."""
    triples = [(iri(f"u:{n}"), iri(rdf.RDF + "type"), iri(f"u:c{n % 3}")) for n in range(300)]
    with stored(triples) as graph, store.planned():
        assert len(list(graph.query("SELECT ?c (COUNT(*) AS ?n) { ?s a ?c } GROUP BY ?c"))) == 3
        assert len(graph.store.opened.node_term) == 3
