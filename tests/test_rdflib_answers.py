"""Queries over a shop and over odd terms have the answers of rdflib's store, or the difference is explained."""

from __future__ import annotations

from collections import Counter
from collections.abc import Iterator
from pathlib import Path
from typing import Any, NamedTuple, Union
from unittest import mock

import pytest

from support import sparql_odd as odd
from support import sparql_shop as shop
from support.rdf_graphs import blank, evaluated, iri, stored
from support.rdflib_package import hdt, store

import rdflib
from rdflib import BNode, Graph, Literal

# rdflib's of literals that are no value of their type
pytestmark = pytest.mark.filterwarnings("ignore")

Both = tuple[Graph, Graph]
Answer = Union[str, bool, "Counter[str]"]
MODES = ["ids", "tables"]


def opened(folder: Path, text: str) -> Iterator[Both]:
    """A graph in rdflib's store, and over a file."""
    (folder / "graph.nt").write_text(text)
    memory = Graph()
    with mock.patch.object(rdflib, "NORMALIZE_LITERALS", False):
        memory.parse(data=text, format="nt")
    hdt.build(folder / "graph.nt", folder / "graph.hdt")
    with store.HDTStore(folder / "graph.hdt") as it:
        yield memory, Graph(it)


@pytest.fixture(scope="module")
def shops(tmp_path_factory: pytest.TempPathFactory) -> Iterator[Both]:
    """The shop."""
    yield from opened(tmp_path_factory.mktemp("shop"), shop.shop())


@pytest.fixture(scope="module")
def odds(tmp_path_factory: pytest.TempPathFactory) -> Iterator[Both]:
    """The odd terms."""
    yield from opened(tmp_path_factory.mktemp("odd"), odd.GRAPH)


def shown(term: Any) -> str:
    """A term in short: literals in quotes, with their tag or the end of their datatype."""
    if isinstance(term, BNode):
        return "_"
    if not isinstance(term, Literal):
        return str(term).rpartition("/")[2]
    if term.datatype and term.datatype.endswith(("#double", "#decimal")) and term.value is not None:
        return f"{float(term):.9g}^^{term.datatype.rpartition('#')[2]}"
    datatype = f"^^{term.datatype.rpartition('#')[2]}" if term.datatype else ""
    return f'"{term}"' + (f"@{term.language}" if term.language else datatype)


def answer(graph: Graph, query: str) -> Answer:
    """An answer to compare: how often each solution comes, or the kind of an error."""
    try:
        result = graph.query(query)
        if result.type == "ASK":
            return bool(result.askAnswer)
        if result.type in ("CONSTRUCT", "DESCRIBE"):
            return Counter(" ".join(map(shown, triple)) for triple in result.graph)
        names = sorted(result.vars or [])
        return Counter(" ".join(f"{it}={shown(row[it])}" for it in names if row.get(it) is not None)
                       for row in result.bindings)
    except Exception as error:
        return type(error).__name__


# ---- the shop


@pytest.mark.parametrize("name", [name for name in shop.QUERIES if name != "describe"])
def test_shop(shops: Both, name: str) -> None:
    """A query over the shop has the answer that it has over rdflib's store, and one that is not trivial."""
    memory, graph = shops
    wanted = answer(memory, shop.QUERIES[name])
    assert isinstance(wanted, bool) or (isinstance(wanted, Counter) and wanted)
    for mode in MODES:
        with evaluated(mode):
            assert (mode, answer(graph, shop.QUERIES[name])) == (mode, wanted)


def test_describe(shops: Both) -> None:
    """DESCRIBE, which rdflib 6.1.1 can't translate, gives the triples of a resource and of its blank nodes."""
    memory, graph = shops
    person = rdflib.URIRef(shop.I + "person/8")
    triples = set(memory.triples((person, None, None)))
    for address in memory.objects(person, rdflib.URIRef(shop.V + "address")):
        triples |= set(memory.triples((address, None, None)))
    for mode in ["rdflib", *MODES]:
        with evaluated(mode):
            assert answer(graph, shop.QUERIES["describe"]) == Counter(" ".join(map(shown, it)) for it in triples)


def test_describe_of_a_cycle() -> None:
    """Blank nodes that lead to each other are described once."""
    triples = [(iri("u:a"), iri("u:p"), blank("b")), (blank("b"), iri("u:p"), blank("c")),
               (blank("c"), iri("u:p"), blank("b")), (blank("d"), iri("u:p"), blank("b"))]
    with stored(triples) as graph:
        assert len(graph.query("DESCRIBE <u:a>").graph) == 3


# ---- odd terms


class Difference(NamedTuple):
    """Why an answer isn't that of rdflib's store, and what it is."""

    why: str
    answer: list[str]


STRINGS = "a plain literal and one of xsd:string are one term (RDF 1.1): the file has it once"
TAGS = "rdflib's store takes tags of either case for one term, and keeps the first one; a file keeps both"
BROKEN = "a literal that is no value of its type breaks the query in rdflib"
START = "rdflib gives the start of a cycle twice; a path of any length gives each node once (18.4)"
CYCLE = ["a", "b", "c"]

DIFFERENT = {
    "sum with a bad one": Difference(BROKEN + "; SUM of an error is one, so there is no value (18.5.1.3)", [""]),
    "avg without the bad one": Difference(BROKEN + "; isNumeric is false for it (17.4.2.4)", ["x=2.41666667^^double"]),
    "min max": Difference(BROKEN, ['x="1"^^integer y="7"^^integer']),
    "plain string": Difference(STRINGS, ["s=c", "s=d"]),
    "typed string": Difference(STRINGS, ["s=c", "s=d"]),
    "lang equals": Difference(TAGS, ["s=a"]),
    "distinct labels": Difference(STRINGS, [
        'l="cat"@en', 'l="cat"', 'l="Katze"@de', 'l="Katze"@de-AT', 'l="a"b\\c\nd\u00e9\U0001f600"']),
    "count distinct labels": Difference(STRINGS, ['c="5"^^integer']),
    "join on labels": Difference(STRINGS, [
        *(f"s={it} t={it}" for it in "abcdefg"), "s=a t=b", "s=b t=a", "s=c t=d", "s=d t=c"]),
    "year": Difference(BROKEN, [*(f's={it} y="2020"^^integer' for it in "abcd"), "s=e", "s=f"]),
    "path star from one": Difference(START, [f"o={it}" for it in CYCLE]),
    "inverse star": Difference(START, [f"s={it}" for it in CYCLE]),
    "group by of nothing": Difference("there are no groups of no solutions (18.5.1); rdflib gives one", []),
    "if, coalesce, in": Difference("IN compares values, as = does (17.4.1.9); rdflib compares terms", [
        's=a x="small" y="2"^^integer', 's=b x="small" y="2"^^integer', "s=c x=\"small\" y=2^^decimal",
        "s=d x=\"small\" y=2^^double", 's=e x="big" y="8"^^integer']),
    "order by mixed, limit": Difference(
        BROKEN, ['n="1"^^integer', 'n="01"^^integer', "n=1^^decimal", "n=1^^double"]),
    "describe": Difference("rdflib 6.1.1 can't translate it", [
        "c p a", "c q d", "c n 1^^decimal", 'c l "cat"', 'c d "2020-01-01T12:00:00"^^dateTime',
        'c t "false"^^boolean']),
}
# The same for long answers: what is in them instead of what rdflib's store gives, whatever the case of letters.
CHANGED = {
    "path zero or one, both open": (
        TAGS + "; " + STRINGS, ['o="cat"^^string s="cat"^^string'], ['o="cat"@en s="cat"@en']),
    "strings with tags": (TAGS + "; " + STRINGS, [
        'x="cats" y="cat"^^string z="at"^^string'], ['x="cats" y="cat" z="at"']),
}


@pytest.mark.parametrize("name", odd.QUERIES)
def test_odd(odds: Both, name: str) -> None:
    """A query over odd terms has the answer that it has over rdflib's store, or the one that is written here."""
    memory, graph = odds
    wanted = by_rdflib = answer(memory, odd.PREFIXES + odd.QUERIES[name])
    if name in DIFFERENT:
        wanted = Counter(DIFFERENT[name].answer)
        assert wanted != by_rdflib, f"rdflib answers so too by now: {DIFFERENT[name].why}"
    elif name in CHANGED:
        _, gone, new = CHANGED[name]
        wanted = folded(by_rdflib) - Counter(gone) + Counter(new)
    for mode in MODES:
        with evaluated(mode):
            found = answer(graph, odd.PREFIXES + odd.QUERIES[name])
            assert (mode, folded(found) if name in CHANGED else found) == (mode, wanted)


def folded(answer: Answer) -> Counter[str]:
    """An answer in small letters."""
    assert isinstance(answer, Counter)
    return Counter(it.lower() for it in answer.elements())


def test_differences_are_of_queries() -> None:
    """There are as many queries as there were, and each difference is of one."""
    assert (len(shop.QUERIES), len(odd.QUERIES)) == (33, 64)
    assert DIFFERENT.keys() | CHANGED.keys() <= odd.QUERIES.keys()
