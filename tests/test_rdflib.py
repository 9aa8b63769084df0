"""The store of rdflib over HDT files: patterns, terms, spellings, its life, namespaces, copies, and what is refused."""

from __future__ import annotations

import copy
import os
import pickle
import subprocess
import sys
import threading
from collections.abc import Callable, Iterator
from itertools import product
from pathlib import Path
from typing import Any
from unittest import mock

import pytest
from hypothesis import given, settings
from hypothesis import strategies as st

from reference import hdt as reference
from support.rdflib_package import hdt, store
from support.python_package import ENVIRONMENT, PACKAGE
from support import rdf_graphs as rdf
from support.rdf_graphs import (ABSENT, RDF, TYPES, VALUES, XSD, Row, blank, evaluated, iri, plain, rows, stored,
                                strings, tagged, typed, written)

import rdflib
from rdflib import BNode, ConjunctiveGraph, Dataset, Graph, Literal, URIRef, Variable
from rdflib.compare import isomorphic
from rdflib.plugins.sparql.sparql import FrozenBindings

HDTStore, ReadOnly, string_of, term_of = store.HDTStore, store.ReadOnly, store.string_of, store.term_of

# rdflib's of literals that are no value of their type, and of IRIs
pytestmark = pytest.mark.filterwarnings("ignore")

KINDS = list(product((False, True), repeat=3))
ROLES: tuple[hdt.Role, ...] = ("subject", "predicate", "object")
A, B, C, P, Q = map(URIRef, ("u:a", "u:b", "u:c", "u:p", "u:q"))
ONE = [(iri("u:a"), iri("u:p"), iri("u:b"))]
STRING = XSD + "string"


def chain(letter: str, length: int = 300) -> list[Row]:
    """Triples each of whose object is the next one's subject."""
    return [(iri(f"u:{letter}{n}"), iri("u:p"), iri(f"u:{letter}{n + 1}")) for n in range(length)]


@pytest.fixture
def graph(tmp_path: Path) -> Iterator[Graph]:
    """A graph over a file with one triple."""
    with HDTStore(written(tmp_path, strings(ONE))) as it:
        yield Graph(it)


# ---- patterns


def check_pattern(memory: Graph, graph: Graph, pattern: Any, counted: bool) -> None:
    """A pattern finds what it finds in rdflib's store; given terms come back as they are."""
    wanted, found = list(memory.triples(pattern)), list(graph.triples(pattern))
    assert set(found) == set(wanted), pattern
    found_by_search, count = graph.store.search(pattern)
    assert list(found_by_search) == found
    assert count == graph.store.count(pattern) >= len(found)
    for triple in found:
        assert all(given is None or mine is given for mine, given in zip(triple, pattern))
    if counted:
        assert len(found) == len(wanted) == count, pattern


@settings(max_examples=settings.default.max_examples // 2)
@given(rows(most=60), st.data())
def test_patterns(triples: list[Row], data: st.DataObject) -> None:
    """Every pattern of triples, and of terms of other ones and of none, finds what rdflib's store finds."""
    memory = rdf.in_memory(triples)
    pool = [it.term for it in ABSENT] + [it.term for triple in triples for it in triple]
    with stored(triples) as graph:
        assert sorted(map(repr, graph)) == sorted(map(repr, memory))
        assert len(graph) == len(memory)
        for n in range(6):
            drawn: Any = tuple(it.term for it in data.draw(st.sampled_from(triples)))
            if n % 2:
                drawn = tuple(data.draw(st.sampled_from([term, data.draw(st.sampled_from(pool))])) for term in drawn)
            for kind in KINDS:
                check_pattern(memory, graph, tuple(term if has else None for term, has in zip(drawn, kind)), True)
            assert (drawn in graph) == (drawn in memory)


@settings(max_examples=settings.default.max_examples // 4)
@given(rows(twins=True), st.data())
def test_patterns_of_twins(triples: list[Row], data: st.DataObject) -> None:
    """A literal is found by its tag in any case, once a triple."""
    memory = rdf.in_memory(triples)
    with stored(triples) as graph:
        for _ in range(4):
            s, p, o = (it.term for it in data.draw(st.sampled_from(triples)))
            if isinstance(o, Literal) and o.language:
                o = Literal(str(o), lang=data.draw(st.sampled_from([str.upper, str.lower, str.title]))(o.language))
            for kind in KINDS:
                pattern: Any = tuple(term if has else None for term, has in zip((s, p, o), kind))
                check_pattern(memory, graph, pattern, False)
                if kind[2]:
                    assert len(list(graph.triples(pattern))) == len(list(memory.triples(pattern)))


@settings(max_examples=settings.default.max_examples // 4)
@given(rows(twins=True))
def test_every_string_comes_back(triples: list[Row]) -> None:
    """string_of is the inverse of term_of, and both are those of the drawn terms; what is iterated is found."""
    for drawn in {it for triple in triples for it in triple}:
        assert string_of(drawn.term) == drawn.string
        made, wanted = term_of(drawn.string), drawn.term
        assert (type(made), str(made), made, repr(made)) == (type(wanted), str(wanted), wanted, repr(wanted))
    with stored(triples) as graph, stored(triples, exact=True) as other:
        for triple in graph:
            assert triple in graph and triple in other
        assert list(graph) == list(other)


def test_literals_are_not_normalized() -> None:
    """Literals keep their text with rdflib's flag on, and are found by it."""
    assert rdflib.NORMALIZE_LITERALS
    literals = [typed(value, datatype) for value in VALUES for datatype in TYPES]
    with stored([(iri("u:a"), iri("u:p"), literal) for literal in literals]) as graph:
        assert len(set(graph)) == len(graph) == len(VALUES) * len(TYPES)
        for triple in graph:
            assert list(graph.triples((None, None, triple[2]))) == [triple]


def test_values_of_literals() -> None:
    """Literals have the values that rdflib gives them."""
    for text, datatype in product(VALUES, TYPES):
        with rdf.exact():
            wanted = Literal(text, datatype=URIRef(datatype))
        made = term_of(f'"{text}"^^<{datatype}>')
        assert isinstance(made, Literal)
        assert (type(made.value), made.datatype) == (type(wanted.value), wanted.datatype)
        assert made.value == wanted.value or datatype == RDF + "XMLLiteral"
    for string, literal in (('"x"', Literal("x")), ('"x"@en', Literal("x", lang="en"))):
        it: Any = term_of(string)
        assert it.value == literal.value


TWINS = [tuple(map(str.encode, triple)) for triple in (
    ("u:a", "u:p", '"x"'), ("u:b", "u:p", f'"x"^^<{STRING}>'), ("u:c", "u:p", f'"y"^^<{STRING}>'),
    ("u:c", "u:q", '"y"'), ("u:d", "u:p", '"z"@en'),
    ("u:d", "u:p", '"z"@EN'), ("u:e", "u:p", '"z"@eN-us'), ("u:e", "u:p", '"z"@fr'),
    ('"z"@EN-us', "u:r", "u:a"), ("u:f", "u:r", '"z"@EN-us'))]


def subjects(graph: Graph, literal: Literal) -> str:
    """The subjects of a literal, with predicate u:p."""
    return " ".join(sorted(map(str, graph.subjects(P, literal))))


def test_spellings(tmp_path: Path) -> None:
    """A literal is found by its other spellings and comes as it was given, once; if none is, as the file has it."""
    with HDTStore(written(tmp_path, [(s, p, o) for s, p, o in TWINS])) as it:
        graph = Graph(it)
        for literal in (Literal("x"), Literal("x", datatype=URIRef(STRING))):
            assert subjects(graph, literal) == "u:a u:b"
            assert [o for _, _, o in graph.triples((None, P, literal))] == [literal, literal]
        assert (C, P, Literal("y")) in graph
        assert subjects(graph, Literal("z", lang="En")) == "u:d"  # once, though the file has two
        assert subjects(graph, Literal("z", lang="en-US")) == "u:e"
        assert list(map(repr, graph.objects(B))) == [repr(Literal("x", datatype=URIRef(STRING)))]
        assert list(map(repr, graph.objects(URIRef("u:d")))) == [repr(Literal("z", lang=tag)) for tag in ("EN", "en")]
        assert it.count((URIRef("u:d"), P, Literal("z", lang="En"))) == 2
        found, _ = it.search((URIRef("u:d"), P, Literal("z", lang="En")), offset=1)
        assert list(found) == []


def test_exact_spellings(tmp_path: Path) -> None:
    """In the exact mode a literal is found by its own spelling alone."""
    with HDTStore(written(tmp_path, [(s, p, o) for s, p, o in TWINS]), exact=True) as it:
        graph = Graph(it)
        assert subjects(graph, Literal("x")) == "u:a"
        assert subjects(graph, Literal("x", datatype=URIRef(STRING))) == "u:b"
        tags = {tag: subjects(graph, Literal("z", lang=tag)) for tag in ("En", "EN", "en-US", "eN-us")}
        assert tags == {"En": "", "EN": "u:d", "en-US": "", "eN-us": "u:e"}
        with store.planned():
            assert list(graph.query("SELECT * { ?s <u:p> ?o . ?o <u:r> ?x }")) == []
            found = graph.query('SELECT ?s { ?s <u:p> ?o . ?s <u:p> "z"@EN }')
            assert [str(row.s) for row in found] == ["u:d", "u:d"]


NEVER: list[Any] = [
    URIRef('"x"'), BNode('"x"'), URIRef("x"), Literal('x"@en'), Literal("u:a"), Variable("x"), URIRef('"x"@en'),
    Literal('"x"'), "u:a", Literal("a", datatype=URIRef('u:t>"')),
    Literal("a", datatype=URIRef('u:s>"^^<u:t')), URIRef(""), Literal("\ud800"), Literal("x\0"),
    BNode("")]


def test_terms_that_are_like_others() -> None:
    """A term whose text is another term's string is not that term."""
    triples = [(blank("b"), iri("u:p"), plain("x")), (iri("u:a"), iri("u:p"), tagged("x", "en")),
               (iri("u:a"), iri("u:p"), typed("a", "u:t")), (iri("u:a"), iri("u:p"), typed('a"^^<u:s>', "u:t"))]
    with stored(triples) as graph:
        for term in NEVER:
            assert list(graph.triples((None, P, term))) == [], repr(term)
            assert (A, P, term) not in graph
        for term in (URIRef("_:b"), Literal("_:b"), Literal("u:a"), BNode("_:b"), BNode("u:a")):
            assert list(graph.triples((term, None, None))) == [], repr(term)
        assert len(list(graph.triples((BNode("b"), None, None)))) == 1


@pytest.mark.parametrize("string", ['"x"@', '"x"@e_n', '"x"@en\n', '"x"^^<u:t', '"x"^^u:t>', '"x"y', '"', "", '"x"^^'])
def test_strings_of_no_term(string: str) -> None:
    """A string that is no term is a ValueError."""
    with pytest.raises(ValueError):
        term_of(string)


def test_a_file_with_a_string_of_no_term(tmp_path: Path) -> None:
    """NotATerm says which string is none; other triples of the file are found."""
    with HDTStore(written(tmp_path, [(b"u:a", b"u:p", b'"x'), (b"u:a", b"u:p", b"u:b")])) as it:
        graph = Graph(it)
        assert len(graph) == 2
        with pytest.raises(store.NotATerm) as raised:
            list(graph)
        assert (raised.value.role, raised.value.number) == ("object", 1)
        assert (A, P, B) in graph
        with store.planned(), pytest.raises(hdt.NotATerm):
            list(graph.query("SELECT ?o { <u:a> ?p ?o }"))


def test_scope() -> None:
    """The scope is in front of labels, in what is found, what is looked for and the header."""
    with stored([(blank("a"), iri("u:p"), blank("b"))], scope="f1-") as graph:
        assert list(graph) == [(BNode("f1-a"), P, BNode("f1-b"))]
        assert (BNode("f1-a"), P, BNode("f1-b")) in graph
        assert list(graph.triples((BNode("a"), None, None))) == []
        assert list(graph.triples((BNode("f2-a"), None, None))) == []


@settings(max_examples=settings.default.max_examples // 4)
@given(rows(), st.data())
def test_choices(triples: list[Row], data: st.DataObject) -> None:
    """A list of terms at one place is as in rdflib's store, whatever its length."""
    memory = rdf.in_memory(triples)
    with stored(triples) as graph:
        for at, size in product(range(3), (0, 1, 3, 50)):
            base: list[Any] = [it.term for it in data.draw(st.sampled_from(triples))]
            kind = data.draw(st.sampled_from(KINDS))
            pattern = [term if has else None for term, has in zip(base, kind)]
            choices = [it[at].term for it in triples] + [it.term for it in ABSENT]
            pattern[at] = data.draw(st.lists(st.sampled_from(choices), min_size=min(size, 1), max_size=size))
            assert set(graph.triples_choices(tuple(pattern))) == set(memory.triples_choices(tuple(pattern)))


def test_many_choices_are_terms() -> None:
    """Many choices, among which few triples are looked up, are compared as terms, not as texts."""
    triples = [(iri("u:a"), iri("u:p"), literal) for literal in (plain("1"), typed("1", XSD + "integer"))]
    choices: Any = [Literal("1"), *(Literal(f"none {n}") for n in range(9))]
    with stored(triples) as graph:
        assert list(graph.triples_choices((None, P, choices))) == [(A, P, Literal("1"))]


def test_choices_at_two_places(graph: Graph) -> None:
    """Choices may be a set or a tuple, at one place at most."""
    assert list(graph.triples_choices((A, (P, Q), None))) == [(A, P, B)]
    assert list(graph.triples_choices(({A}, None, None))) == [(A, P, B)]
    with pytest.raises(ValueError):
        list(graph.store.triples_choices(([A], [P], None)))


def test_search() -> None:
    """A page of a search is that part of all triples, with the count of all."""
    with stored(chain("a", 100)) as graph:
        everything = list(graph)
        for offset, limit in product((0, 1, 7, 99, 100, 1000), (None, 0, 1, 10, 1000)):
            found, count = graph.store.search((None, P, None), limit, offset)
            stop = None if limit is None else offset + limit
            assert (list(found), count) == (everything[offset:stop], 100)
        found, count = graph.store.search((URIRef("u:a3"), None, None))
        assert (list(found), count) == ([(URIRef("u:a3"), P, URIRef("u:a4"))], 1)
        for wrong in ({"limit": -1}, {"offset": -1}):
            with pytest.raises(ValueError):
                graph.store.search(**wrong)


def test_first_triples_are_few() -> None:
    """The first of many triples takes few terms."""
    with stored(chain("a", 3000)) as graph:
        next(iter(graph.triples((None, None, None))))
        assert len(graph.store.opened.node_term) < 10
        with store.planned():
            next(iter(graph.query("SELECT * { ?a ?p ?b . ?b ?q ?c }")))
        assert len(graph.store.opened.node_term) < 20


def test_many_triples(tmp_path: Path) -> None:
    """A step of a join finds more triples of a pattern than any page or portion has."""
    count, document = 70_000, tmp_path / "many.nt"
    document.write_text("".join(f"<u:s{n % 300}> <u:p> <u:o{n}> .\n" for n in range(count)) + "<u:x> <u:q> <u:y> .\n")
    hdt.build(document, tmp_path / "many.hdt")
    with HDTStore(tmp_path / "many.hdt") as it:
        (search,) = it.opened.searches((None, P, None))
        found = list(it.opened.found(search))
        assert len(set(found)) == len(found) == count and {p for _, p, _ in found} == {search[1]}


def test_terms_take_few_calls() -> None:
    """The strings of a portion are looked up together."""
    with stored(chain("a", 3000)) as graph:
        for call, most in (("string", 10), ("strings", 20)):
            with mock.patch.object(hdt.Graph, call, autospec=True, side_effect=getattr(hdt.Graph, call)) as counted:
                assert sum(1 for _ in HDTStore(graph.store.path).triples((None, P, None))) == 3000
            assert counted.call_count <= most


@pytest.mark.parametrize("letters", [1, 4, 5, 31, 32, 33, 60, 250])
def test_spellings_of_long_tags(letters: int) -> None:
    """A tag is found in any case, with few calls, however many letters it has."""
    tag = "-".join("abcdefgh"[:min(8, letters - at)] for at in range(0, letters, 8))
    with stored([(iri("u:a"), iri("u:p"), tagged("x", tag.title())), (iri("u:b"), iri("u:p"), tagged("x", tag)),
                 (iri("u:c"), iri("u:p"), tagged("x", tag[:-1] + "z"))]) as graph:
        number = mock.Mock(side_effect=graph.store.hdt.number)
        with mock.patch.object(graph.store.opened.graph, "number", number, create=True):
            found = {s for s, _, _ in graph.triples((None, None, Literal("x", lang=tag.upper())))}
        assert found == {A, B} and number.call_count <= 16


# ---- opening and closing


def test_open_by_the_name_of_the_plugin(graph: Graph) -> None:
    """`Graph("HDT")` opens a path of any kind, and opens another file after that."""
    path = graph.store.path
    other = Graph(store="HDT")
    for named in (path, os.fsencode(path), Path(path)):
        assert other.open(named) == 1
        assert len(other) == 1
    assert other.open(path, create=True) == 1
    other.close()
    other.close()
    other.open(path)
    assert list(other) == list(graph)
    other.close()


def test_a_closed_store(graph: Graph) -> None:
    """Every call on a closed store is a ValueError; so is one on a store that wasn't opened."""
    graph.close()
    closed: list[Callable[[], Any]] = [
        lambda: len(graph), lambda: list(graph), lambda: (A, P, B) in graph,
        lambda: list(graph.query("SELECT * { ?s ?p ?o }")), lambda: graph.store.triples((None, None, None)),
        lambda: list(graph.query("SELECT (COUNT(*) AS ?n) { ?s ?p ?o }")), lambda: len(HDTStore()),
        lambda: graph.store.count(), lambda: graph.store.search(), lambda: graph.store.header(),
        lambda: graph.store.hdt,
    ]
    for mode in rdf.MODES:
        with evaluated(mode):
            for call in closed:
                with pytest.raises(ValueError, match="closed"):
                    call()


def test_files_that_cannot_be_opened(graph: Graph, tmp_path: Path) -> None:
    """What can't be opened is an exception, and leaves open what was open."""
    (tmp_path / "bad.hdt").write_bytes(b"$HDT")
    with pytest.raises(FileNotFoundError):
        HDTStore(tmp_path / "none.hdt")
    with pytest.raises(hdt.Fault):
        HDTStore(tmp_path / "bad.hdt")
    with pytest.raises(store.Fault):
        graph.open(tmp_path / "bad.hdt")
    assert list(graph) == [(A, P, B)]


QUERY = "SELECT ?s ?o { ?s <u:p> ?o . ?o <u:p> ?x }"
STARTS: list[Callable[[Graph], Iterator[Any]]] = [iter, lambda graph: iter(graph.query(QUERY))]


@pytest.mark.parametrize("mode", rdf.MODES)
@pytest.mark.parametrize("start", STARTS, ids=["triples", "query"])
def test_another_file_meanwhile(tmp_path: Path, mode: str, start: Callable[[Graph], Iterator[Any]]) -> None:
    """What goes through a file that is closed ends with ValueError, and finds nothing of another file."""
    first, second = (written(tmp_path, strings(chain(letter, 3000)), letter) for letter in "ab")
    with evaluated(mode), HDTStore(first) as it:
        graph = Graph(it)
        found = start(graph)
        seen = [next(found)]
        graph.open(second)
        with pytest.raises(ValueError):
            seen.extend(found)
        assert [term for row in seen for term in row if "u:b" in term] == []


def test_calls_that_would_change_the_file(graph: Graph) -> None:
    """Each is ReadOnly, a TypeError, and the file is unchanged; those on transactions do nothing."""
    before = Path(graph.store.path).read_bytes()
    triple = (A, P, C)
    calls: list[Callable[[], Any]] = [
        lambda: graph.add(triple), lambda: graph.remove(triple), lambda: graph.remove((None, None, None)),
        lambda: graph.set(triple), lambda: graph.addN([(*triple, graph)]), lambda: graph.__iadd__([triple]),
        lambda: graph.__isub__([triple]), lambda: graph.parse(data="<u:x> <u:y> <u:z> .", format="nt"),
        lambda: graph.update("INSERT DATA { <u:x> <u:y> <u:z> }"), lambda: graph.update("CLEAR ALL"),
        lambda: graph.update("DELETE WHERE { ?nothing <u:none> ?o }"),
        lambda: graph.destroy(graph.store.path), lambda: graph.store.create(graph.store.path),
        lambda: graph.store.add_graph(graph), lambda: graph.store.remove_graph(graph),
        lambda: graph.resource("u:a").add(P, Literal(1)),
    ]
    for call in calls:
        with pytest.raises(ReadOnly, match="read-only"):
            call()
    graph.commit()
    graph.rollback()
    assert Path(graph.store.path).read_bytes() == before
    for kind in (ConjunctiveGraph, Dataset):
        with pytest.raises(AssertionError):
            kind(graph.store)


def test_namespaces(graph: Graph) -> None:
    """Prefixes are bound in memory, as in rdflib's store, and used by queries and by serializers."""
    triples = [(iri("http://e/a"), iri("http://e/p"), iri("http://e/b"))]
    memory = rdf.in_memory(triples)
    with stored(triples) as graph:
        for it in (memory, graph):
            it.bind("e", "http://e/")
            it.bind("e", "http://other/")
            it.bind("f", "http://e/", override=False)
        assert dict(graph.namespaces())["e1"] == dict(memory.namespaces())["e1"]
        assert graph.serialize(format="turtle") == memory.serialize(format="turtle")
        assert len(list(graph.query("SELECT * { e:a e:p ?o }"))) == 1
        assert graph.qname("http://e/a") == "e:a"
        assert graph.store.prefix(URIRef("http://e/")) == "e"
        assert graph.store.prefix(URIRef("u:none")) is graph.store.namespace("none") is None
        for form in ("xml", "pretty-xml", "nt", "n3", "json-ld"):
            assert graph.serialize(format=form)


@pytest.mark.parametrize("copied", [lambda it: pickle.loads(pickle.dumps(it)), copy.copy, copy.deepcopy])
def test_copies(graph: Graph, copied: Callable[[Any], Any]) -> None:
    """A copy or a pickle opens the file again, with its options and prefixes; of a closed store it is closed."""
    graph.bind("z", "http://z/")
    with copied(graph.store) as other:
        assert list(Graph(other)) == list(graph) == list(copied(graph))
        assert other.namespace("z") == URIRef("http://z/")
    assert len(graph) == 1
    with HDTStore(graph.store.path, scope="x", exact=True, keep=7) as it:
        other = copied(it)
    assert (other.scope, other.exact, other.keep) == ("x", True, 7)
    other.close()
    assert copied(it).path is None


def test_the_rest_of_a_graph(graph: Graph) -> None:
    """Other calls of rdflib's Graph do as with its own store."""
    triples = [(iri("u:a"), iri("u:p"), plain("1")), (iri("u:a"), iri("u:p"), plain("2")),
               (iri("u:a"), iri("u:q"), blank("l")), (blank("l"), iri(RDF + "first"), plain("x")),
               (blank("l"), iri(RDF + "rest"), iri(RDF + "nil"))]
    memory = rdf.in_memory(triples)
    with stored(triples) as graph:
        with pytest.raises(rdflib.exceptions.UniquenessError):
            graph.value(A, P, any=False)
        assert list(graph.items(BNode("l"))) == [Literal("x")]
        assert set(graph.cbd(A)) == set(memory.cbd(A))
        assert graph.all_nodes() == memory.all_nodes()
        assert set(graph[A]) == set(memory[A])
        assert graph.connected() == memory.connected()
        assert list(graph.store.contexts()) == []
        assert bool(graph.store)
        copied = Graph()
        copied += graph
        assert isomorphic(copied, graph)
        assert set(graph + copied) == set(memory)


def test_header(graph: Graph, tmp_path: Path) -> None:
    """The header is a graph, which may be changed; an empty one is an empty graph, and other text a LineFault."""
    header = graph.store.header()
    assert {(str(s), str(o)) for s, p, o in header if "triples" in p} == {("http://a/", "1")}
    header.add((A, P, B))
    assert (A, P, B) not in graph.store.header()
    (tmp_path / "bare.hdt").write_bytes(reference.graph(strings(ONE)).data)
    with HDTStore(tmp_path / "bare.hdt") as it:
        assert list(it.header()) == []


def test_threads() -> None:
    """Threads share a store, also one that keeps few terms."""
    triples = [(iri(f"u:{n}"), iri(f"u:p{n % 7}"), iri(f"u:{n * 31 % 1000}")) for n in range(2000)]
    with stored(triples, keep=10) as graph:
        wanted = [sorted(graph.triples((None, URIRef(f"u:p{n}"), None))) for n in range(7)]
        wrong: list[int] = []

        def run(n: int) -> None:
            if sorted(graph.triples((None, URIRef(f"u:p{n}"), None))) != wanted[n]:
                wrong.append(n)

        threads = [threading.Thread(target=run, args=(n,)) for n in range(7)]
        for thread in threads:
            thread.start()
        for thread in threads:
            thread.join()
        assert wrong == []
        assert sum(map(len, wanted)) == 2000
        assert len(graph.store.opened.node_term) <= 10 + len(threads)


# ---- rdflib


def program(code: str) -> tuple[int, str, str]:
    """The status, output and errors of a program in Python that finds the package."""
    done = subprocess.run([sys.executable, "-W", "ignore", "-c", code], env=ENVIRONMENT, cwd=PACKAGE,
                          stdout=subprocess.PIPE, stderr=subprocess.PIPE, text=True)
    return done.returncode, done.stdout, done.stderr


def test_the_module_of_rdflib_that_is_reached() -> None:
    """`hdt.rdflib` uses the real rdflib, also where the folder of the package `hdt` is the working directory."""
    code = "import hdt.rdflib, rdflib; print(rdflib.Graph.__module__, type(rdflib.Graph('HDT').store).__name__)"
    assert program(code) == (0, "rdflib.graph HDTStore\n", "")


def test_import_without_rdflib() -> None:
    """Without rdflib `hdt` is imported, and `hdt.rdflib` names what it needs."""
    status, _, errors = program("import sys; sys.modules['rdflib'] = None; import hdt; import hdt.rdflib")
    assert status == 1
    assert errors.endswith("ImportError: hdt.rdflib needs rdflib: pip install 'rdflib>=6.1.1'\n")


def test_parts_of_rdflib_that_may_change() -> None:
    """What the store uses beyond rdflib's documentation. If it fails, a newer rdflib needs a change of hdt.rdflib."""
    assert {"_language", "_datatype", "_value"} <= set(Literal.__slots__), "_terms._with_text sets these"
    made = Literal("a\tb", datatype=URIRef(XSD + "token"), normalize=False)
    assert str(made) == "a b", "the text of xsd:token is kept: _terms._with_text may go"
    assert Literal("x", lang="en") == Literal("x", lang="EN"), "tags have a case: the store's equality is wider"
    assert Literal("x") != Literal("x", datatype=URIRef(STRING)), "xsd:string is plain: the store's is the same"
    bindings = FrozenBindings(None, {Variable("x"): A})
    assert vars(bindings) == {"_d": {Variable("x"): A}, "_hash": None, "ctx": None}, "_plan._Solution sets these"
    assert rdflib.plugins.sparql.CUSTOM_EVALS == {}, "another evaluator is there from the start"
