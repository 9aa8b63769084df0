"""Property paths over graphs that are made to be slow: chains, cycles and cliques; and paths of no length."""

from __future__ import annotations

from collections import Counter
from collections.abc import Iterator
from typing import Any
from unittest import mock

import pytest

from support.rdf_graphs import Row, evaluated, iri, plain, stored, tagged
from support.rdflib_package import paths

from rdflib import Graph, Literal, URIRef

pytestmark = pytest.mark.filterwarnings("ignore")

LONG = 5_000  # nodes of a chain: rdflib's recursion ends at some hundred
WIDE = 30  # nodes of a clique
MODES = ["ids", "tables"]


def node(n: int) -> Any:
    """A node."""
    return iri(f"u:{n}")


@pytest.fixture(scope="module")
def chain() -> Iterator[Graph]:
    """A long chain."""
    with stored([(node(n), iri("u:p"), node(n + 1)) for n in range(LONG)]) as graph:
        yield graph


@pytest.fixture(scope="module")
def cycle() -> Iterator[Graph]:
    """A long cycle, with a few nodes that hang on it."""
    triples: list[Row] = [(node(n), iri("u:p"), node((n + 1) % LONG)) for n in range(LONG)]
    with stored(triples + [(node(n), iri("u:q"), iri(f"u:end{n}")) for n in range(0, LONG, 500)]) as graph:
        yield graph


@pytest.fixture(scope="module")
def clique() -> Iterator[Graph]:
    """A clique: each node leads to each one."""
    with stored([(node(a), iri("u:p"), node(b)) for a in range(WIDE) for b in range(WIDE)]) as graph:
        yield graph


def counted(graph: Graph, group: str) -> int:
    """How many solutions a group has."""
    row, = graph.query(f"SELECT (COUNT(*) AS ?n) {{ {group} }}")
    return int(row.n)


@pytest.mark.parametrize("mode", MODES)
def test_chain(chain: Graph, mode: str) -> None:
    """A path along a chain takes no recursion, in either direction."""
    with evaluated(mode):
        assert counted(chain, "<u:0> <u:p>+ ?x") == LONG
        assert counted(chain, "<u:0> <u:p>* ?x") == LONG + 1
        assert counted(chain, f"?x <u:p>+ <u:{LONG}>") == LONG
        assert counted(chain, f"<u:{LONG}> ^<u:p>* ?x") == LONG + 1
        assert counted(chain, "<u:0> (<u:p>/<u:p>)+ ?x") == LONG // 2
        assert counted(chain, "<u:0> (<u:p>|^<u:p>)* ?x") == LONG + 1
        assert counted(chain, f"<u:0> <u:p>+ <u:{LONG}>") == 1
        assert counted(chain, f"<u:{LONG}> <u:p>+ <u:0>") == 0
        assert counted(chain, "<u:7> (<u:p>?/<u:p>?) ?x") == 4


def test_the_first_of_many_pairs_come_at_once(chain: Graph) -> None:
    """A path with two open ends, of which there are millions here, gives the first ones early."""
    steps = mock.Mock(side_effect=paths.Link.follow, autospec=True)
    with evaluated("ids"), mock.patch.object(paths.Link, "follow", lambda *its: steps(*its)):
        assert len(list(chain.query("SELECT * { ?a <u:p>+ ?b } LIMIT 5"))) == 5
        assert chain.query("ASK { ?a <u:p>* ?b }").askAnswer
    assert steps.call_count < 1_000


@pytest.mark.parametrize("mode", MODES)
def test_cycle(cycle: Graph, mode: str) -> None:
    """Each node of a cycle comes once, the first one too; and it leads to itself."""
    with evaluated(mode):
        for path in ("<u:p>+", "<u:p>*", "(<u:p>+)+", "((<u:p>*)*)*", "(<u:p>?)+", "(<u:p>/<u:p>*)+"):
            found = Counter(row.x for row in cycle.query(f"SELECT ?x {{ <u:3> {path} ?x }}"))
            assert set(found.values()) == {1} and len(found) == LONG, path
        assert counted(cycle, "<u:3> <u:p>+ <u:3>") == 1
        assert counted(cycle, "<u:3> <u:p>+/<u:q> ?x") == 10
        assert counted(cycle, "<u:end0> ^<u:q>/<u:p>+/<u:q> ?x") == 10


def test_nodes_that_lead_to_themselves(clique: Graph, cycle: Graph) -> None:
    """`?x p+ ?x` gives the nodes of cycles, each once."""
    with evaluated("ids"):
        assert counted(clique, "?x <u:p>+ ?x") == WIDE
        assert counted(clique, "?x <u:p> ?x") == WIDE
        assert counted(cycle, "VALUES ?x { <u:1> <u:2> <u:end0> } ?x <u:p>+ ?x") == 2


@pytest.mark.parametrize("path, states", [("<u:p>+", 2), ("(<u:p>+)+", 2), ("((<u:p>*)/(<u:p>*))*", 4),
                                          ("((<u:p>|<u:p>)+|<u:p>)*", 6)])
def test_a_clique_takes_linear_steps(clique: Graph, path: str, states: int) -> None:
    """From one start each node is asked for its next ones a few times, however paths are nested."""
    steps = mock.Mock(side_effect=paths.Link.follow, autospec=True)
    with evaluated("ids"), mock.patch.object(paths.Link, "follow", lambda *its: steps(*its)):
        assert counted(clique, f"<u:0> {path} ?x") == WIDE
    assert steps.call_count <= 2 * states * WIDE


def test_ways_are_counted(clique: Graph) -> None:
    """A sequence gives a node as often as ways lead to it, without walking each of them."""
    steps = mock.Mock(side_effect=paths.Link.follow, autospec=True)
    with evaluated("ids"), mock.patch.object(paths.Link, "follow", lambda *its: steps(*its)):
        assert counted(clique, "<u:0> (<u:p>/<u:p>|<u:none>) <u:1>") == WIDE
        assert counted(clique, "<u:0> (<u:p>/<u:p>/<u:p>|<u:none>) <u:1>") == WIDE ** 2
    assert steps.call_count < 10 * WIDE
    with evaluated("ids"):
        assert counted(clique, "<u:0> <u:p>/<u:p> <u:1>") == WIDE
        assert counted(clique, "<u:0> <u:p>|<u:p>|^<u:p> <u:1>") == 3


TRIPLES: list[Row] = [(iri("u:a"), iri("u:p"), iri("u:b")), (iri("u:b"), iri("u:q"), plain("x")),
                      (iri("u:b"), iri("u:p"), tagged("x", "en"))]
NO_LENGTH = {
    "<u:none> <u:p>* ?x": 1, "<u:none> <u:p>? ?x": 1, "<u:none> <u:p>+ ?x": 0, "?x <u:p>* <u:none>": 1,
    "<u:none> <u:p>* <u:none>": 1, "<u:none> <u:p>* <u:a>": 0, "?x <u:none>* ?y": 4, "?x <u:none>+ ?y": 0,
    "<u:a> <u:none>? ?y": 1, "<u:p> <u:p>* ?x": 1, '"x" <u:p>* ?x': 1, '?x <u:p>* "x"@EN': 3, '"y" <u:p>* ?x': 1,
    "VALUES ?x { <u:a> <u:none> <u:p> } ?x <u:q>* ?x": 1, "?x ?x ?y": 0, "<u:b> !(<u:p>) ?x": 1, "<u:b> ^!<u:q> ?x": 1,
    "<u:a> (!<u:q>)+ ?x": 2, "<u:b> !(<u:p>|<u:q>) ?x": 0, "<u:a> (<u:p>/<u:q>)? ?x": 2,
    "<u:a> (<u:p>/(<u:q>|<u:p>))+ ?x": 2, "?a ^<u:p>/^<u:p> ?b": 1,
    '?x (<u:p>/<u:q>)? "x"': 2, '?x (<u:p>/<u:q>|<u:none>) "x"': 1, "<u:none> <u:p>* ?x . <u:none> <u:q>* ?x": 1,
    "<u:none> <u:p>*/<u:q>* ?x": 1, '<u:a> <u:p>+ "x"@EN': 1,
}


@pytest.mark.parametrize("mode", MODES)
def test_paths_of_no_length(mode: str) -> None:
    """A path of no length leads from each term of the query and each node of the graph to itself, but from no other."""
    with stored(TRIPLES) as graph, evaluated(mode):
        assert {group: counted(graph, group) for group in NO_LENGTH} == NO_LENGTH
        row, = graph.query("SELECT ?x { <u:none> <u:p>* ?x }")
        assert row.x == URIRef("u:none")
        found = {row.x for row in graph.query("SELECT ?x { <u:a> (<u:p>|<u:q>)+ ?x }")}
        assert found == {URIRef("u:b"), Literal("x"), Literal("x", lang="en")}


@pytest.mark.parametrize("mode", MODES)
def test_ends_with_two_spellings(mode: str) -> None:
    """A path ends at a literal in each of its spellings, before and after its triples are read into a table."""
    triples: list[Row] = [(iri("u:a"), iri("u:p"), tagged("x", "en")), (iri("u:b"), iri("u:p"), tagged("x", "EN")),
                          (iri("u:c"), iri("u:p"), iri("u:a"))]
    with stored(triples) as graph, evaluated(mode):
        for values in ('"x"@En', '<u:a> "x"@En'):
            query = f'SELECT ?s {{ VALUES ?v {{ {values} }} ?s <u:p>+ ?v FILTER isLiteral(?v) }}'
            assert {str(row.s) for row in graph.query(query)} == {"u:a", "u:b", "u:c"}
