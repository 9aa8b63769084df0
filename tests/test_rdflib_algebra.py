"""Random queries over HDT files have the answers that the recommendation's definitions give."""

from __future__ import annotations

from typing import Any

import pytest
from hypothesis import assume, given, settings

from support import rdf_graphs as rdf
from support import sparql_reference as reference
from support.rdf_graphs import evaluated, iri, stored, typed

from rdflib import URIRef, Variable
from rdflib.plugins.sparql import processor

pytestmark = pytest.mark.filterwarnings("ignore")

prepare: Any = processor.prepareQuery  # (which has no types)
DRAWN = {"<u:a>": iri("u:a"), "<u:b>": iri("u:b"), "<u:c>": iri("u:c"),
         **{str(n): typed(str(n), rdf.XSD + "integer") for n in (1, 2, 3)}}


def check(triples: list[tuple[str, str, str]], query: str) -> None:
    """A query has the answer of the reference, with and without tables."""
    prepared = prepare(query)
    terms = [(reference.TERMS[s], URIRef(p[1:-1]), reference.TERMS[o]) for s, p, o in triples]
    wanted = reference.shown(reference.Reference(terms).solutions(prepared.algebra.p))
    with stored([(DRAWN[s], iri(p[1:-1]), DRAWN[o]) for s, p, o in triples]) as graph:
        for mode in ("ids", "tables"):
            with evaluated(mode):
                rows: Any = graph.query(prepared).bindings
                found = reference.shown({it: row[it] for it in row if isinstance(it, Variable)} for row in rows)
                assert found == wanted, (mode, query)


@settings(max_examples=settings.default.max_examples)
@given(reference.triples, reference.groups())
def test_random_queries(triples: list[tuple[str, str, str]], group: str) -> None:
    """Groups of all kinds, two deep."""
    try:
        prepare(f"SELECT * {{ {group} }}")
    except Exception:
        assume(False)
    check(triples, f"SELECT * {{ {group} }}")


TRIPLES = [("<u:a>", "<u:p>", "1"), ("<u:b>", "<u:q>", "<u:c>"), ("<u:b>", "<u:r>", "2"), ("<u:b>", "<u:t>", "1")]


@pytest.mark.parametrize("group", [
    "?s <u:p> ?v { ?a <u:q> ?b OPTIONAL { ?a <u:r> ?v } }",
    "?s <u:p> ?v { ?a <u:q> ?b FILTER(!bound(?v)) }",
    "?s <u:p> ?v { { ?a <u:q> ?b } UNION { ?a <u:r> ?v } MINUS { ?x <u:t> ?v } }",
    "?a <u:q> ?b OPTIONAL { ?a <u:none> ?v } MINUS { ?x <u:t> ?v }",
    "?s <u:p> ?v { { ?a <u:q> ?b } UNION { ?a <u:r> ?v } FILTER(!bound(?v)) }",
    "?s <u:p> ?v { ?a <u:q> ?b VALUES (?a ?v) { (<u:b> UNDEF) } FILTER(!bound(?v)) }",
    "?s <u:p> ?v FILTER EXISTS { ?a <u:q> ?b FILTER(?v = 1) }",
])
def test_values_of_outside(group: str) -> None:
    """What a group gives doesn't depend on values of outside, but within EXISTS."""
    check(TRIPLES, f"SELECT * {{ {group} }}")
