"""Answers of queries in the formats of SPARQL and RDF."""

from __future__ import annotations

import csv
import io
from collections.abc import Iterable, Mapping
from itertools import islice
from typing import Any, NamedTuple, Optional

import hdt
from hdt._rdflib_terms import string_of
from hdt._web.negotiation import chosen
from hdt._web.request import Refusal
from rdflib.graph import Graph
from rdflib.plugins.sparql import processor
from rdflib.term import BNode

JSON, XML = "application/sparql-results+json", "application/sparql-results+xml"
CSV, TSV = "text/csv", "text/tab-separated-values"
# Each media type that is offered, with the name of its format; if a client accepts many equally, the first is chosen.
SOLUTIONS = {JSON: "json", XML: "xml", CSV: "csv", TSV: "tsv", "application/json": "json", "application/xml": "xml"}
GRAPHS = {"text/turtle": "turtle", "application/n-triples": "nt", "application/ld+json": "json-ld",
          "application/rdf+xml": "xml"}
_made: Any = processor.SPARQLResult  # (which has no types)


class Written(NamedTuple):
    """An answer: its media type, its body, and whether there would have been more."""

    media: str
    body: bytes
    is_cut: bool


def media_of(form: str, accept: str) -> str:
    """The media type for the answer of a query of a form, as ASK. Raises Refusal if the client accepts none."""
    offered = dict(GRAPHS) if form in ("CONSTRUCT", "DESCRIBE") else dict(SOLUTIONS)
    if form == "ASK":  # (neither CSV nor TSV has an answer of it)
        del offered[CSV], offered[TSV]
    media = chosen(accept, tuple(offered))
    if media is None:
        raise Refusal("406 Not Acceptable", f"Available: {', '.join(offered)}.")
    return media


def written(result: Any, media: str, most: int) -> Written:
    """The answer of a query with at most so many solutions or triples. Raises Refusal, and what the query raises."""
    if result.type in ("CONSTRUCT", "DESCRIBE"):
        triples = list(islice(result.graph, most + 1))
        return Written(media, graph_bytes(triples[:most], media), len(triples) > most)
    if result.type == "ASK":
        return Written(media, result.serialize(format=SOLUTIONS[media]), False)
    rows = list(islice(result._genbindings or result.bindings, most + 1))
    if media in (CSV, TSV):
        body: bytes = (_csv if media == CSV else _tsv)(list(result.vars or []), rows[:most]).encode("utf-8", "replace")
    else:
        cut = _made({"type_": "SELECT", "vars_": result.vars, "bindings": rows[:most]})
        body = cut.serialize(format=SOLUTIONS[media])
    return Written(media, body, len(rows) > most)


def graph_bytes(triples: Iterable[Any], media: str, prefixes: Optional[Mapping[str, str]] = None) -> bytes:
    """Triples in a format of RDF, with these prefixes if it has any. Raises Refusal if it can't have them."""
    graph: Any = Graph()  # (whose `bind` has no types)
    for prefix, namespace in (prefixes or {}).items():
        graph.bind(prefix, namespace)
    for triple in triples:
        graph.add(triple)
    try:
        body: bytes = graph.serialize(format=GRAPHS[media], encoding="utf-8") or b""
        return body
    except ValueError as error:  # (as RDF/XML has no way to write each predicate)
        raise Refusal("406 Not Acceptable", f"This answer can't be written in this format: {error}.") from None


def _csv(names: list[Any], rows: Iterable[Any]) -> str:
    """CSV, whose values are the texts of terms. (rdflib's leaves out `_:`.)"""
    text = io.StringIO()
    writer = csv.writer(text)  # (with CR LF, as the recommendation says)
    writer.writerow(names)
    for row in rows:
        terms = (row.get(it) for it in names)
        writer.writerow("" if it is None else f"_:{it}" if isinstance(it, BNode) else str(it) for it in terms)
    return text.getvalue()


def _tsv(names: list[Any], rows: Iterable[Any]) -> str:
    """TSV, whose values are the terms of Turtle."""
    lines = ["\t".join(it.n3() for it in names)]
    lines += ["\t".join(_term(row.get(it)) for it in names) for row in rows]
    return "\n".join(lines) + "\n"


def _term(term: Any) -> str:
    if term is None:
        return ""
    string = string_of(term)
    if isinstance(term, BNode) or string is None:
        return str(term.n3())
    return hdt.Term.parse(string).format_ntriples().replace("\t", "\\t")
