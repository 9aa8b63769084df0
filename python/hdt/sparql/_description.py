"""What a service is: SPARQL 1.1 Service Description, with what the header of the file says of its graph."""

from __future__ import annotations

from typing import Any

from hdt._about import said_of
from hdt._metadata import DCTERMS
from hdt.rdflib import term_of
from hdt.sparql._answers import Written, graph_bytes, media_of
from rdflib.term import BNode, Literal, URIRef

_SD = "http://www.w3.org/ns/sparql-service-description#"
_VOID = "http://rdfs.org/ns/void#"
_TYPE = URIRef("http://www.w3.org/1999/02/22-rdf-syntax-ns#type")
_node: Any = BNode  # (which has no types)
_FORMAT = "http://www.w3.org/ns/formats/"
_FORMATS = ["SPARQL_Results_JSON", "SPARQL_Results_XML", "SPARQL_Results_CSV", "SPARQL_Results_TSV", "Turtle",
            "N-Triples", "JSON-LD", "RDF_XML"]


def description(graph: Any, endpoint: str, accept: str) -> Written:
    """The description of an endpoint over a graph, or a graph in parts; without its URL, if that is empty.

    Raises Refusal, and what `media_of` raises.
    """
    media = media_of("DESCRIBE", accept)
    service, dataset, of = (_node(name) for name in ("service", "dataset", "graph"))
    triples: list[tuple[Any, Any, Any]] = [
        (service, _TYPE, URIRef(_SD + "Service")),
        (service, URIRef(_SD + "supportedLanguage"), URIRef(_SD + "SPARQL11Query")),
        (service, URIRef(_SD + "defaultDataset"), dataset),
        (dataset, _TYPE, URIRef(_SD + "Dataset")),
        (dataset, URIRef(_SD + "defaultGraph"), of),
        (of, _TYPE, URIRef(_SD + "Graph")),
        (of, URIRef(_VOID + "triples"), Literal(len(graph))),
    ]
    triples += [(service, URIRef(_SD + "resultFormat"), URIRef(_FORMAT + it)) for it in _FORMATS]
    if endpoint:
        triples.append((service, URIRef(_SD + "endpoint"), URIRef(endpoint)))
    for name, values in said_of(graph.header).items():
        triples += [(of, URIRef(DCTERMS + name), term_of(value)) for value in values]
    return Written(media, graph_bytes(triples, media, {"sd": _SD}), False)
