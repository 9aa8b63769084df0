"""Answers SPARQL queries over HDT files by HTTP: the query operation of the SPARQL 1.1 Protocol, over `hdt.rdflib`.

    python3 -m hdt.sparql --port 8080 places=places.hdt
    curl -H 'Accept: text/csv' --data-urlencode 'query=SELECT * { ?s ?p ?o } LIMIT 3' http://127.0.0.1:8080/places

`Application` is a WSGI application for any server, with the values of `Config`. GET, POST with a form and POST with
`application/sparql-query` are answered: as JSON, XML, CSV or TSV, and graphs as Turtle, N-Triples, JSON-LD or RDF/XML.
GET without a query gives SPARQL 1.1 Service Description, with the title, licence and dates of the file's header.

Each query runs in a process of its own, of which there are `processes`: so a query that takes too long, or too much
memory, is ended, whatever it does. A query fetches nothing: SERVICE and FROM are refused, and there is no update.
"""

from __future__ import annotations

from hdt.sparql._application import Application
from hdt.sparql._config import Config

__all__ = ["Application", "Config"]
