"""RDF syntaxes by their names and suffixes."""

from __future__ import annotations

import os
from typing import Optional

from ._compressed import suffix_of

NTRIPLES, TURTLE, TRIG, NQUADS, RDFXML, JSONLD, N3 = "ntriples", "turtle", "trig", "nquads", "rdfxml", "jsonld", "n3"
HDT = "hdt"

TITLES = {
    NTRIPLES: "N-Triples", TURTLE: "Turtle", TRIG: "TriG", NQUADS: "N-Quads", RDFXML: "RDF/XML", JSONLD: "JSON-LD",
    N3: "Notation3", HDT: "HDT",
}  # fmt: skip
SUFFIXES = {
    ".nt": NTRIPLES, ".ttl": TURTLE, ".trig": TRIG, ".nq": NQUADS, ".rdf": RDFXML, ".owl": RDFXML, ".xml": RDFXML,
    ".jsonld": JSONLD, ".n3": N3, ".hdt": HDT,
}  # fmt: skip


def without_compression(name: str) -> str:
    """A name without the suffix of a compressed file."""
    return name[: len(name) - len(suffix_of(name))]


def syntax_of(name: str) -> Optional[str]:
    """The syntax that a name's suffix says, before that of a compressed file, or None if it says nothing."""
    return SUFFIXES.get(os.path.splitext(without_compression(name))[1].lower())


def syntax_named(name: Optional[str]) -> Optional[str]:
    """A syntax by its name, or its suffix without the full stop. Raises ValueError for another word."""
    if name is None or name in TITLES:
        return name
    found = SUFFIXES.get(f".{name}")
    if found is None:
        raise ValueError(f"no such syntax: {name!r}; there are {', '.join(TITLES)}")
    return found
