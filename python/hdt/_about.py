"""What the header of a file says of its graph, for servers that show it. Nothing checks a header."""

from __future__ import annotations

from collections.abc import Iterator
from typing import Optional

from ._files import built
from ._graph import Graph
from ._library import Made
from ._metadata import DATASETS, DCTERMS, RDF_TYPE

# Properties of Dublin Core that are shown.
NAMES = ("title", "description", "license", "rights", "publisher", "creator", "source", "issued", "created", "modified")
_SPACES = (DCTERMS, "http://purl.org/dc/elements/1.1/")
_PUBLICATION = "http://purl.org/HDT/hdt#publicationInformation"
_LARGEST, _MOST, _LONGEST = 1024 * 1024, 5, 2_000  # bytes of a header, values of a property, characters of a value


def said_of(header: bytes) -> dict[str, list[str]]:
    """The values that a header gives the graph for the properties in `NAMES`, as dictionary strings: IRIs and literals.

    There are none if it isn't N-Triples, has more than 1 MiB, or names several datasets. Values of over 2,000
    characters, and those after the first five of a property, are left out. A title or a description without a language
    comes first, then an English one. Raises MemoryError.
    """
    if len(header) > _LARGEST:
        return {}
    with Made() as made:
        try:
            built(header, made, "x:", 16)
        except ValueError:
            return {}
        with Graph(made.view()) as graph:
            subject = _dataset(graph)
            found = {} if subject is None else {name: _values(graph, subject, name) for name in NAMES}
    return {name: values for name, values in found.items() if values}


def _dataset(graph: Graph) -> Optional[str]:
    """The dataset that a header is about, or None if there are several."""
    for kind in DATASETS:
        found = [s for s, _, _ in graph.find(p=RDF_TYPE, o=kind, limit=2)]
        if found:
            return found[0] if len(found) == 1 else None
    return graph.string("subject", 1) if graph.count("subject") == 1 else None


def _values(graph: Graph, subject: str, name: str) -> list[str]:
    """The values of a property, which other programs give to a node for the publication."""
    nodes = [subject, *(o for _, _, o in graph.find(subject, _PUBLICATION, limit=_MOST) if not o.startswith('"'))]
    found = (o for node in nodes for space in _SPACES for o in _short(graph, node, space + name))
    return sorted(dict.fromkeys(found), key=_rank)[:_MOST]


def _short(graph: Graph, subject: str, predicate: str) -> Iterator[str]:
    """The values that are terms by themselves, and not too long."""
    for _, _, o in graph.find(subject, predicate):
        if len(o) <= _LONGEST and not o.startswith("_:"):
            yield o


def _rank(value: str) -> int:
    """The place of a value among others, by its language."""
    language = value.rpartition('"')[2].lower() if value.startswith('"') else ""
    return 0 if not language.startswith("@") else 1 if language.startswith("@en") else 2
