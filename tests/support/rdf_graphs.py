"""Random graphs as dictionary strings and as terms of rdflib, and both kinds of graph made of them.

The terms are made from the parts of a drawn term, not from its string: so they don't depend on what is tested.
"""

from __future__ import annotations

import tempfile
import warnings
from collections.abc import Callable, Iterable, Iterator
from contextlib import ExitStack, contextmanager
from pathlib import Path
from typing import Any, NamedTuple, Optional
from unittest import mock

import rdflib
from hypothesis import strategies as st
from rdflib import BNode, Graph, Literal, URIRef
from rdflib.plugins.sparql import CUSTOM_EVALS

from reference import hdt as reference
from support.rdflib_package import options, paths, store

XSD = "http://www.w3.org/2001/XMLSchema#"
RDF = "http://www.w3.org/1999/02/22-rdf-syntax-ns#"
MODES = ["rdflib", "ids", "tables"]


class Drawn(NamedTuple):
    """A term: its dictionary string, and the term of rdflib."""

    string: str
    term: Any


Row = tuple[Drawn, Drawn, Drawn]


@contextmanager
def exact() -> Iterator[None]:
    """rdflib makes literals with the text that they are given, also those of xsd:token."""

    def same(text: str) -> str:
        return text

    with mock.patch.object(rdflib, "NORMALIZE_LITERALS", False), \
            mock.patch.object(rdflib.term, "_normalise_XSD_STRING", same), \
            mock.patch.object(rdflib.term, "_strip_and_collapse_whitespace", same):
        yield


def iri(text: str) -> Drawn:
    """An IRI."""
    return Drawn(text, URIRef(text))


def blank(label: str) -> Drawn:
    """A blank node."""
    return Drawn(f"_:{label}", BNode(label))


def plain(text: str) -> Drawn:
    """A literal without a tag or a datatype."""
    return Drawn(f'"{text}"', Literal(text))


def tagged(text: str, tag: str) -> Drawn:
    """A literal with a language tag."""
    return Drawn(f'"{text}"@{tag}', Literal(text, lang=tag))


def typed(text: str, datatype: str) -> Drawn:
    """A literal with a datatype."""
    with exact():
        return Drawn(f'"{text}"^^<{datatype}>', Literal(text, datatype=URIRef(datatype)))


IRIS = [iri(text) for text in (
    *("u:a", "u:b", "http://a/b", "http://a/b#", "http://a/\u00e9", "http://a/b?c=%20d"),
    *("urn:x:" + "y" * 300, "u:_:b", "http://a/\U0001f600"))]
BLANKS = [blank(label) for label in ("b0", "B0", "a-b", "1x", "a.b", "b00")]
TEXTS = ["", '"', "\\", "\\t", "a\nb", "\t", "\u00e9", "\U0001f600", " x ", "@en", 'a"@en', "^^<u:t>", 'a"^^<u:t>', "1",
         "01", "1e0", "x", "c:\\temp\\new", "true", "\r", "\u2028", "\x85"]
VALUES = ["01", "+1", "1", "1e0", "yes", "2020-01-01T00:00:00Z", "2020-02-30", "a\tb", " a  b ", "<b>x</b >", "0aFF",
          "nonsense", ""]
TAGS = ["en", "en-US", "de", "zh-Hant-TW"]
TYPES = [XSD + name for name in "integer boolean date dateTime double decimal token normalizedString".split()]
TYPES += [XSD + "gYear", XSD + "hexBinary", "u:t", RDF + "XMLLiteral"]
PLAIN = [plain(text) for text in TEXTS]
TAGGED = [tagged(text, tag) for text in TEXTS for tag in TAGS]
with warnings.catch_warnings():
    warnings.simplefilter("ignore")  # (rdflib's of what is no boolean)
    TYPED = [typed(text, datatype) for text in [*VALUES, *TEXTS] for datatype in TYPES]
CASES = [str.lower, str.upper, str.title]
TWINS = [tagged(text, change(tag)) for text in ("x", "") for tag in TAGS for change in CASES]
ABSENT = [iri("u:none"), blank("none"), plain("none"), tagged("x", "fr"), typed("1", "u:none"), iri("u:"),
          typed("1", XSD + "long")]


@st.composite
def rows(draw: Callable[..., Any], twins: bool = False, most: int = 40) -> list[Row]:
    """Different triples. With `twins` some literals are equal but for the case of their tags."""
    nodes = draw(st.lists(st.sampled_from(IRIS + BLANKS), min_size=2, max_size=8, unique=True))
    predicates = draw(st.lists(st.sampled_from(IRIS), min_size=1, max_size=4, unique=True))
    kinds = st.sampled_from(PLAIN) | st.sampled_from(TAGGED) | st.sampled_from(TYPED)
    literals = draw(st.lists(st.sampled_from(TWINS) | kinds if twins else kinds, min_size=1, max_size=12))
    node, other = st.sampled_from(nodes), st.sampled_from(nodes + literals)
    triples: list[Row] = draw(
        st.lists(st.tuples(node, st.sampled_from(predicates), other), min_size=1, max_size=most, unique=True))
    return triples


def strings(triples: Iterable[Row]) -> list[tuple[bytes, bytes, bytes]]:
    """The strings of triples, as the reference takes them."""
    return [(s.string.encode(), p.string.encode(), o.string.encode()) for s, p, o in triples]


def written(folder: Path, triples: Iterable[tuple[bytes, bytes, bytes]], name: str = "graph") -> Path:
    """The reference's file of triples of strings, be they terms or not."""
    path = folder / f"{name}.hdt"
    path.write_bytes(reference.graph(sorted(set(triples)), b"http://a/").data)
    return path


def in_memory(triples: Iterable[Row]) -> Graph:
    """The triples in rdflib's own store."""
    graph = Graph()
    for s, p, o in triples:
        graph.add((s.term, p.term, o.term))
    return graph


@contextmanager
def stored(triples: Iterable[Row], **options: Any) -> Iterator[Graph]:
    """A graph over the file of these triples."""
    with tempfile.TemporaryDirectory() as folder:
        with store.HDTStore(written(Path(folder), strings(triples)), **options) as it:
            yield Graph(it)


@contextmanager
def evaluated(mode: str) -> Iterator[None]:
    """Queries are evaluated in a mode: by rdflib alone, or over IDs.

    In the mode `tables` the triples of a pattern are read into a table at its first search for a bound term.
    """
    before = dict(CUSTOM_EVALS)
    CUSTOM_EVALS.pop("hdt", None)
    if mode in ("ids", "tables"):
        store.plan_sparql()
    due: dict[str, Any] = {"_DUE": 1, "_READ": 100_000}
    try:
        with ExitStack() as stack:
            for module in [options, paths] if mode == "tables" else []:
                stack.enter_context(mock.patch.multiple(module, **due))
            yield
    finally:
        CUSTOM_EVALS.clear()
        CUSTOM_EVALS.update(before)


def from_turtle(text: str) -> tuple[Graph, list[Row]]:
    """A document in Turtle: in rdflib's store, and as triples."""
    graph = Graph()
    with exact():
        graph.parse(data=text, format="turtle")
    return graph, [(drawn(s), drawn(p), drawn(o)) for s, p, o in graph]


def drawn(term: Any) -> Drawn:
    """A term of rdflib with its dictionary string."""
    if isinstance(term, URIRef):
        return Drawn(str(term), term)
    if isinstance(term, BNode):
        return Drawn(f"_:{term}", term)
    tail: Optional[str] = f"@{term.language}" if term.language else f"^^<{term.datatype}>" if term.datatype else ""
    return Drawn(f'"{term}"{tail}', term)
