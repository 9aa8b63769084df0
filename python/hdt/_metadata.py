"""The header of a file: N-Triples about its graph, by VoID and Dublin Core."""

from __future__ import annotations

import datetime
import re
from collections.abc import Callable, Iterable, Iterator, Mapping
from contextlib import ExitStack
from typing import Any, Optional, Union

from ._calls import Path
from ._files import with_header
from ._graph import Graph
from ._library import Made
from ._terms import Term

# A text, a date or a time, or a term.
Value = Union[str, datetime.date, Term]
# One value, or several.
Values = Union[Value, Iterable[Value]]

RDF_TYPE = "http://www.w3.org/1999/02/22-rdf-syntax-ns#type"
_HDT_DATASET = "http://purl.org/HDT/hdt#Dataset"
_VOID = "http://rdfs.org/ns/void#"
DCTERMS = "http://purl.org/dc/terms/"
_XSD = "http://www.w3.org/2001/XMLSchema#"
# The classes of a dataset, the likeliest of the graph itself first.
DATASETS = (_HDT_DATASET, _VOID + "Dataset", "http://www.w3.org/ns/dcat#Dataset")
_BASE = "http://example.org/dataset"
_NAMED = re.compile(rf"<([^>]*)> <{re.escape(RDF_TYPE)}> <{re.escape(_HDT_DATASET)}> \.")
_IRI = re.compile(r"[A-Za-z][A-Za-z0-9+.-]*:[^\x00-\x20<>\"{}|^`\\]+")
_DATE = re.compile(r"\d{4}-\d\d-\d\d")


def _literal(value: str) -> Term:
    """A text as a plain literal."""
    return Term("literal", value)


def _node(value: str) -> Term:
    """A text that is an absolute IRI as an IRI, any other as a plain literal."""
    return Term("iri", value) if _IRI.fullmatch(value) else _literal(value)


def _day(value: str) -> Term:
    """A text that is a date as xsd:date, any other as a plain literal."""
    return Term("literal", value, datatype=_XSD + "date") if _DATE.fullmatch(value) else _literal(value)


_PROPERTIES: dict[str, Callable[[str], Term]] = {
    "title": _literal,
    "description": _literal,
    "license": _node,
    "publisher": _node,
    "creator": _node,
    "source": _node,
    "issued": _day,
    "created": _day,
    "modified": _day,
}


def _term(value: Value, of_text: Callable[[str], Term]) -> Term:
    """A value as a term. Raises TypeError for another object, ValueError for a text that no literal has."""
    if isinstance(value, Term):
        return value
    if isinstance(value, datetime.datetime):
        return Term("literal", value.isoformat(), datatype=_XSD + "dateTime")
    if isinstance(value, datetime.date):
        return Term("literal", value.isoformat(), datatype=_XSD + "date")
    if not isinstance(value, str):
        raise TypeError(f"a str, a date or a Term is wanted, not {type(value).__name__}")
    return of_text(value)


def _each(values: Optional[Values]) -> Iterator[Value]:
    if values is None:
        return
    if isinstance(values, (str, datetime.date, Term)):
        yield values
    else:
        yield from values


def _classes(graph: Graph) -> int:
    """How many different objects the property rdf:type has."""
    return len({number for _, _, number in graph.find_ids(p=RDF_TYPE)})


def _void(graph: Graph) -> Iterator[tuple[str, Term]]:
    """VoID's numbers of a graph."""
    numbers = {
        "triples": len(graph),
        "distinctSubjects": graph.count("subject"),
        "properties": graph.count("predicate"),
        "distinctObjects": graph.count("object"),
        "classes": _classes(graph),
    }
    for name, number in numbers.items():
        yield _VOID + name, Term("literal", str(number), datatype=_XSD + "integer")


def _name_of(graph: Graph) -> str:
    """The IRI that the header gives the graph."""
    named = _NAMED.match(graph.header.decode("utf-8", "replace"))
    return named[1] if named else _BASE


def metadata(
    graph: Union[Graph, Path],
    *,
    title: Optional[Values] = None,
    description: Optional[Values] = None,
    license: Optional[Values] = None,
    publisher: Optional[Values] = None,
    creator: Optional[Values] = None,
    source: Optional[Values] = None,
    issued: Optional[Values] = None,
    created: Optional[Values] = None,
    modified: Optional[Values] = None,
    properties: Optional[Mapping[str, Values]] = None,
    base: Optional[str] = None,
) -> str:
    """Describe a graph, or the file at a path: N-Triples for its header, which `rewrite` takes.

    They name the graph (`base`; without it as in its header, if `build` made that, else http://example.org/dataset) as
    an hdt:Dataset and a void:Dataset, with VoID's numbers: triples, different subjects, properties and objects, and
    classes, the objects of rdf:type. `rewrite` a file first if no triple uses some of its strings: these are counted,
    too. The time is that of `open` and linear in the triples with rdf:type.

    The other arguments, which `build` takes, too, are properties of Dublin Core, each with a value or several: `Term`s,
    dates, times or texts. A text that is an absolute IRI is one for `license`, `publisher`, `creator` and `source`; for
    `issued`, `created` and `modified` 2026-11-29 is a date; other texts are plain literals, as are all of `properties`,
    which has more by their IRIs. Errors: those of `open`, ValueError for texts that no term has, TypeError.

    >>> text = hdt.metadata("graph.hdt", title="Examples", license="https://creativecommons.org/publicdomain/zero/1.0/")
    >>> hdt.rewrite("graph.hdt", "described.hdt", header=text).triples
    3
    """
    given = {name: value for name, value in locals().items() if name not in ("graph", "base")}
    lines = _lines(given)
    with ExitStack() as kept:
        opened = graph if isinstance(graph, Graph) else kept.enter_context(Graph._of_file(graph, None))
        text = _text(opened, base, lines)
    return text


def _lines(given: Mapping[str, Any]) -> list[str]:
    """The lines of keywords of `metadata`, without their subject. Raises TypeError, ValueError."""
    if unknown := set(given) - {*_PROPERTIES, "properties"}:
        names = ", ".join([*_PROPERTIES, "properties"])
        raise TypeError(f"metadata has no {min(unknown)!r}: it may have {names}")
    pairs: list[tuple[str, Term]] = []
    for name, of_text in _PROPERTIES.items():
        pairs += [(DCTERMS + name, _term(value, of_text)) for value in _each(given.get(name))]
    for iri, values in (given.get("properties") or {}).items():
        pairs += [(iri, _term(value, _literal)) for value in _each(values)]
    return list(map(_line, pairs))


def _line(pair: tuple[str, Term]) -> str:
    """A property and its value as N-Triples."""
    return f"{Term('iri', pair[0]).format_ntriples()} {pair[1].format_ntriples()} .\n"


def _text(graph: Graph, base: Optional[str], lines: Iterable[str]) -> str:
    """The header of a graph: what it is, its numbers, and lines about it."""
    named = Term("iri", _name_of(graph) if base is None else base).format_ntriples()
    kinds = [(RDF_TYPE, Term("iri", _HDT_DATASET)), (RDF_TYPE, Term("iri", _VOID + "Dataset"))]
    return "".join(f"{named} {line}" for line in (*map(_line, [*kinds, *_void(graph)]), *lines))


class Header:
    """The header that a file gets as it is built: a text, or what keywords of `metadata` say."""

    def __init__(self, text: Union[str, bytes, None], keywords: Optional[Mapping[str, Any]]) -> None:
        """Raises ValueError for both, or for values that are no terms, TypeError."""
        if text is not None and keywords is not None:
            raise ValueError("a header is given as a text or by metadata, not by both")
        self._text, self._lines = text, None if keywords is None else _lines(keywords)

    def put(self, made: Made, other: Made) -> Made:
        """Write a built file with the header to `other`, or as it is without a header. Raises LineFault."""
        text = self._text
        if self._lines is not None:
            with Graph(made.view()) as graph:
                text = _text(graph, None, self._lines)
        if text is None:
            return made
        with_header(made.view(), other, text)
        return other
