"""Data and statements about it, in each format of RDF.

Data is N-Triples lines where the format takes them. The statements are in a graph of their own where the format has
graphs. Those of the form, which are the same for all pages of a dataset, come apart from those of the page: what is
written of them is kept.
"""

from __future__ import annotations

import functools
import json
import re
from collections.abc import Iterable
from itertools import chain
from typing import Any

from hdt.fragments import _terms as terms
from hdt.fragments._formats import JSONLD, NQUADS, NTRIPLES, TRIG, TURTLE
from hdt.fragments._terms import Triple

Form = tuple[Triple, ...]

_SPACES = {
    "rdf": terms.RDF, "hydra": terms.HYDRA, "void": terms.VOID, "dcterms": terms.DCTERMS, "foaf": terms.FOAF,
    "xsd": terms.XSD,
}
_HEAD = "".join(f"@prefix {name}: <{space}> .\n" for name, space in _SPACES.items())
_VOCABULARY = re.compile("|".join(rf"(?P<{name}>{re.escape(space)})" for name, space in _SPACES.items()))
_LOCAL = re.compile(r"[A-Za-z]+\Z")


def _short(term: str) -> str:
    """A term of Turtle, with a prefix where it is of a known vocabulary."""
    found = _VOCABULARY.match(term)
    if found and _LOCAL.match(term, found.end()):
        return f"{found.lastgroup}:{term[found.end():]}"
    if term.endswith(f'"^^<{terms.XSD}integer>'):
        return term[1:term.rindex('"')]
    return terms.spelled(term)


_known = functools.lru_cache(256)(_short)


def _grouped(triples: Iterable[Triple]) -> str:
    """Triples in Turtle, with the statements of one subject together."""
    subjects: dict[str, list[str]] = {}
    for s, p, o in triples:
        subjects.setdefault(s, []).append(f"\n    {_known(p)} {_short(o)}")
    return "".join([f"\n{_short(s)}{' ;'.join(parts)} .\n" for s, parts in subjects.items()])


@functools.lru_cache(64)
def _grouped_form(form: Form) -> str:
    return _grouped(form)


def turtle(lines: str, form: Form, statements: list[Triple], graph: str) -> str:
    """Turtle: the data, then the form and the statements about the page."""
    return f"{_HEAD}\n{lines}{_grouped_form(form)}{_grouped(statements)}"


def trig(lines: str, form: Form, statements: list[Triple], graph: str) -> str:
    """TriG."""
    return f"{_HEAD}\n{lines}\n<{terms.iri_text(graph)}> {{{_grouped_form(form)}{_grouped(statements)}}}\n"


def _line(triple: Triple) -> str:
    return " ".join(map(terms.spelled, triple))


@functools.lru_cache(64)
def _form_lines(form: Form) -> list[str]:
    return [_line(triple) for triple in form]


def ntriples(lines: str, form: Form, statements: list[Triple], graph: str) -> str:
    """N-Triples."""
    return lines + "".join([f"{each} .\n" for each in chain(_form_lines(form), map(_line, statements))])


def nquads(lines: str, form: Form, statements: list[Triple], graph: str) -> str:
    """N-Quads."""
    end = f" <{terms.iri_text(graph)}> .\n"
    return lines + "".join([each + end for each in chain(_form_lines(form), map(_line, statements))])


LINES = {TURTLE: turtle, TRIG: trig, NTRIPLES: ntriples, NQUADS: nquads}


def _name(term: str) -> str:
    return term if term.startswith("_:") else terms.iri_text(term)


def _value(term: str) -> dict[str, str]:
    if not term.startswith('"'):
        return {"@id": _name(term)}
    value, suffix = terms.parts(term)
    if suffix.startswith("@"):
        return {"@value": value, "@language": suffix[1:]}
    return {"@value": value, "@type": suffix[3:-1]} if suffix else {"@value": value}


def _nodes(triples: list[Triple]) -> list[dict[str, Any]]:
    nodes: dict[str, dict[str, Any]] = {}
    for s, p, o in triples:
        node = nodes.setdefault(s, {"@id": _name(s)})
        node.setdefault(_name(p), []).append(_value(o))
    return list(nodes.values())


def jsonld(data: list[Triple], form: Form, statements: list[Triple], graph: str) -> str:
    """JSON-LD, expanded, so that no context has to be fetched."""
    controls = [{"@id": terms.iri_text(graph), "@graph": _nodes([*form, *statements])}] if statements else []
    whole = [*_nodes(data), *controls]
    return json.dumps(whole, ensure_ascii=False, separators=(",", ":")) + "\n"


__all__ = ["JSONLD", "LINES", "jsonld"]
