"""Dictionary strings of terms of rdflib. It imports rdflib, so it is only imported if a term of rdflib is there."""

from __future__ import annotations

from typing import Optional

from rdflib.term import BNode, Literal, URIRef

TERMS = (URIRef, BNode, Literal)


def string_of(term: object, scope: str = "") -> Optional[str]:
    """Return the dictionary string of a term of rdflib, or None for what no file can have as a term.

    That is anything but a URIRef, a BNode or a Literal; a URIRef that is empty or would be read as another kind of
    term, as it begins with a quote or `_:`; a datatype with a quote; a blank node whose label doesn't begin with
    `scope`. It is the inverse of `term_of`. The time is linear in the string.

    >>> string_of(URIRef("u:a")), string_of(Literal(1)), string_of("u:a")
    ('u:a', '"1"^^<http://www.w3.org/2001/XMLSchema#integer>', None)
    """
    # (the methods of str itself: rdflib's terms have some with other parameters)
    if isinstance(term, URIRef):
        return None if str.startswith(term, ('"', "_:")) or not len(term) else str.__str__(term)
    if isinstance(term, Literal):
        text = str.__str__(term)
        if term.language:
            return f'"{text}"@{term.language}'
        if term.datatype is None:
            return f'"{text}"'
        return None if '"' in str(term.datatype) else f'"{text}"^^<{term.datatype!s}>'
    if isinstance(term, BNode):
        return "_:" + str(term)[len(scope):] if str.startswith(term, scope) else None
    return None
