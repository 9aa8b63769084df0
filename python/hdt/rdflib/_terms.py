"""Terms of rdflib and dictionary strings, each made from the other, and a bounded memory for what was made."""

from __future__ import annotations

import re
from collections.abc import Callable
from typing import Dict, Optional, TypeVar, Union

from rdflib.term import BNode, Literal, URIRef

Term = Union[URIRef, BNode, Literal]
K = TypeVar("K")
V = TypeVar("V")

XSD_STRING = "^^<http://www.w3.org/2001/XMLSchema#string>"
_TAG = re.compile("[a-zA-Z]+(?:-[a-zA-Z0-9]+)*")
_MANY = 1_024  # tags and datatypes that are kept


class Kept(Dict[K, V]):
    """Answers of a function that are kept, in two generations of at most `most` each.

    Where the younger generation is full, it becomes the older one, and the older one is forgotten.
    """

    def __init__(self, most: int, make: Callable[[K], V]) -> None:
        super().__init__()
        self.most, self.make = most, make
        self.older: dict[K, V] = {}

    def __missing__(self, key: K) -> V:
        value = self.older.get(key)
        return self.keep(key, self.make(key) if value is None else value)

    def known(self, key: K) -> Optional[V]:
        """The answer for a key if it is kept, else None."""
        value = self.get(key)
        if value is None:
            value = self.older.get(key)
            if value is not None:
                self.keep(key, value)
        return value

    def keep(self, key: K, value: V) -> V:
        """Keep an answer, and return it."""
        if len(self) >= self.most:
            self.older = dict(self)
            self.clear()
        self[key] = value
        return value


def term_of(string: str, scope: str = "") -> Term:
    """Return the term of rdflib for a dictionary string: a URIRef, a BNode or a Literal.

    A literal has the text of the string, also where rdflib would write the value in another way: `"01"` of xsd:integer
    stays `01`. `scope` is put before the label of a blank node. Raises ValueError for the string of no term: an empty
    one, or one that begins with a quote and doesn't end as a literal. The time is that of making the term.

    >>> term_of('"chat"@fr'), term_of("_:b", scope="f1-")
    (rdflib.term.Literal('chat', lang='fr'), rdflib.term.BNode('f1-b'))
    """
    if string.startswith('"'):
        return _literal_of(string)
    if string.startswith("_:"):
        return BNode(scope + string[2:])
    if not string:
        raise ValueError("an empty string is not a term")
    return str.__new__(URIRef, string)  # (URIRef(string) logs a warning of some IRIs, and takes longer)


def _literal_of(string: str) -> Literal:
    end = string.rindex('"')
    text, tail = string[1:end], string[end + 1:]
    if end and not tail.startswith("^^"):
        return _with_text(_like[tail], text)
    if end and tail.startswith("<", 2) and tail.endswith(">"):
        made = Literal(text, datatype=_datatype[tail], normalize=False)
        return made if str.__eq__(made, text) else _with_text(made, text)
    raise ValueError(f"not a term: {string!r}")


def _with_text(literal: Literal, text: str) -> Literal:
    """The literal with another text. (rdflib changes the text of xsd:token even if it is asked not to normalize.)"""
    made = str.__new__(Literal, text)
    for slot in Literal.__slots__:
        setattr(made, slot, getattr(literal, slot))
    if literal.datatype is None:
        setattr(made, "_value", text)
    return made


def _literal_like(tail: str) -> Literal:
    """An empty literal with what is behind the quotes of a string: nothing, or a language tag."""
    if tail and not (tail[0] == "@" and _TAG.fullmatch(tail, 1)):
        raise ValueError(f"no term ends with {tail!r}")
    return Literal("", lang=tail[1:] or None)


def _datatype_of(tail: str) -> URIRef:
    return str.__new__(URIRef, tail[3:-1])


_like: Kept[str, Literal] = Kept(_MANY, _literal_like)
_datatype: Kept[str, URIRef] = Kept(_MANY, _datatype_of)
