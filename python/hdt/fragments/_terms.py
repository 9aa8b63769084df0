"""Terms: dictionary strings as N-Triples, and the dictionary strings that a parameter of a request may mean."""

from __future__ import annotations

import itertools
import re
from collections.abc import Iterator
from typing import Optional
from urllib.parse import quote, unquote

Triple = tuple[str, str, str]
Pattern = tuple[Optional[str], Optional[str], Optional[str]]

ROLES = ("subject", "predicate", "object")

RDF = "http://www.w3.org/1999/02/22-rdf-syntax-ns#"
RDFS = "http://www.w3.org/2000/01/rdf-schema#"
XSD = "http://www.w3.org/2001/XMLSchema#"
HYDRA = "http://www.w3.org/ns/hydra/core#"
VOID = "http://rdfs.org/ns/void#"
DCTERMS = "http://purl.org/dc/terms/"
FOAF = "http://xmlns.com/foaf/0.1/"

_IRI_START = re.compile(r"[A-Za-z][A-Za-z0-9+.-]*:")
_PLAIN_IRI = r'[A-Za-z][A-Za-z0-9+.-]*:[^\x00-\x20<>"{}|^`\\]*'
_IRI = re.compile(_PLAIN_IRI + r"\Z")
_NOT_IN_IRI = re.compile(r'[\x00-\x20<>"{}|^`\\]')
_NOT_IN_TEXT = re.compile(r'[\\"\n\r]')
_TEXT_ESCAPES = {"\\": "\\\\", '"': '\\"', "\n": "\\n", "\r": "\\r"}
_TAG = r"@[A-Za-z]+(?:-[A-Za-z0-9]+)*"
_LABEL = re.compile(r"_:[^\s.<>\"@\\^`{|}-](?:[^\s<>\"@\\^`{|}]*[^\s.<>\"@\\^`{|}])?\Z")
# What follows the last quote of a literal, in a dictionary and in a request.
_STORED = re.compile(rf"(?:{_TAG}|\^\^<{_PLAIN_IRI}>)?\Z")
_ASKED = re.compile(rf'(?:{_TAG}|\^\^<([^<>"{{}}|^`\\\x00-\x20]+)>|\^\^([^<>"{{}}|^`\\\x00-\x20]+))?\Z')
# An IRI, or a literal without escapes.
_PLAIN = re.compile(rf'{_PLAIN_IRI}\Z|"[^\x00"\\\n\r]*"(?:{_TAG}|\^\^<{_PLAIN_IRI}>)?\Z')
_ESCAPE = re.compile(r"\\(?:([tbnrf\"'\\])|u([0-9A-Fa-f]{4})|U([0-9A-Fa-f]{8}))")
_CHARACTERS = {"t": "\t", "b": "\b", "n": "\n", "r": "\r", "f": "\f", '"': '"', "'": "'", "\\": "\\"}


def _percent(match: re.Match[str]) -> str:
    return "".join(f"%{byte:02X}" for byte in match[0].encode("utf-8", "surrogatepass"))


def iri_text(iri: str) -> str:
    """An IRI without brackets. A character that no IRI may have is percent-encoded."""
    return _NOT_IN_IRI.sub(_percent, iri)


def has_scheme(text: str) -> bool:
    """Whether a text begins as an absolute IRI does."""
    return _IRI_START.match(text) is not None


def parts(literal: str) -> tuple[str, str]:
    """The value of a literal, and what follows its last quote: nothing, a tag or a datatype."""
    end = literal.rindex('"')
    return literal[1:end], literal[end + 1:]


def spelled(term: str) -> str:
    """A dictionary string as a term of N-Triples, which is one of Turtle too."""
    if term.startswith('"'):
        value, suffix = parts(term)
        return f'"{escaped(value)}"{suffix}'
    return term if term.startswith("_:") else f"<{iri_text(term)}>"


def written(term: str) -> str:
    """A dictionary string that is known to be a term, as N-Triples."""
    if term.startswith('"'):
        end = term.rindex('"')
        return f'"{escaped(term[1:end])}{term[end:]}' if _NOT_IN_TEXT.search(term, 1, end) else term
    return term if term.startswith("_:") else f"<{term}>"


def escaped(value: str) -> str:
    """The value of a literal as N-Triples writes it."""
    return _NOT_IN_TEXT.sub(lambda match: _TEXT_ESCAPES[match[0]], value)


def is_term(string: str, role: int) -> bool:
    """Whether a dictionary string is a term of N-Triples in this role. Files of other programs may have others."""
    if string.startswith('"'):
        end = string.rindex('"')
        return role == 2 and end > 0 and "\0" not in string and _STORED.match(string, end + 1) is not None
    if string.startswith("_:"):
        return role != 1 and _LABEL.match(string) is not None
    return _IRI.match(string) is not None


def are_plain(strings: list[str], role: int) -> bool:
    """Whether all are terms in this role, and no blank nodes, that N-Triples writes without an escape."""
    return all(map((_PLAIN if role == 2 else _IRI).match, strings))


def _unescaped(match: re.Match[str]) -> str:
    if match[1]:
        return _CHARACTERS[match[1]]
    code = int(match[2] or match[3], 16)
    return chr(code) if code < 0x110000 and not 0xD800 <= code < 0xE000 else match[0]


def _tags(tag: str) -> Iterator[str]:
    """A language tag as it is, and with each part in lower case, upper case and with a capital.

    A client may fold the case of a tag, and a dictionary does not. A tag of more than four parts is taken as it is.
    """
    yield tag
    parts = tag.split("-")
    if len(parts) <= 4:
        yield from map("-".join, itertools.product(*((part.lower(), part.upper(), part.title()) for part in parts)))


def literals(text: str) -> Iterator[str]:
    """The dictionary strings that a literal of a request may mean, the likeliest first.

    The last quote ends its value, which is raw or has the escapes of N-Triples. A datatype has brackets or none.
    """
    end = text.rindex('"')
    found = _ASKED.match(text, end + 1) if end else None
    if found is None:
        return
    value, suffix = text[1:end], text[end + 1:]
    if datatype := found[1] or found[2]:
        suffixes = ([""] if datatype == XSD + "string" else []) + [f"^^<{datatype}>"]
    else:
        suffixes = ["@" + tag for tag in _tags(suffix[1:])] if suffix else ["", f"^^<{XSD}string>"]
    for one_value in dict.fromkeys((value, _ESCAPE.sub(_unescaped, value))):
        for one_suffix in dict.fromkeys(suffixes):
            yield f'"{one_value}"{one_suffix}'


def skolem_iri(label: str, prefix: str) -> str:
    """The IRI of a blank node, by the prefix of its dataset."""
    return prefix + quote(label[2:], safe="")


def named(term: str, prefix: str) -> str:
    """A dictionary string; the IRI of a blank node, if there is a prefix."""
    return skolem_iri(term, prefix) if prefix and term.startswith("_:") else term


def blank_node(iri: str, prefix: str) -> Optional[str]:
    """The blank node of an IRI with the prefix of a dataset, or None for another IRI."""
    if not prefix or not iri.startswith(prefix):
        return None
    return "_:" + unquote(iri[len(prefix):])


def quoted(term: str) -> str:
    """A term as the value of a parameter in a URL."""
    return quote(term, safe=":/")


def integer(number: int) -> str:
    """A number as a literal."""
    return f'"{number}"^^<{XSD}integer>'
