"""Terms: dictionary strings and N-Triples, taken apart and put together."""

from __future__ import annotations

import re
import sys
from dataclasses import dataclass
from typing import Literal, Optional, Union

from ._documented import Documented

Kind = Literal["iri", "blank", "literal"]

_XSD_STRING = "http://www.w3.org/2001/XMLSchema#string"
_HALVES = "\ud800-\udfff"  # halves of pairs, which are no characters
_NOT_IN_IRI = rf'\x00-\x20<>"{{}}|^`\\{_HALVES}'
_BASE = (
    "A-Za-z\u00c0-\u00d6\u00d8-\u00f6\u00f8-\u02ff\u0370-\u037d\u037f-\u1fff\u200c-\u200d\u2070-\u218f\u2c00-\u2fef"
    "\u3001-\ud7ff\uf900-\ufdcf\ufdf0-\ufffd\U00010000-\U000effff_:0-9"
)
_MORE = _BASE + "\u00b7\u0300-\u036f\u203f-\u2040-"
_UCHAR = r"\\u[0-9A-Fa-f]{4}|\\U[0-9A-Fa-f]{8}"
_TAG = "[A-Za-z]+(?:-[A-Za-z0-9]+)*"

_IRI = re.compile(f"[A-Za-z][A-Za-z0-9+.-]*:[^\0{_HALVES}]*")  # of a dictionary
_STRICT_IRI = re.compile(f"[A-Za-z][A-Za-z0-9+.-]*:[^{_NOT_IN_IRI}]*")  # of N-Triples
_LABEL = re.compile(f"[{_BASE}](?:[{_MORE}.]*[{_MORE}])?")
_LANGUAGE = re.compile(_TAG)
_TEXT = re.compile(f"[^\0{_HALVES}]*")
_SPELLED = re.compile(
    rf"<(?P<iri>(?:[^{_NOT_IN_IRI}]|{_UCHAR})*)>"
    r"|_:(?P<blank>.*)"
    rf'|"(?P<literal>(?:[^\0"\\\n\r]|\\[tbnrf"\'\\]|{_UCHAR})*)"'
    rf"(?:[ \t]*(?:@(?P<language>{_TAG})|\^\^[ \t]*<(?P<datatype>(?:[^{_NOT_IN_IRI}]|{_UCHAR})*)>))?",
    re.DOTALL,
)
_ESCAPE = re.compile(r"\\(?:u(.{4})|U(.{8})|(.))")
_CHARACTERS = {"t": "\t", "b": "\b", "n": "\n", "r": "\r", "f": "\f", '"': '"', "'": "'", "\\": "\\"}
_ESCAPED = str.maketrans({"\\": "\\\\", '"': '\\"', "\n": "\\n", "\r": "\\r"})
_ESCAPED_IN_IRI = {code: f"\\u{code:04X}" for code in [*range(0x21), *map(ord, '<>"{}|^`\\')]}


_WHY = {  # why the text of a term is none
    "iri": "not an absolute IRI",
    "blank": "not the label of a blank node",
    "literal": "it has U+0000 or half of a surrogate pair",
}


def _no_term(text: str, why: str) -> ValueError:
    return ValueError(f"not a term: {text!r}: {why}")


def _why_not_ntriples(text: str) -> str:
    """Why a text that does not have the form of a term of N-Triples doesn't."""
    if text.startswith("<"):
        return "no > at the end" if not text.endswith(">") else "a character or an escape that no IRI has"
    if text.startswith('"'):
        return "not a text in quotation marks, and then nothing, a language tag or ^^ and a datatype"
    return "an IRI begins with <, a literal with a quotation mark, a blank node with _:"


def _unescaped(text: str) -> str:
    """A text without its escapes. Raises ValueError for one of no character."""
    try:
        return _ESCAPE.sub(lambda it: _CHARACTERS[it[3]] if it[3] else chr(int(it[1] or it[2], 16)), text)
    except (ValueError, OverflowError):
        raise _no_term(text, "an escape of no character") from None


def _unescaped_iri(text: str) -> str:
    """The same of an IRI. Raises ValueError if there are characters then that no IRI of N-Triples has."""
    iri = _unescaped(text)
    if not _STRICT_IRI.fullmatch(iri):
        raise _no_term(text, "not an absolute IRI of N-Triples")
    return iri


@dataclass(frozen=True)
class Term(metaclass=Documented):
    """A term: an IRI, a blank node or a literal. Terms with the same fields are equal. Its calls take linear time.

    `kind` is `"iri"`, `"blank"` or `"literal"`. `lexical` is the IRI, the label without `_:`, or the text of the
    literal, without escapes. A literal may have a `language` or a `datatype`, an IRI; no case is folded, no number
    normalized. Raises ValueError if it is not a term: an IRI has to be absolute, a label, a tag and a datatype those of
    N-Triples; no text has U+0000. An IRI that isn't a datatype may have a space, or the like, as some files have.

    >>> hdt.Term("literal", "chat", language="fr").format()
    '"chat"@fr'
    """

    kind: Kind
    lexical: str
    language: Optional[str] = None
    datatype: Optional[str] = None

    def __post_init__(self) -> None:
        of_kind = {"iri": _IRI, "blank": _LABEL, "literal": _TEXT}.get(self.kind)
        if of_kind is None:
            raise ValueError(f"no such kind: {self.kind!r}")
        if (self.language, self.datatype) != (None, None):
            if self.kind != "literal" or None not in (self.language, self.datatype):
                raise ValueError("only a literal has a language or a datatype, and not both")
            if not _LANGUAGE.fullmatch(self.language or "x") or not _STRICT_IRI.fullmatch(self.datatype or "x:"):
                raise _no_term(self.language or self.datatype or "", "not a language tag, or a datatype's IRI")
            if "" in (self.language, self.datatype):
                raise _no_term("", "not a language tag, or a datatype's IRI")
        if not of_kind.fullmatch(self.lexical):
            if self.kind == "iri" and self.lexical.startswith("<"):
                raise _no_term(self.lexical, "an IRI of a dictionary string has no brackets")
            raise _no_term("_:" * (self.kind == "blank") + self.lexical, _WHY[self.kind])

    @classmethod
    def parse(cls, string: str) -> Term:
        """Take a dictionary string apart. Raises TypeError, and ValueError for a string that isn't a term.

        >>> hdt.Term.parse('"1"^^<http://www.w3.org/2001/XMLSchema#integer>').lexical
        '1'
        """
        string = string_of(string)
        if not string.startswith('"'):
            return cls("blank", string[2:]) if string.startswith("_:") else cls("iri", string)
        end = string.rindex('"')
        text, tail = string[1:end], string[end + 1 :]
        if end and not tail:
            return cls("literal", text)
        if end and tail.startswith("@"):
            return cls("literal", text, language=tail[1:])
        if end and tail.startswith("^^<") and tail.endswith(">"):
            return cls("literal", text, datatype=tail[3:-1])
        raise _no_term(string, "not a text in quotation marks, and then nothing, @ and a language tag, or ^^<datatype>")

    def format(self) -> str:
        """The dictionary string, by which it is looked up and found: the inverse of `parse`.

        >>> hdt.Term("blank", "b").format()
        '_:b'
        """
        return self._put(self.lexical, "", "")

    @classmethod
    def parse_ntriples(cls, text: str) -> Term:
        """Read a term of N-Triples, without anything around it. The datatype xsd:string is dropped. Raises ValueError.

        >>> hdt.Term.parse_ntriples("<http://a/b>").format()
        'http://a/b'
        """
        found = _SPELLED.fullmatch(text)
        if found is None:
            raise _no_term(text, _why_not_ntriples(text))
        iri, label, literal, language, datatype = found.groups()
        if label is not None:
            return cls("blank", label)
        if iri is not None:
            return cls("iri", _unescaped_iri(iri))
        kind = None if datatype is None else _unescaped_iri(datatype)
        return cls("literal", _unescaped(literal), language, None if kind == _XSD_STRING else kind)

    def format_ntriples(self) -> str:
        """The term as N-Triples. An IRI's characters that N-Triples excludes get escapes, which `build` refuses.

        >>> print(hdt.Term("literal", 'a "quoted" word').format_ntriples())
        "a \\"quoted\\" word"
        """
        return self._put(self.lexical.translate(_ESCAPED if self.kind == "literal" else _ESCAPED_IN_IRI), "<", ">")

    def _put(self, text: str, left: str, right: str) -> str:
        if self.kind == "blank":
            return "_:" + text
        if self.kind == "iri":
            return left + text + right
        if self.language is not None:
            return f'"{text}"@{self.language}'
        return f'"{text}"' if self.datatype is None else f'"{text}"^^<{self.datatype}>'


def string_of(term: Union[str, Term]) -> str:
    """The dictionary string of a term: a str, which is one, a Term, or a URIRef, BNode or Literal of rdflib.

    Raises TypeError for anything else, and ValueError for a term of rdflib that no dictionary string has.
    """
    if type(term) is str:
        return term
    if isinstance(term, Term):
        return term.format()
    if isinstance(term, getattr(sys.modules.get("rdflib.term"), "Identifier", ())):
        from . import _rdflib_terms

        string = _rdflib_terms.string_of(term)
        if string is not None:
            return string
        if isinstance(term, _rdflib_terms.TERMS):
            raise ValueError(f"no dictionary string is that of {term!r}")
    elif isinstance(term, str):
        return str.__str__(term)
    raise TypeError(f"a term is a str, an hdt.Term or a term of rdflib, not {type(term).__name__}")
