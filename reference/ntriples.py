"""N-Triples: terms, lines and documents, and the strings that a dictionary keeps of terms.

This is a small reading of the W3C Recommendation "RDF 1.1 N-Triples", with the choices that docs/NTRIPLES.md lists. It
is written from the grammar with regular expressions over decoded text. A text that has an error raises one exception:
the first error from left to right. Columns count bytes from 1, lines count from 1.
"""

from __future__ import annotations

import re
from collections.abc import Iterator
from dataclasses import dataclass
from enum import IntEnum
from typing import NamedTuple, Optional, Union

# ---- errors


class Reason(IntEnum):
    """Why a text is no term, no line or no document."""

    Syntax = 1
    NotUtf8 = 2
    BadEscape = 3
    RelativeIri = 4
    IriCharacter = 5
    ZeroCharacter = 6
    Read = 7
    OutOfMemory = 8
    TooLong = 9


class TermError(Exception):
    """The first error of a text, with its column."""

    def __init__(self, reason: Reason, column: int) -> None:
        super().__init__(f"{reason.name} at column {column}")
        self.reason, self.column = reason, column


class LineError(Exception):
    """The first error of a document, with its line and column."""

    def __init__(self, reason: Reason, line: int, column: int) -> None:
        super().__init__(f"{reason.name} at line {line} column {column}")
        self.reason, self.line, self.column = reason, line, column


class NotATerm(Exception):
    """A dictionary string that belongs to no term."""


# ---- terms


@dataclass(frozen=True)
class Iri:
    """An IRI, without its angle brackets."""

    text: str


@dataclass(frozen=True)
class Blank:
    """A blank node, by its label without `_:`."""

    label: str


@dataclass(frozen=True)
class Literal:
    """A literal: its text without escapes, and a language tag, a datatype or neither."""

    text: str
    tag: Optional[str] = None
    datatype: Optional[str] = None


Term = Union[Iri, Blank, Literal]


class Triple(NamedTuple):
    """Subject, predicate and object."""

    s: Term
    p: Term
    o: Term


# ---- characters and tokens

BLANKS = " \t"
IRI_EXCLUDES = "".join(map(chr, range(0x21))) + '<>"{}|^`\\'
STRING_EXCLUDES = '"\\\n\r\0'
XSD_STRING = "http://www.w3.org/2001/XMLSchema#string"

PN_CHARS_BASE = (
    "A-Za-z\u00C0-\u00D6\u00D8-\u00F6\u00F8-\u02FF\u0370-\u037D\u037F-\u1FFF\u200C-\u200D\u2070-\u218F"
    "\u2C00-\u2FEF\u3001-\uD7FF\uF900-\uFDCF\uFDF0-\uFFFD\U00010000-\U000EFFFF"
)
PN_CHARS_U = PN_CHARS_BASE + "_:"
PN_CHARS = PN_CHARS_U + "\\-0-9\u00B7\u0300-\u036F\u203F-\u2040"

LABEL = re.compile(f"[{PN_CHARS_U}0-9](?:[{PN_CHARS}.]*[{PN_CHARS}])?")
TAG = re.compile("[A-Za-z]+(?:-[A-Za-z0-9]+)*")
ABSOLUTE = re.compile("[A-Za-z][A-Za-z0-9+.-]*:")
NO_BLANKS = re.compile(f"[{BLANKS}]*")
UCHAR = re.compile(r"\\u([0-9A-Fa-f]{4})|\\U([0-9A-Fa-f]{8})")
ECHAR = dict(zip("tbnrf\"'\\", "\t\b\n\r\f\"'\\"))
IRI_RUN = re.compile(f"[^{re.escape(IRI_EXCLUDES)}]*")
STRING_RUN = re.compile(f"[^{re.escape(STRING_EXCLUDES)}]*")


def is_absolute(iri: str) -> bool:
    """Whether an IRI begins with a scheme and a colon."""
    return ABSOLUTE.match(iri) is not None


def is_iri(data: bytes) -> bool:
    """Whether these bytes are an absolute IRI without excluded characters."""
    try:
        text = data.decode()
    except UnicodeDecodeError:
        return False
    return is_absolute(text) and IRI_RUN.fullmatch(text) is not None


class Reader:
    """Reads tokens of a text from left to right; `at` is the index of the next character."""

    def __init__(self, data: bytes) -> None:
        try:
            self.text = data.decode()
        except UnicodeDecodeError as error:
            raise TermError(Reason.NotUtf8, error.start + 1) from None
        self.at = 0

    @property
    def next(self) -> str:
        """The next character, or the empty string at the end."""
        return self.text[self.at:self.at + 1]

    def error(self, reason: Reason, at: Optional[int] = None) -> TermError:
        """An error at this index, or else at the next character."""
        before = self.text[:self.at if at is None else at]
        return TermError(reason, len(before.encode()) + 1)

    def skip(self, token: str) -> bool:
        """Skip this token if it is next."""
        found = self.text.startswith(token, self.at)
        self.at += len(token) * found
        return found

    def match(self, pattern: re.Pattern[str]) -> Optional[str]:
        """Take what the pattern matches here, if it does."""
        found = pattern.match(self.text, self.at)
        if found is None:
            return None
        self.at = found.end()
        return found[0]

    def skip_blanks(self) -> None:
        """Skip tabs and spaces."""
        self.match(NO_BLANKS)

    # -- tokens

    def escape(self, in_iri: bool) -> str:
        """The character of the escape here."""
        found = UCHAR.match(self.text, self.at)
        if found is None:
            letter = self.text[self.at + 1:self.at + 2]
            if in_iri or letter not in ECHAR:
                raise self.error(Reason.BadEscape)
            self.at += 2
            return ECHAR[letter]
        value = int(found[1] or found[2], 16)
        if value > 0x10FFFF or 0xD800 <= value <= 0xDFFF:
            raise self.error(Reason.BadEscape)
        if value == 0:
            raise self.error(Reason.ZeroCharacter)
        if in_iri and chr(value) in IRI_EXCLUDES:
            raise self.error(Reason.IriCharacter)
        self.at = found.end()
        return chr(value)

    def iri(self) -> str:
        """An absolute IRI between angle brackets, which begins here."""
        start = self.at
        self.at += 1
        parts = []
        while True:
            parts.append(self.match(IRI_RUN) or "")
            if self.next == "\\":
                parts.append(self.escape(in_iri=True))
            elif self.skip(">"):
                break
            else:
                raise self.error(Reason.Syntax)
        iri = "".join(parts)
        if not is_absolute(iri):
            raise self.error(Reason.RelativeIri, start)
        return iri

    def string(self) -> str:
        """A text between quotes, which begins here."""
        self.at += 1
        parts = []
        while True:
            parts.append(self.match(STRING_RUN) or "")
            if self.next == "\\":
                parts.append(self.escape(in_iri=False))
            elif self.skip('"'):
                return "".join(parts)
            elif self.next == "\0":
                raise self.error(Reason.ZeroCharacter)
            else:
                raise self.error(Reason.Syntax)

    def blank(self) -> Blank:
        """A blank node, which begins here."""
        start = self.at
        label = self.match(LABEL) if self.skip("_:") else None
        if label is None:
            raise self.error(Reason.Syntax, start)
        return Blank(label)

    def literal(self) -> Literal:
        """A literal, which begins here. Blanks after its text belong to it only where `@` or `^` follows."""
        text = self.string()
        text_end = self.at
        self.skip_blanks()
        start = self.at
        if self.skip("@"):
            tag = self.match(TAG)
            if tag is None:
                raise self.error(Reason.Syntax, start)
            return Literal(text, tag=tag)
        if self.skip("^"):
            if not self.skip("^"):
                raise self.error(Reason.Syntax, start)
            self.skip_blanks()
            if self.next != "<":
                raise self.error(Reason.Syntax)
            datatype = self.iri()
            return Literal(text, datatype=None if datatype == XSD_STRING else datatype)
        self.at = text_end
        return Literal(text)

    # -- terms and lines

    def term(self, begins: str) -> Term:
        """A term that begins with one of these characters."""
        if self.next == "" or self.next not in begins:
            raise self.error(Reason.Syntax)
        if self.next == "<":
            return Iri(self.iri())
        return self.blank() if self.next == "_" else self.literal()

    def is_bare(self) -> bool:
        """Whether nothing is left, or a comment."""
        return self.next in ("", "#")

    def end_of_line(self) -> None:
        """Blanks, and then nothing or a comment."""
        self.skip_blanks()
        if not self.is_bare():
            raise self.error(Reason.Syntax)


SUBJECT, PREDICATE, OBJECT = ROLES = "<_", "<", '<_"'


def parse_term(data: bytes) -> Term:
    """The term that a text spells, with nothing before or after it."""
    reader = Reader(data)
    term = reader.term(OBJECT)
    if reader.next:
        raise reader.error(Reason.Syntax)
    return term


def parse_line(data: bytes) -> Optional[Triple]:
    """The triple of a line, or None where it has only blanks and a comment."""
    reader = Reader(data)
    reader.skip_blanks()
    if reader.is_bare():
        return None
    terms = []
    for begins in ROLES:
        reader.skip_blanks()
        terms.append(reader.term(begins))
    reader.skip_blanks()
    if not reader.skip("."):
        raise reader.error(Reason.Syntax)
    reader.end_of_line()
    return Triple(*terms)


# ---- documents


def lines(data: bytes, limit: Optional[int] = None, fails: Optional[int] = None) -> Iterator[tuple[int, bytes]]:
    """The lines of an input, each with its number, without their ends.

    A carriage return and a line feed each end a line; together they count as one for the numbers. The input may have
    `limit` bytes. A reader that fails once it has given `fails` bytes never comes to the end of the input.
    """
    given = data if fails is None else data[:fails]
    *whole, rest = re.split(rb"(?<=[\r\n])", given[:limit])
    ends, before = 0, b""
    for line in whole:
        if not (line == b"\n" and before.endswith(b"\r")):
            ends += 1
        yield ends, line[:-1]
        before = line
    if limit is not None and len(given) > limit:
        raise LineError(Reason.TooLong, ends + 1, 0)
    if fails is not None and fails <= len(data):
        raise LineError(Reason.Read, ends + 1, 0)
    yield ends + 1, rest


def triples(data: bytes, limit: Optional[int] = None, fails: Optional[int] = None) -> Iterator[Triple]:
    """The triples of a document, in its order, up to the first error."""
    for number, line in lines(data, limit, fails):
        try:
            triple = parse_line(line)
        except TermError as error:
            raise LineError(error.reason, number, error.column) from None
        if triple is not None:
            yield triple


def read_document(data: bytes, limit: Optional[int] = None,
                  fails: Optional[int] = None) -> tuple[list[Triple], Optional[LineError]]:
    """The triples of a document before its first error, and this error or None."""
    found = []
    try:
        for triple in triples(data, limit, fails):
            found.append(triple)
    except LineError as error:
        return found, error
    return found, None


# ---- requests

Asked = tuple[Optional[bytes], Optional[bytes], Optional[bytes]]

RAW_ESCAPES = {b"\\\\": b"\\", b"\\n": b"\n", b"\\r": b"\r", b"\\t": b"\t"}


def parse_request(data: bytes) -> Optional[Asked]:
    """What a line asks for, as dictionary strings: None for `?`. A bare line asks for nothing."""
    reader = Reader(data)
    reader.skip_blanks()
    if reader.is_bare():
        return None
    asked: list[Optional[bytes]] = []
    for begins in ROLES:
        reader.skip_blanks()
        asked.append(None if reader.skip("?") else term_string(reader.term(begins)))
    reader.skip_blanks()
    reader.skip(".")
    reader.end_of_line()
    s, p, o = asked
    return s, p, o


def parse_raw_request(data: bytes) -> Optional[Asked]:
    """The same of a line of three strings with one tab between them, with escapes of backslash, line end and tab."""
    reader = Reader(data)
    reader.skip_blanks()
    if reader.is_bare():
        return None
    strings = [bytearray()]
    at = 0
    while at < len(data):
        if data[at:at + 1] == b"\t":
            if len(strings) == 3:
                raise TermError(Reason.Syntax, at + 1)
            strings.append(bytearray())
            at += 1
        elif data[at:at + 1] == b"\\":
            if data[at:at + 2] not in RAW_ESCAPES:
                raise TermError(Reason.BadEscape, at + 1)
            strings[-1] += RAW_ESCAPES[data[at:at + 2]]
            at += 2
        else:
            strings[-1] += data[at:at + 1]
            at += 1
    if len(strings) < 3:
        raise TermError(Reason.Syntax, at + 1)
    s, p, o = (None if string == b"?" else bytes(string) for string in strings)
    return s, p, o


# ---- dictionary strings


def term_string(term: Term) -> bytes:
    """The string that a dictionary keeps for a term."""
    if isinstance(term, Iri):
        return term.text.encode()
    if isinstance(term, Blank):
        return b"_:" + term.label.encode()
    return f'"{term.text}"{suffix(term)}'.encode()


def suffix(literal: Literal) -> str:
    """What follows the closing quote of a literal."""
    if literal.tag is not None:
        return "@" + literal.tag
    return "" if literal.datatype is None else f"^^<{literal.datatype}>"


def string_term(string: bytes) -> Term:
    """The term that a dictionary string belongs to. An IRI may hold characters here that N-Triples excludes."""
    try:
        text = string.decode()
    except UnicodeDecodeError:
        raise NotATerm(string) from None
    if "\0" in text:
        raise NotATerm(string)
    if text.startswith('"'):
        return literal_of(text)
    if text.startswith("_:") and LABEL.fullmatch(text, 2):
        return Blank(text[2:])
    if is_absolute(text):
        return Iri(text)
    raise NotATerm(string)


def literal_of(text: str) -> Literal:
    """The literal of a string that begins with a quote: its last quote ends the text."""
    end = text.rindex('"')
    inside, after = text[1:end], text[end + 1:]
    if end > 0 and after == "":
        return Literal(inside)
    if end > 0 and after.startswith("@") and TAG.fullmatch(after, 1):
        return Literal(inside, tag=after[1:])
    if end > 0 and after.startswith("^^<") and after.endswith(">") and is_iri(after[3:-1].encode()):
        return Literal(inside, datatype=after[3:-1])
    raise NotATerm(text.encode())


# ---- writing

WRITTEN = str.maketrans({"\\": "\\\\", '"': '\\"', "\n": "\\n", "\r": "\\r"})
IRI_WRITTEN = str.maketrans({c: f"\\u{ord(c):04X}" for c in IRI_EXCLUDES})


def put_term(term: Term) -> bytes:
    """The one N-Triples text that is written for a term."""
    if isinstance(term, Iri):
        return f"<{term.text.translate(IRI_WRITTEN)}>".encode()
    if isinstance(term, Blank):
        return b"_:" + term.label.encode()
    return f'"{term.text.translate(WRITTEN)}"{suffix(term)}'.encode()


def put_triple(triple: Triple) -> bytes:
    """The line that is written for a triple."""
    return b" ".join(map(put_term, triple)) + b" .\n"


def put_strings(strings: tuple[bytes, bytes, bytes]) -> bytes:
    """The line that is written for a triple of dictionary strings."""
    return b" ".join(put_term(string_term(string)) for string in strings) + b" .\n"


def triple_strings(triple: Triple) -> tuple[bytes, bytes, bytes]:
    """The dictionary strings of a triple."""
    s, p, o = map(term_string, triple)
    return s, p, o
