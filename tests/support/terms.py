"""Hypothesis strategies for N-Triples: terms, their spellings, lines, documents, and texts with errors.

Also the answers that a probe gives for what the reference reads.
"""

from __future__ import annotations

import zlib
from collections.abc import Sequence
from typing import Union

from hypothesis import strategies as st

from reference import ntriples
from reference.ntriples import Blank, Iri, LineError, Literal, Term, TermError, Triple
from support.probe import Answer, Argument, Probe, fault
from support.probe import spelled as token

# ---- requests and answers of a probe

Request = tuple[Argument, ...]
Case = tuple[Request, Answer]


def error_answer(error: Union[TermError, LineError]) -> Answer:
    """The answer for an error of the reference."""
    if isinstance(error, TermError):
        return fault(error.reason, error.column)
    return fault(error.reason, error.line, error.column)


def term_values(term: Term) -> tuple[Argument, ...]:
    """A term as the probe prints it: its kind and its texts."""
    if isinstance(term, Iri):
        return "iri", term.text.encode()
    if isinstance(term, Blank):
        return "blank", term.label.encode()
    if term.tag is not None:
        return "literal", term.text.encode(), "tag", term.tag.encode()
    if term.datatype is not None:
        return "literal", term.text.encode(), "datatype", term.datatype.encode()
    return "literal", term.text.encode(), "plain"


# ---- characters

# The first and last characters of the ranges that a label may have, and their neighbours.
LABEL_EDGES = "".join(map(chr, [
    *(0x2C, 0x2D, 0x2F, 0x30, 0x39, 0x3A, 0x3B, 0x40, 0x41, 0x5A, 0x5B, 0x5F, 0x60, 0x61, 0x7A, 0x7B, 0xB6, 0xB7, 0xB8),
    *(0xBF, 0xC0, 0xD6, 0xD7, 0xD8, 0xF6, 0xF7, 0xF8, 0x2FF, 0x300, 0x36F, 0x370, 0x37D, 0x37E, 0x37F, 0x1FFF, 0x2000),
    *(0x200B, 0x200C, 0x200D, 0x200E, 0x203E, 0x203F, 0x2040, 0x2041, 0x206F, 0x2070, 0x218F, 0x2190, 0x2BFF, 0x2C00),
    *(0x2FEF, 0x2FF0, 0x3000, 0x3001, 0xD7FF, 0xE000, 0xF8FF, 0xF900, 0xFDCF, 0xFDD0, 0xFDEF, 0xFDF0, 0xFFFD, 0xFFFE),
    *(0xFFFF, 0x10000, 0xEFFFF, 0xF0000),
]))
# Characters that the grammar treats in a way of their own, and others of every length in UTF-8.
SPECIAL = "\t\n\r\f\b\v \x1f!\"'#.<>@\\^_`{|}~\x7f\x80a0-:?\u00e9\u20ac\uffff\U0001f600\U0010ffff"
ANY = st.sampled_from(SPECIAL) | st.characters(min_codepoint=1, blacklist_categories=["Cs"])
IRI_CHARACTERS = st.sampled_from([char for char in SPECIAL if char not in ntriples.IRI_EXCLUDES]) | st.characters(
    min_codepoint=1, blacklist_categories=["Cs"], blacklist_characters=ntriples.IRI_EXCLUDES)
COMMENT_CHARACTERS = st.sampled_from([char for char in SPECIAL if char not in "\r\n"])

SCHEMES = st.sampled_from(["u", "http", "Z", "z", "a1", "A+-.9", "urn", "x.y"])
TAGS = st.sampled_from(["en", "en-GB", "A", "z", "Z", "de-0", "zz-A9-z", "a-9"])


# ---- terms

IRIS = st.builds("{}:{}".format, SCHEMES, st.text(IRI_CHARACTERS, max_size=6))
# Some IRIs come often, so that a string is used in several roles.
FEW_IRIS = st.sampled_from([f"u:{c}" for c in "abcd"]) | st.sampled_from(["http://a/", "http://a/b", "u:\u00e9"])
LABELS = st.text(st.sampled_from("ab_:0.-" + LABEL_EDGES), min_size=1, max_size=6).filter(ntriples.LABEL.fullmatch)
FEW_LABELS = st.sampled_from(["a", "b", "a.b", "0"])
TEXTS = st.text(ANY, max_size=6)
DATATYPES = IRIS | FEW_IRIS  # None of them is that of strings, which a term does not have.


# Named functions: Hypothesis looks up the source of a lambda at each draw, which takes long.
def tagged(text: str, tag: str) -> Literal:
    """A literal with a language tag."""
    return Literal(text, tag=tag)


def typed(text: str, datatype: str) -> Literal:
    """A literal with a datatype."""
    return Literal(text, datatype=datatype)


def text_of(pair: tuple[bytes, Term]) -> bytes:
    """The first of a pair."""
    return pair[0]


iri_terms = st.builds(Iri, FEW_IRIS | IRIS)
blank_terms = st.builds(Blank, FEW_LABELS | LABELS)
literals = st.builds(Literal, TEXTS) | st.builds(tagged, TEXTS, TAGS) | st.builds(typed, TEXTS, DATATYPES)
terms: st.SearchStrategy[Term] = st.one_of(iri_terms, blank_terms, literals)
subjects: st.SearchStrategy[Term] = st.one_of(iri_terms, blank_terms)
triples = st.builds(Triple, subjects, iri_terms, terms)

# ---- spellings

BLANKS = st.sampled_from(["", " ", "\t", " \t", "  "])
SHORT = {char: f"\\{letter}" for letter, char in ntriples.ECHAR.items()}
ESCAPED = st.sampled_from([frozenset(), frozenset({0}), frozenset({1, 2}), frozenset({0, 3, 4}), frozenset(range(9))])
WAYS = st.integers(0, 19)


def spell_text(draw: st.DrawFn, text: str, excluded: str, short: bool) -> str:
    """Draw a spelling of a text: escapes for the characters that are excluded, and for some others."""
    escaped = draw(ESCAPED)
    parts = []
    for at, char in enumerate(text):
        if char not in excluded and at not in escaped:
            parts.append(char)
            continue
        ways = [f"\\U{ord(char):08X}", f"\\U{ord(char):08x}"]
        if ord(char) <= 0xFFFF:
            ways += [f"\\u{ord(char):04x}", f"\\u{ord(char):04X}"]
        if short and char in SHORT:
            ways.append(SHORT[char])
        parts.append(ways[draw(WAYS) % len(ways)])
    return "".join(parts)


def spell(draw: st.DrawFn, term: Term) -> str:
    """Draw one of the N-Triples texts that spell a term."""
    if isinstance(term, Blank):
        return f"_:{term.label}"
    if isinstance(term, Iri):
        return f"<{spell_text(draw, term.text, ntriples.IRI_EXCLUDES, False)}>"
    string = f'"{spell_text(draw, term.text, ntriples.STRING_EXCLUDES, True)}"'
    if term.tag is not None:
        return f"{string}{draw(BLANKS)}@{term.tag}"
    if term.datatype is None and draw(st.booleans()):
        return string
    iri = spell(draw, Iri(term.datatype or ntriples.XSD_STRING))
    return f"{string}{draw(BLANKS)}^^{draw(BLANKS)}{iri}"


def spell_line(draw: st.DrawFn, triple: Triple) -> str:
    """Draw one of the lines that spell a triple, without its end."""
    parts = [draw(BLANKS)]
    for term in triple:
        parts += [spell(draw, term), draw(BLANKS)]
    return "".join([*parts, ".", draw(BARE)])


COMMENTS = st.text(COMMENT_CHARACTERS, max_size=4).map("#{}".format)
BARE = st.builds("{}{}".format, BLANKS, st.just("") | COMMENTS)
LINE_ENDS = st.sampled_from(["\n", "\r", "\r\n", "\n\n"])


@st.composite
def spellings(draw: st.DrawFn) -> tuple[bytes, Term]:
    """A text that spells a term, and this term."""
    term = draw(terms)
    return spell(draw, term).encode(), term


@st.composite
def documents(draw: st.DrawFn, most: int = 4) -> tuple[bytes, list[Triple]]:
    """A document and its triples: bare lines between them, any spellings and any line ends."""
    found = draw(st.lists(triples, max_size=most))
    parts = []
    for triple in found:
        if draw(st.integers(0, 3)) == 0:
            parts += [draw(BARE), draw(LINE_ENDS)]
        parts += [spell_line(draw, triple), draw(LINE_ENDS)]
    if draw(st.booleans()):
        parts = parts[:-1]
    return "".join(parts).encode(), found


# ---- texts with errors

# Bytes that begin, continue or end a token, or that are allowed nowhere; and whole tokens.
PARTS = [
    *(b"<", b">", b"u:", b"a", b"0", b"1:a", b"_:", b"_", b".", b".", b'"', b'"', b"@", b"@en", b"-", b"^", b"^^"),
    *(b"\\", b"\\u", b"\\u00", b"41", b"\\u0041", b"\\U0011", b"\\t", b" ", b" ", b"\t", b"\n", b"\r", b"\r\n", b"#"),
    *(b"?", b"\0", b"\x0b", b"{", b"\xef\xbb\xbf", b"\xc3\xa9", b"\xcc\x80", b"\xf0\x9f\x98\x80"),
    *(b"<u:a>", b"<u:b>", b"_:b", b'"x"', b'"x"@en', b'"x"^^<u:t>', b"<rel>", b"<u:a> <u:p> ", b"<u:a> <u:p> <u:b> ."),
]
ESCAPES = [
    *(b"\\u0020", b"\\U0000003C", b"\\u007d", b"\\u0000", b"\\U00000000", b"\\uD800", b"\\uDFFF", b"\\U00110000"),
    *(b"\\n", b"\\\\", b"\\'", b"\\x", b"\\u00e9", b"\\U0010FFFF", b"\\u12"),
]
NO_UTF8 = [b"\xff", b"\xc3", b"\xa9", b"\xed\xa0\x80", b"\xf0\x9f"]
fragments = st.sampled_from(PARTS * 4 + ESCAPES * 8 + NO_UTF8 * 2)
soups = st.lists(fragments, max_size=8).map(b"".join)
escape_soups = st.lists(st.sampled_from([b"u:", b"a", *ESCAPES]), max_size=5).map(b"".join)
term_soups = st.builds(b"<%s>".__mod__, escape_soups) | st.builds(b'"%s"'.__mod__, escape_soups)


def damage(draw: st.DrawFn, text: bytes) -> bytes:
    """Draw a text with one or two changes: bytes inserted, left out or replaced; or the text cut off."""
    data = bytearray(text)
    for _ in range(draw(st.integers(1, 2))):
        at = draw(st.integers(0, len(data)))
        size = draw(st.integers(0, 2))
        data[at:at + size] = draw(fragments)
    return bytes(data[:draw(st.integers(0, len(data)))] if draw(st.integers(0, 7)) == 0 else data)


@st.composite
def damaged(draw: st.DrawFn, texts: st.SearchStrategy[bytes]) -> bytes:
    """One of these texts with one or two changes."""
    return damage(draw, draw(texts))


def term_texts() -> st.SearchStrategy[bytes]:
    """Texts that spell a term, texts with an error or two, and texts of fragments."""
    valid = spellings().map(text_of)
    return st.one_of(valid, damaged(valid), soups, term_soups)


@st.composite
def line_texts(draw: st.DrawFn) -> bytes:
    """A line: a triple, maybe with an error or two, a comment, or a text of fragments, which may be more lines."""
    kind = draw(st.sampled_from("ttttbed"))
    if kind == "b":
        return draw(BARE).encode()
    if kind == "e":
        return draw(soups)
    valid = spell_line(draw, draw(triples)).encode()
    return valid if kind == "t" else damage(draw, valid)


@st.composite
def document_texts(draw: st.DrawFn) -> bytes:
    """A few lines with any ends."""
    parts = []
    for line in draw(st.lists(line_texts(), max_size=4)):
        parts += [line, draw(LINE_ENDS).encode()]
    return b"".join(parts[:-1] if draw(st.booleans()) else parts)


def strings() -> st.SearchStrategy[bytes]:
    """Dictionary strings of terms, foreign ones, and byte strings that belong to no term."""
    foreign = st.builds("{}:{}".format, SCHEMES, TEXTS).map(str.encode)
    valid = terms.map(ntriples.term_string)
    return st.one_of(valid, foreign, damaged(valid), soups)


# ---- readers in pieces

STEPS = st.sampled_from([1, 2, 3, 7, 64, 1_000_000])


# ---- large terms

LARGE = b"b" * 140_000

# The text of a term before and after many bytes, and the same of its dictionary string.
LARGE_TERMS = [
    (b"<u:", b">", b"u:", b""),
    (b"_:a", b"", b"_:a", b""),
    (b'"', b'"', b'"', b'"'),
    (b'"x"@e', b"", b'"x"@e', b""),
    (b'"x"^^<u:', b">", b'"x"^^<u:', b">"),
    (b'"', b'"^^<u:t>', b'"', b'"^^<u:t>'),
    (b'"', b'"@en', b'"', b'"@en'),
    (rb'"\u00e9', rb'\t"', b'"\xc3\xa9', b'\t"'),
]


# ---- comparing


def answered(probe: Probe, cases: Sequence[Case]) -> list[Case]:
    """These requests with the answers of a probe: equal to the cases if it answers as they say."""
    requests = [request for request, _ in cases]
    return [(request, tuple(answer)) for request, answer in zip(requests, probe.send(*requests))]


def short(value: Argument) -> str:
    """A value as the probe prints it, but a long one by its beginning, its length and its CRC."""
    printed = token(value)
    return printed if len(printed) <= 100 else f"{printed[:60]}..[{len(printed)} {zlib.crc32(printed.encode()):08x}]"


def shortened(cases: Sequence[Case]) -> list[tuple[tuple[str, ...], tuple[str, ...]]]:
    """Cases with long values shortened, so that a difference can be read."""
    return [(tuple(map(short, request)), tuple(map(short, answer))) for request, answer in cases]
