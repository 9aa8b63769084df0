"""Terms of N-Triples and their dictionary strings: reading, writing, and errors with their columns."""

from __future__ import annotations

import pytest
from hypothesis import example, given

from reference.ntriples import (
    Literal, NotATerm, Reason, Term, TermError, is_iri, parse_term, put_term, string_term, term_string,
)
from support.probe import Answer, Probe, fault, ok
from support.terms import (
    LARGE, LARGE_TERMS, Case, Request, answered, error_answer, shortened, spellings, strings, term_texts,
    term_values, terms,
)

# ---- what the reference says, as a probe answers it

NOT_A_TERM = "not", "a", "term"


def kind_of(written: bytes) -> str:
    """The kind of a term, by the first byte of its N-Triples text."""
    return {b"<": "iri", b"_": "blank", b'"': "literal"}[written[:1]]


def text_cases(text: bytes) -> list[Case]:
    """Each word that reads a text of N-Triples, with the answer of the reference."""
    try:
        term = parse_term(text)
    except TermError as error:
        answer = error_answer(error)
        # After an error the output is as it was.
        return [(("parse_term", text), answer), (("term_string", text), answer),
                (("parse_string", text, b"^^"), (*answer, b"^^".hex()))]
    string = term_string(term)
    return [(("parse_term", text), ok(*term_values(term))), (("term_string", text), ok(string)),
            (("parse_string", text, b"^^"), ok(b"^^" + string)), (("same_term", text, put_term(term)), ok(True))]


def string_cases(string: bytes) -> list[Case]:
    """Each word that reads a dictionary string, with the answer of the reference."""
    before = b"before "
    try:
        term = string_term(string)
    except NotATerm:
        return [(("string_term", string), NOT_A_TERM), (("put_term", string, before), NOT_A_TERM),
                (("put_string", string, before), (*NOT_A_TERM, before.hex()))]
    written = put_term(term)
    return [(("string_term", string), ok(*term_values(term))), (("put_term", string, before), ok(before + written)),
            (("put_string", string, before), ok(kind_of(written), before + written))]


# ---- worked rows

# A text, its dictionary string, and how the term is written.
TERMS = [
    ("<u:s>", "u:s", "<u:s>"),
    ("<a1+-.:>", "a1+-.:", "<a1+-.:>"),
    (r'<http://a/\u00e9\U0001F600>', "http://a/\xe9\U0001f600", "<http://a/\xe9\U0001f600>"),
    (r'<\u0075:s>', "u:s", "<u:s>"),
    (r'<u\u003As>', "u:s", "<u:s>"),
    ("<u:!~\x7f\x80>", "u:!~\x7f\x80", "<u:!~\x7f\x80>"),
    ("_:a", "_:a", "_:a"),
    ("_:a.b", "_:a.b", "_:a.b"),
    ("_:0..-\xe9", "_:0..-\xe9", "_:0..-\xe9"),
    ("_::_", "_::_", "_::_"),
    ('""', '""', '""'),
    ('"x"', '"x"', '"x"'),
    ('"x"@en', '"x"@en', '"x"@en'),
    ('"x"@en-US-1a', '"x"@en-US-1a', '"x"@en-US-1a'),
    ('"x" \t@de-0', '"x"@de-0', '"x"@de-0'),
    ('"x"^^<u:t>', '"x"^^<u:t>', '"x"^^<u:t>'),
    ('"x"\t^^ \t<u:t>', '"x"^^<u:t>', '"x"^^<u:t>'),
    ('"x"^^<http://www.w3.org/2001/XMLSchema#string>', '"x"', '"x"'),
    (r'"x"^^<http://www.w3.org/2001/XMLSchema\u0023string>', '"x"', '"x"'),
    ('"x"^^<http://www.w3.org/2001/XMLSchema#strings>',
     '"x"^^<http://www.w3.org/2001/XMLSchema#strings>',
     '"x"^^<http://www.w3.org/2001/XMLSchema#strings>'),
    (r'"a\"b\\c\n\"@en"', '"a"b\\c\n"@en"', r'"a\"b\\c\n\"@en"'),
    (r'"a\"@en\"^^<u:t>"@de', '"a"@en"^^<u:t>"@de', r'"a\"@en\"^^<u:t>"@de'),
    (r'"\"^^<u:t>"', '""^^<u:t>"', r'"\"^^<u:t>"'),
    ('"\\t\\b\\n\\r\\f\\"\\\'\\\\"', '"\t\x08\n\r\x0c"\'\\"', '"\t\x08\\n\\r\x0c\\"\'\\\\"'),
    (r'"\uD7FF\ue000"', '"\ud7ff\ue000"', '"\ud7ff\ue000"'),
    (r'"\U0010FFFF"', '"\U0010ffff"', '"\U0010ffff"'),
    (r'"\u0001\u007f\u0080"', '"\x01\x7f\x80"', '"\x01\x7f\x80"'),
    (r'"\u07FF\u0800\uFFFF\U00010000"', '"\u07ff\u0800\uffff\U00010000"', '"\u07ff\u0800\uffff\U00010000"'),
    (r'"\u0022@en"', '""@en"', r'"\"@en"'),
    ('"\xe9\t#<>"', '"\xe9\t#<>"', '"\xe9\t#<>"'),
]


@pytest.mark.parametrize("text, string, written", TERMS)
def test_terms(probe: Probe, text: str, string: str, written: str) -> None:
    """A text is read, and its term is written."""
    text_, string_, written_ = text.encode(), string.encode(), written.encode()
    cases: list[Case] = [
        (("term_string", text_), ok(string_)),
        (("parse_string", text_, b"^^"), ok(b"^^" + string_)),
        (("put_term", string_, b"before "), ok(b"before " + written_)),
        (("put_string", string_, b"before "), ok(kind_of(written_), b"before " + written_)),
        (("same_term", text_, written_), ok(True)),
    ]
    assert answered(probe, cases) == cases


@pytest.mark.parametrize("text, string, written", TERMS)
def test_reference_terms(text: str, string: str, written: str) -> None:
    """The reference reads and writes the same rows."""
    term = parse_term(text.encode())
    assert term_string(term) == string.encode()
    assert string_term(string.encode()) == term
    assert put_term(term) == written.encode()


Syntax, NotUtf8, BadEscape = Reason.Syntax, Reason.NotUtf8, Reason.BadEscape
RelativeIri, IriCharacter, ZeroCharacter = Reason.RelativeIri, Reason.IriCharacter, Reason.ZeroCharacter

# A text, and the column and the reason of its error.
ERRORS = [
    # The next byte begins no term, or follows one.
    (b"", 1, Syntax),
    (b"x", 1, Syntax),
    (b" <u:s>", 1, Syntax),
    (b"\x00", 1, Syntax),
    (b"<u:s> ", 6, Syntax),
    (b"<u:s>x", 6, Syntax),
    (b"_:a.", 4, Syntax),
    (b"_:a..", 4, Syntax),
    (b"_:a.b. ", 6, Syntax),
    (b'"x"x', 4, Syntax),
    (b'"x" ', 4, Syntax),
    (b'"x"@en ', 7, Syntax),
    (b'"x"@en-', 7, Syntax),
    (b'"x"@en--us', 7, Syntax),
    (b'"x"@e1', 6, Syntax),
    (b'"x"^^<u:t> ', 11, Syntax),
    (b'"x"^^', 6, Syntax),
    (b'"x"^^ u:t', 7, Syntax),
    (b'"x"^^\x0b<u:t>', 6, Syntax),
    # Within an IRI.
    (b"<", 2, Syntax),
    (b"<u:s", 5, Syntax),
    (b"<<u:s>", 2, Syntax),
    (b"<u: s>", 4, Syntax),
    (b"<u:s\n>", 5, Syntax),
    (b"<\x00u:s>", 2, Syntax),
    (b'"x"^^<u:t', 10, Syntax),
    # Within a string.
    (b'"', 2, Syntax),
    (b'"x', 3, Syntax),
    (b'"\n"', 2, Syntax),
    (b'"x\r"', 3, Syntax),
    (rb'"x\"', 5, Syntax),
    # What begins a token and doesn't go on.
    (b"_", 1, Syntax),
    (b"_x", 1, Syntax),
    (b"_:", 1, Syntax),
    (b"_:-a", 1, Syntax),
    (b"_:.", 1, Syntax),
    (b'"x"@', 4, Syntax),
    (b'"x"@-', 4, Syntax),
    (b'"x" @1', 5, Syntax),
    (b'"x"^', 4, Syntax),
    (b'"x"^<u:t>', 4, Syntax),
    (b'"x" \t^ ^<u:t>', 6, Syntax),
    # Escapes.
    (rb'<\n>', 2, BadEscape),
    (rb'<u:s\>', 5, BadEscape),
    (rb'<u:\u12', 4, BadEscape),
    (rb'<u:\ud800>', 4, BadEscape),
    (rb'"\x"', 2, BadEscape),
    (b'"\\', 2, BadEscape),
    (rb'"ab\u12"', 4, BadEscape),
    (rb'"\U0000003"', 2, BadEscape),
    (rb'"\uD800"', 2, BadEscape),
    (rb'"a\uDFFF"', 3, BadEscape),
    (rb'"\U00110000"', 2, BadEscape),
    (rb'"\UFFFFFFFF"', 2, BadEscape),
    (rb'"a" ^^ <\u00g0>', 9, BadEscape),
    (rb'"\u0000"', 2, ZeroCharacter),
    (rb'"ab\U00000000"', 4, ZeroCharacter),
    (b'"\x00"', 2, ZeroCharacter),
    (b'"ab\x00', 4, ZeroCharacter),
    (rb'<u:\u0000>', 4, ZeroCharacter),
    (rb'<\U00000000', 2, ZeroCharacter),
    (rb'<u:s\u0020>', 5, IriCharacter),
    (rb'<\u003e>', 2, IriCharacter),
    (rb'<u:\U0000003C', 4, IriCharacter),
    (rb'<rel\u0020>', 5, IriCharacter),
    # An IRI that isn't absolute, once its escapes are resolved.
    (b"<>", 1, RelativeIri),
    (b"<rel>", 1, RelativeIri),
    (b"<_:x>", 1, RelativeIri),
    (b"<1:a>", 1, RelativeIri),
    (rb'<\u0031:a>x', 1, RelativeIri),
    (b'"x"^^<rel>', 6, RelativeIri),
    (b'"x" ^^ <:>', 8, RelativeIri),
    # UTF-8 before all else.
    (b"\xff", 1, NotUtf8),
    (b"<u:\xc3>", 4, NotUtf8),
    (b"<rel> \xc3\xa9\xed\xa0\x80", 9, NotUtf8),
    (b'"x"@1 \xf0\x9f', 7, NotUtf8),
]


@pytest.mark.parametrize("text, column, reason", ERRORS)
def test_errors(probe: Probe, text: bytes, column: int, reason: Reason) -> None:
    """A text that spells no term, read with and without making a term: the output stays as it was."""
    answer = fault(reason, column)
    cases: list[Case] = [(("parse_term", text), answer), (("term_string", text), answer),
                         (("parse_string", text, b"^^"), (*answer, b"^^".hex()))]
    assert answered(probe, cases) == cases


@pytest.mark.parametrize("text, column, reason", ERRORS)
def test_reference_errors(text: bytes, column: int, reason: Reason) -> None:
    """The reference has the same errors."""
    with pytest.raises(TermError) as raised:
        parse_term(text)
    assert (raised.value.reason, raised.value.column) == (reason, column)


# An error as text.
PRINTED = [
    (("term_fault_text", 5, 5), b"IriCharacter at column 5"),
    (("term_fault_text", 2**64 - 1, 1), b"Syntax at column 18446744073709551615"),
    (("string_fault_text", "not_a_term"), b"not a term"),
    (("string_fault_text", "out_of_memory"), b"out of memory"),
]


@pytest.mark.parametrize("request_, text", PRINTED)
def test_printed_errors(probe: Probe, request_: Request, text: bytes) -> None:
    """Errors as text."""
    assert probe.ask(*request_) == ok(text)


# ---- characters

# Ranges of the characters that begin a label: the character before it, its first and last ones, and the one after it.
STARTS = [
    ('/', '0', '9', ';'),
    ('@', 'A', 'Z', '['),
    ('`', 'a', 'z', '{'),
    ('^', '_', '_', '`'),
    (';', ':', ':', ';'),
    ('\xbf', '\xc0', '\xd6', '\xd7'),
    ('\xd7', '\xd8', '\xf6', '\xf7'),
    ('\xf7', '\xf8', '\u02ff', '\u0300'),
    ('\u036f', '\u0370', '\u037d', '\u037e'),
    ('\u037e', '\u037f', '\u1fff', '\u2000'),
    ('\u200b', '\u200c', '\u200d', '\u200e'),
    ('\u206f', '\u2070', '\u218f', '\u2190'),
    ('\u2bff', '\u2c00', '\u2fef', '\u2ff0'),
    ('\u3000', '\u3001', '\ud7ff', '\ue000'),
    ('\uf8ff', '\uf900', '\ufdcf', '\ufdd0'),
    ('\ufdef', '\ufdf0', '\ufffd', '\ufffe'),
    ('\uffff', '\U00010000', '\U000effff', '\U000f0000'),
]
# Ranges of those that a label may have, but not first.
OTHERS = [
    (',', '-', '-', '/'),
    ('\xb6', '\xb7', '\xb7', '\xb8'),
    ('\u2190', '\u0300', '\u036f', '\u037e'),
    ('\u203e', '\u203f', '\u2040', '\u2041'),
]


def are_terms(probe: Probe, texts: list[str]) -> list[tuple[str, bool]]:
    """Whether each of these texts spells a term; the reference has to agree."""
    requests = [("parse_term", text.encode()) for text in texts]
    cases = [text_cases(text.encode())[0] for text in texts]
    assert answered(probe, cases) == cases
    return [(text, answer[0] == "ok") for text, answer in zip(texts, probe.send(*requests))]


@pytest.mark.parametrize("before, first, last, after", STARTS)
def test_label_starts(probe: Probe, before: str, first: str, last: str, after: str) -> None:
    """Both ends of a range begin a label, and their neighbours don't."""
    assert are_terms(probe, ["_:" + char for char in (before, first, last, after)]) == [
        ("_:" + before, False), ("_:" + first, True), ("_:" + last, True), ("_:" + after, False)]


@pytest.mark.parametrize("before, first, last, after", OTHERS)
def test_label_characters(probe: Probe, before: str, first: str, last: str, after: str) -> None:
    """Both ends of a range may follow in a label but not begin it, and their neighbours may not follow."""
    texts = [f"_:a{first}", f"_:a.{last}", f"_:a{before}", f"_:a{after}", f"_:{first}"]
    assert are_terms(probe, texts) == list(zip(texts, [True, True, False, False, False]))


def test_ascii_in_iris(probe: Probe) -> None:
    """Which ASCII characters an IRI may have, raw and as escapes, and U+0080."""
    excluded = [*range(0x21), *b'<>"{}|^`\\']
    cases: list[Case] = []
    for byte in range(0x81):
        iri = f"u:{chr(byte)}".encode()
        allowed = byte not in excluded
        cases.append((("is_iri", iri), ok(allowed)))
        escaped = b"<u:\\u%04X>" % byte
        reason = ZeroCharacter if byte == 0 else IriCharacter
        cases.append((("term_string", escaped), ok(iri) if allowed else fault(reason, 4)))
        assert is_iri(iri) == allowed
    assert answered(probe, cases) == cases


def test_ascii_in_strings(probe: Probe) -> None:
    """Which ASCII characters a string may have raw, and U+0080."""
    texts = [f'"{chr(byte)}"' for byte in range(0x81)]
    assert are_terms(probe, texts) == [(text, text[1] not in '\0"\\\n\r') for text in texts]


# A form, and characters that may and may not replace its `#`: both ends of the ranges of a scheme, of a tag's letters,
# of its later parts, and of hexadecimal digits.
ENDS = [
    ("<#:>", "AZaz", "@[`{09+-."),
    ("<a#:>", "AZaz09+-.", "@[`{/;,*"),
    ('"x"@#', "AZaz", "@[`{09-"),
    ('"x"@a-#', "AZaz09", "@[`{/:-"),
    ('"\\u10#0"', "09AFaf", "/:@G`g"),
]


@pytest.mark.parametrize("form, accepted, refused", ENDS)
def test_ranges(probe: Probe, form: str, accepted: str, refused: str) -> None:
    """The ends of the ranges of ASCII characters in tokens."""
    texts = [form.replace("#", char) for char in accepted + refused]
    assert are_terms(probe, texts) == [(text, at < len(accepted)) for at, text in enumerate(texts)]


IRIS = [
    (b"u:", True),
    (b"u:\xc3\xa9", True),
    (b"u:\xc3", False),
    (b"", False),
    (b"u", False),
    (b"rel/u:", False),
    (b"_:u", False),
    (rb'u:s\u0020', False),
]


@pytest.mark.parametrize("data, answer", IRIS)
def test_is_iri(probe: Probe, data: bytes, answer: bool) -> None:
    """Bytes that are an absolute IRI without excluded characters, and others."""
    assert (probe.ask("is_iri", data), is_iri(data)) == (ok(answer), answer)


# ---- dictionary strings

# Strings that belong to no term.
NONE = [
    b"",
    b"rel",
    b"1:a",
    b":",
    b'"',
    b'"a',
    b'"a"b',
    b'"a" ',
    b'"a"@',
    b'"a"@-',
    b'"a"@en-',
    b'"a"@e"n',
    b'"a"^',
    b'"a"^^u:t',
    b'"a"^^<u:t',
    b'"a"^^<rel>',
    b'"a"^^<u: t>',
    b"_:",
    b"_:a.",
    b"_:-",
    b"_a",
    b"u:\x00",
    b'"\x00"',
    b"u:\xff",
]
# Strings of terms that no N-Triples text spells, and what is written of them.
FOREIGN = [
    ("u:a b", r'<u:a\u0020b>'),
    ('u:\x01\x1f<>"{}|^`\\', r'<u:\u0001\u001F\u003C\u003E\u0022\u007B\u007D\u007C\u005E\u0060\u005C>'),
    ("u:>\x7f\xe9", "<u:\\u003E\x7f\xe9>"),
    ('"x"^^<http://www.w3.org/2001/XMLSchema#string>', '"x"^^<http://www.w3.org/2001/XMLSchema#string>'),
    ('"\n"@e"^^<u:t>', r'"\n\"@e"^^<u:t>'),
    ('"\r\\""^^<u:""', r'"\r\\\"\"^^<u:\""'),
]


@pytest.mark.parametrize("string", NONE)
def test_strings_of_no_term(probe: Probe, string: bytes) -> None:
    """A string that belongs to no term: nothing is written of it."""
    cases: list[Case] = [(("string_term", string), NOT_A_TERM), (("put_term", string, b"before"), NOT_A_TERM),
                         (("put_string", string, b"before"), (*NOT_A_TERM, b"before".hex()))]
    assert answered(probe, cases) == cases
    with pytest.raises(NotATerm):
        string_term(string)


@pytest.mark.parametrize("string, written", FOREIGN)
def test_foreign_strings(probe: Probe, string: str, written: str) -> None:
    """A string that only a dictionary can hold, and the text that is written of its term."""
    cases: list[Case] = [
        (("put_term", string.encode(), b"before "), ok(b"before " + written.encode())),
        (("put_string", string.encode(), b"before "), ok(kind_of(written.encode()), b"before " + written.encode())),
    ]
    assert answered(probe, cases) == cases
    assert put_term(string_term(string.encode())) == written.encode()


# ---- large texts

def test_long_literal(probe: Probe) -> None:
    """A literal of 100,000 bytes, with escaped characters between runs of every length up to 300."""
    characters, run = [], 0
    for i in range(100_000):
        if run == 0:
            characters.append('"\\\n\r'[i % 4])
            run = i % 301
        else:
            characters.append("a")
            run -= 1
    literal = Literal("".join(characters), tag="en")
    string = term_string(literal)
    written = b"before " + put_term(literal)
    assert len(string) == 100_005 and written.count(b"\\") > 600
    cases: list[Case] = [(("put_string", string, b"before "), ok("literal", written)),
                         (("put_term", string, b"before "), ok(written))]
    assert shortened(answered(probe, cases)) == shortened(cases)


@pytest.mark.parametrize("before, after, string_before, string_after", LARGE_TERMS)
def test_large_terms(probe: Probe, before: bytes, after: bytes, string_before: bytes, string_after: bytes) -> None:
    """A term of 140,000 bytes: read, copied, written and read again."""
    text, string = before + LARGE + after, string_before + LARGE + string_after
    term = parse_term(text)
    written = put_term(term)
    assert term_string(term) == string and parse_term(written) == string_term(string) == term
    cases: list[Case] = [
        (("term_string", text), ok(string)), (("string_term", string), ok(*term_values(term))),
        (("parse_term", text), ok(*term_values(term))), (("put_term", string, b""), ok(written)),
        (("parse_string", written, b""), ok(string)), (("same_term", text, written), ok(True)),
        (("parse_string", text, b""), ok(string)), (("put_string", string, b""), ok(kind_of(written), written)),
    ]
    assert shortened(answered(probe, cases)) == shortened(cases)


# A text before and after many bytes, and the column of its error, which counts the many bytes or not.
LARGE_ERRORS = [
    (b"<u:", b" >", 4, True, Syntax),
    (b"<u: ", b">", 4, False, Syntax),
    (b'"', rb'\x"', 2, True, BadEscape),
    (rb'"\x', b'"', 2, False, BadEscape),
    (b"<u:", b"> x", 5, True, Syntax),
    (b'"a" ', b"", 4, False, Syntax),
]


@pytest.mark.parametrize("before, after, column, counted, reason", LARGE_ERRORS)
def test_large_errors(probe: Probe, before: bytes, after: bytes, column: int, counted: bool, reason: Reason) -> None:
    """An error before or after 140,000 bytes."""
    text = before + LARGE + after
    answer = fault(reason, column + len(LARGE) * counted)
    cases: list[Case] = [(("parse_term", text), answer), (("parse_string", text, b""), (*answer, ""))]
    assert shortened(answered(probe, cases)) == shortened(cases)
    assert shortened(text_cases(text)[:1]) == shortened(cases[:1])


# The text of a token before and after a run of plain bytes, and the end of the term's string, or None where an error
# follows the run.
RUNS = [
    (b"<u:", b">", b""),
    (b"<u:", rb'\u0062>', b"b"),
    (b"<u:", b" >", None),
    (b"<u:", b"{>", None),
    (b"<u:", rb'\t>', None),
    (b"<u:", b"", None),
    (b'"b:', b'"', b'"'),
    (b'"b:', rb'\u0062"', b'b"'),
    (b'"b:', b'\n"', None),
    (b'"b:', b'\x00"', None),
    (b'"b:', rb'\x"', None),
    (b'"b:', b"", None),
]


@pytest.mark.parametrize("before, after, end", RUNS)
def test_plain_runs(probe: Probe, before: bytes, after: bytes, end: bytes | None) -> None:
    """Runs of plain bytes of every length up to 70, and what follows them."""
    string_before = before.replace(b"<", b"")
    cases: list[Case] = []
    for times in range(71):
        text = before + b"b" * times + after
        string = string_before + b"b" * times + (end or b"")
        answer: Answer = ok(string)
        if end is None:
            reason = text_cases(text)[0][1][1:3]
            answer = ("fault", *reason, str(4 + times), "")
        cases.append((("parse_string", text, b""), answer))
    assert answered(probe, cases) == cases


# ---- any terms, against the reference

@given(text=term_texts())
@example(text=b'"x"@en-')
@example(text=b"_:a..")
@example(text=b"<\\u0031:a>x")
@example(text=b'"x" \t^ ^<u:t>')
def test_any_text(probe: Probe, text: bytes) -> None:
    """Valid, damaged and random texts: the term, or the first error and its column."""
    cases = text_cases(text)
    assert answered(probe, cases) == cases


@given(string=strings())
@example(string=b'"\r\\""^^<u:""')
@example(string=b'"x"^^<http://www.w3.org/2001/XMLSchema#string>')
def test_any_string(probe: Probe, string: bytes) -> None:
    """Dictionary strings of terms, foreign ones and others: the term and what is written of it."""
    cases = string_cases(string)
    assert answered(probe, cases) == cases


@given(pair=spellings())
def test_any_spelling(probe: Probe, pair: tuple[bytes, Term]) -> None:
    """A term is read from each of its spellings, and from what is written of it; its string gives it back."""
    text, term = pair
    string, written = term_string(term), put_term(term)
    assert parse_term(text) == parse_term(written) == string_term(string) == term
    cases: list[Case] = [
        (("parse_term", text), ok(*term_values(term))), (("parse_term", written), ok(*term_values(term))),
        (("string_term", string), ok(*term_values(term))), (("put_string", string, b""), ok(kind_of(written), written)),
        (("parse_string", text, b""), ok(string)), (("same_term", text, written), ok(True)),
    ]
    assert answered(probe, cases) == cases


@given(one=terms, other=terms)
def test_terms_differ(probe: Probe, one: Term, other: Term) -> None:
    """Two terms have one string, and one N-Triples text, only if they are equal."""
    answer = "true" if one == other else "false"
    assert probe.ask("same_term", put_term(one), put_term(other)) == ok(answer)
    assert (term_string(one) == term_string(other)) == (put_term(one) == put_term(other)) == (one == other)
