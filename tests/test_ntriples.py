"""Lines, documents and requests of N-Triples: any pieces of a reader, any line ends, limits, and the first error."""

from __future__ import annotations

from collections.abc import Iterator
from typing import NamedTuple, Optional, Union

import pytest
from hypothesis import example, given
from hypothesis import strategies as st

from reference.ntriples import (
    Asked, LineError, Reason, TermError, lines, parse_line, parse_raw_request, parse_request, read_document,
    triple_strings,
)
from support.probe import Answer, Argument, Probe, ok
from support.terms import (
    LARGE, LARGE_TERMS, STEPS, Case, Request, answered, damaged, document_texts, documents, error_answer, line_texts,
    shortened, soups,
)

ALL = 10_000_000
GREATEST = 2**63 - 1
WORDS = "line_triples", "line_strings"
# The size of a reader's pieces, or `F/N` for F bytes first and then pieces of N bytes.
Step = Union[int, str]


# ---- what the reference says, as a probe answers it

def ending(error: Optional[LineError]) -> tuple[Argument, ...]:
    """What follows the last line: the end or an error."""
    if error is None:
        return ("end",)
    return error.reason.name, error.line, error.column


def triples_answer(data: bytes, limit: Optional[int] = None, fails: Optional[int] = None) -> Answer:
    """The triples of a document as dictionary strings, and then the end or the error."""
    found, error = read_document(data, limit, fails)
    return ok(*(string for triple in found for string in triple_strings(triple)), *ending(error))


class Line(NamedTuple):
    """A line of a document: its number, its text, whether it has an end, and whether the next one is then held."""

    number: int
    text: bytes
    is_ended: bool
    holds_next: bool


def held_lines(data: bytes, limit: Optional[int], step: int, fails: Optional[int]) -> Iterator[Line]:
    """The lines of a document. A reader in pieces is asked until the current line ends, and no more.

    So the next line is held (it is in the buffer with its end) if the pieces that were read hold its end.
    """
    given = min(len(data), GREATEST if limit is None else limit, GREATEST if fails is None else fails)
    start = read = 0
    for number, text in lines(data, limit, fails):
        start += len(text) + 1
        while read < min(start, given):
            read = min(read + step, given)
        rest = data[start:read]
        yield Line(number, text, start <= given, b"\n" in rest or b"\r" in rest)


def texts_answer(data: bytes, limit: Optional[int], step: int, fails: Optional[int],
                 most: Optional[int] = None) -> Answer:
    """Each line by its number, its first `most` bytes, and whether the next line is held; then the end or the error."""
    values: list[Argument] = []
    try:
        for line in held_lines(data, limit, step, fails):
            values += [line.number, line.text[:most], line.holds_next]
    except LineError as error:
        return ok(*values, *ending(error))
    return ok(*values, "end")


def calls_answer(data: bytes, limit: Optional[int], step: int, fails: Optional[int], calls: list[int]) -> Answer:
    """What each call answers: 0 for the next triple, 1 for its strings, 2 for the next line.

    After the end each call answers the end, and after an error the same error. Buffers are empty then; the number is
    that of the last line that was taken, and a line with an error is still held.
    """
    rest = held_lines(data, limit, step, fails)
    values: list[Argument] = []
    last: Optional[tuple[Argument, ...]] = None
    line = Line(0, b"", True, False)
    for call in calls:
        while last is None:
            try:
                line = next(rest)
                if call == 2:
                    values += ["text", line.number, line.text, line.holds_next]
                    break
                triple = parse_line(line.text)
            except StopIteration:
                last, after = ("end",), (line.number, b"", False)
            except LineError as error:
                last, after = ("fault", *ending(error)), (error.line - 1, b"", False)
            except TermError as error:
                last = "fault", error.reason.name, line.number, error.column
                after = line.number - 1, b"", line.is_ended
            else:
                if triple is not None:
                    values += [("triple", "strings")[call], *triple_strings(triple)]
                    break
        else:
            values += [*last, *((), (b"", b"", b""), after)[call]]
    return ok(*values)


def reader(limit: Optional[int], step: Step, fails: Optional[int]) -> tuple[Argument, ...]:
    """The arguments of a reader."""
    return GREATEST if limit is None else limit, step, "-" if fails is None else fails


def document_cases(data: bytes, limit: Optional[int], step: int, fails: Optional[int]) -> list[Case]:
    """Each word that reads a document in pieces, with the answer of the reference."""
    arguments = reader(limit, step, fails)
    answer = triples_answer(data, limit, fails)
    return [
        (("file", data), ok()),
        (("line_triples", *arguments), answer),
        (("line_strings", *arguments), answer),
        (("line_texts", *arguments), texts_answer(data, limit, step, fails)),
        *((("line_fronts", *arguments, most), texts_answer(data, limit, step, fails, most))
          for most in (0, 3, 2**64 - 1)),
    ]


def text_of(answer: Answer) -> str:
    """An answer as text: a line for each triple, and then the end or the error."""
    values = list(answer[1:])
    end = ["end"] if values[-1] == "end" else [f"{values[-3]} at line {values[-2]} column {values[-1]}"]
    strings = [bytes.fromhex(value).decode() for value in values[:-1 if end == ["end"] else -3]]
    return "\n".join([" ".join(strings[i:i + 3]) for i in range(0, len(strings), 3)] + end)


Read = tuple[str, Step, str]


def read_in(probe: Probe, data: bytes, limit: int, steps: list[Step], fails: Optional[int] = None) -> list[Read]:
    """What each call reads of a document in pieces of each of these sizes: the call, the size and the text."""
    calls = [(word, step) for step in steps for word in WORDS]
    requests: list[Request] = [(word, *reader(limit, step, fails)) for word, step in calls]
    answers = probe.send(("file", data), *requests)[1:]
    return [(word, step, text_of(answer)) for (word, step), answer in zip(calls, answers)]


def all_read(text: str, steps: list[Step]) -> list[Read]:
    """The same if each call reads this."""
    return [(word, step, text) for step in steps for word in WORDS]


# ---- worked rows

# Three triples in 58 bytes.
THREE = b'<u:a> <u:p> <u:b> .\n<u:a> <u:q> "x" .\n<u:b> <u:p> <u:a> .\n'
THREE_READ = 'u:a u:p u:b\nu:a u:q "x"\nu:b u:p u:a\nend'

# Documents, how many bytes they may have, and what is read of them.
DOCUMENTS = [
    (b"", 0, "end"),
    (b"\n", 0, "TooLong at line 1 column 0"),
    (b"# nothing", 100, "end"),
    (b"# nothing\r\n \t\n\t#\r", 100, "end"),
    (THREE, 57, 'u:a u:p u:b\nu:a u:q "x"\nTooLong at line 3 column 0'),
    (THREE, 38, 'u:a u:p u:b\nu:a u:q "x"\nTooLong at line 3 column 0'),
    (THREE, 37, "u:a u:p u:b\nTooLong at line 2 column 0"),
    (THREE, 20, "u:a u:p u:b\nTooLong at line 2 column 0"),
    (THREE, 19, "TooLong at line 1 column 0"),
    (b"<u:a> <u:p> <u:b> .\n", 20, "u:a u:p u:b\nend"),
    (b"<u:a> <u:p> <u:b> .", 19, "u:a u:p u:b\nend"),
    (b"<u:a> <u:p> <u:b> .", 18, "TooLong at line 1 column 0"),
    (b"<u:a> <u:p> <u:b> .\r\n", 20, "u:a u:p u:b\nTooLong at line 2 column 0"),
    (b"<u:a> x\n", 7, "TooLong at line 1 column 0"),
    (b"<u:a> x\n", 8, "Syntax at line 1 column 7"),
    (b'\t<u:s>\t<u:p>\t"x" \t@en\t.\t#', 200, 'u:s u:p "x"@en\nend'),
    (b'<u:s><u:p>"x"@en.#', 200, 'u:s u:p "x"@en\nend'),
    (b"_:a<u:p>_:b.c.", 200, "_:a u:p _:b.c\nend"),
    (b"_:a<u:p>_:b..", 200, "Syntax at line 1 column 13"),
    (b'<u:s> <u:p> "x" ^^ <u:t> .', 200, 'u:s u:p "x"^^<u:t>\nend'),
    (b"<_:x> <u:p> <u:o> .", 200, "RelativeIri at line 1 column 1"),
    (b"<rel> <u:p> <u:o> .", 200, "RelativeIri at line 1 column 1"),
    (b"<u:s> <rel> <u:o> .", 200, "RelativeIri at line 1 column 7"),
    (rb'<u:s> <u:p> "\u0000" .', 200, "ZeroCharacter at line 1 column 14"),
    (rb'<u:s> <u:p> "\uD800" .', 200, "BadEscape at line 1 column 14"),
    (rb'<u:s\u0020> <u:p> <u:o> .', 200, "IriCharacter at line 1 column 5"),
    (b"<u:s> <u:p>", 200, "Syntax at line 1 column 12"),
    (b"<u:s> <u:p> _:a.", 200, "u:s u:p _:a\nend"),
    (b"<u:s> <u:p> _:a..", 200, "Syntax at line 1 column 17"),
    (b"<u:s> <u:p> <u:o> . x", 200, "Syntax at line 1 column 21"),
    (b"<u:s> <u:p> <u:o>", 200, "Syntax at line 1 column 18"),
    (b"<u:s> <u:p> <u:o> #.", 200, "Syntax at line 1 column 19"),
    (b"<u:s> # c", 200, "Syntax at line 1 column 7"),
    (b'"x" <u:p> <u:o> .', 200, "Syntax at line 1 column 1"),
    (b"<u:s> _:p <u:o> .", 200, "Syntax at line 1 column 7"),
    (b'<u:s> "p" <u:o> .', 200, "Syntax at line 1 column 7"),
    (b"<u:s> <u:p> x .", 200, "Syntax at line 1 column 13"),
    (b"<u:s>\x00<u:p> <u:o> .", 200, "Syntax at line 1 column 6"),
    (b"#\x00\n<u:s> <u:p> <u:o> .#\x00", 200, "u:s u:p u:o\nend"),
    (b'<u:s> <u:p> "a\x00" .', 200, "ZeroCharacter at line 1 column 15"),
    (b"# \xff", 200, "NotUtf8 at line 1 column 3"),
    (b"<u:s> <u:p> <u:o> .\n x # \xc3(\n", 200, "u:s u:p u:o\nNotUtf8 at line 2 column 6"),
    (b"<u:s> <u:p> <u:o> . # \xf0\x9f\x98\n\x80", 200, "NotUtf8 at line 1 column 23"),
    (b"<u:s> <u:p> <u:o> .\nx\n# \xff", 200, "u:s u:p u:o\nSyntax at line 2 column 1"),
    (b"\xef\xbb\xbf<u:s> <u:p> <u:o> .", 200, "Syntax at line 1 column 1"),
    (b"<u:s\n> <u:p> <u:o> .", 200, "Syntax at line 1 column 5"),
    (b'<u:s> <u:p> "a\rb" .', 200, "Syntax at line 1 column 15"),
    (b'<u:s> <u:p> "a\\', 200, "BadEscape at line 1 column 15"),
    (rb'<u:s> <u:p> "a\u00', 200, "BadEscape at line 1 column 15"),
    (b". <u:s> <u:p> <u:o>", 200, "Syntax at line 1 column 1"),
    (b"<u:s> <u:p> <u:o> <u:g> .", 200, "Syntax at line 1 column 19"),
    (b"<u:s> <u:p> <u:o> .\x0b", 200, "Syntax at line 1 column 20"),
    (b"\x0c", 200, "Syntax at line 1 column 1"),
    (b"\n\r<u:s> <u:p> <u:o> .\r\r\n<u:s> <u:p> .", 200, "u:s u:p u:o\nSyntax at line 5 column 13"),
]


@pytest.mark.parametrize("data, limit, text", DOCUMENTS)
def test_documents(probe: Probe, data: bytes, limit: int, text: str) -> None:
    """Documents with triples, comments, line ends and errors, byte by byte and at once."""
    assert read_in(probe, data, limit, [1, ALL]) == all_read(text, [1, ALL])


@pytest.mark.parametrize("data, limit, text", DOCUMENTS)
def test_reference_documents(data: bytes, limit: int, text: str) -> None:
    """The reference reads the same rows."""
    assert text_of(triples_answer(data, limit)) == text


@pytest.mark.parametrize("data, limit, text", DOCUMENTS)
def test_calls_after_the_end(probe: Probe, data: bytes, limit: int, text: str) -> None:
    """After the end, and after an error, each call answers it again and reads nothing; buffers are empty then."""
    count = text.count("\n")
    cases: list[Case] = [(("file", data), ok())]
    for calls in [[0] * (count + 3), [1] * (count + 3), [0] * count + [1, 2, 0], [1] * count + [2, 2, 2, 2, 2, 1, 0]]:
        cases.append((("line_calls", *reader(limit, 7, None), *calls), calls_answer(data, limit, 7, None, calls)))
    assert answered(probe, cases) == cases
    for request, _ in cases[1:]:
        _, reads = probe.send(request, ("reads",))
        assert reads[3:5] == ("0", "0"), request


# Documents that are read in pieces of every size, also cut between CR and LF and within characters.
CUT = [
    (THREE, 58, 'u:a u:p u:b\nu:a u:q "x"\nu:b u:p u:a\nend'),
    (b'<u:b> <u:p> <u:a> .\r\n# note\r\n\r\n<u:a>\t<u:q> "x". # x\n \t\n<u:a> <u:p> <u:b> .\r<u:a> <u:p> <u:b> .',
     200, 'u:b u:p u:a\nu:a u:q "x"\nu:a u:p u:b\nu:a u:p u:b\nend'),
    (b"\r\n\r\r\n\n\n\rx", 200, "Syntax at line 7 column 1"),
    (b'# \xf0\x9f\x98\x80\r\n<u:\xf0\x9f\x98\x80> <u:p> "\xf0\x9f\x98\x80\\U0001F600"@en .\r\n'
     b"_:\xf0\x90\x80\x80 <u:p> _:\xc3\xa9. #",
     200, 'u:\U0001f600 u:p "\U0001f600\U0001f600"@en\n_:\U00010000 u:p _:\xe9\nend'),
]


@pytest.mark.parametrize("data, limit, text", CUT)
def test_pieces(probe: Probe, data: bytes, limit: int, text: str) -> None:
    """Pieces of every size make no difference, nor does a cut at any one byte."""
    steps: list[Step] = [*range(1, len(data)), *(f"{first}/{ALL}" for first in range(1, len(data))), ALL]
    assert read_in(probe, data, limit, steps) == all_read(text, steps)
    assert text_of(triples_answer(data, limit)) == text


# How many bytes of the three triples a reader gives before it fails, and what is read.
FAILING = [
    (0, "Read at line 1 column 0"),
    (19, "Read at line 1 column 0"),
    (20, "u:a u:p u:b\nRead at line 2 column 0"),
    (30, "u:a u:p u:b\nRead at line 2 column 0"),
    (38, 'u:a u:p u:b\nu:a u:q "x"\nRead at line 3 column 0'),
    (57, 'u:a u:p u:b\nu:a u:q "x"\nRead at line 3 column 0'),
    (58, 'u:a u:p u:b\nu:a u:q "x"\nu:b u:p u:a\nRead at line 4 column 0'),
]


@pytest.mark.parametrize("fails, text", FAILING)
def test_failing_readers(probe: Probe, fails: int, text: str) -> None:
    """The lines before the one that can't be read are answered first."""
    steps: list[Step] = [1, 2, 7, ALL]
    assert read_in(probe, THREE, 100, steps, fails) == all_read(text, steps)


@pytest.mark.parametrize("limit", [100, 58, 57, 40, 38, 20, 0])
def test_readers_that_fail_after_each_byte(probe: Probe, limit: int) -> None:
    """A reader that fails after each byte, once and for good, by an error and by an interruption, within a limit."""
    cases: list[Case] = [(("file", THREE), ok())]
    for fails in range(len(THREE) + 2):
        for how in "", ":interrupted":
            answer = triples_answer(THREE, limit, fails)
            cases += [((word, limit, step, f"{fails}{how}"), answer) for word in WORDS for step in (1, 7, ALL)]
    assert answered(probe, cases) == cases


def test_readers_that_end_early(probe: Probe) -> None:
    """A reader that gives no bytes is at its end, also if it would give more later."""
    cases: list[Case] = [(("file", THREE), ok())]
    for ends in range(len(THREE) + 1):
        answer = triples_answer(THREE[:ends])
        cases += [((word, GREATEST, 7, f"{ends}:zero"), answer) for word in WORDS]
    assert answered(probe, cases) == cases


@pytest.mark.parametrize("step", [1, 3, ALL])
def test_whole_documents(probe: Probe, step: int) -> None:
    """All triples of a document at once, within the greatest limit, one of its length, and one byte less."""
    cases: list[Case] = [(("file", THREE), ok())]
    for limit in GREATEST, 58, 57:
        cases.append((("line_triples", limit, step, "-"), triples_answer(THREE, limit)))
    assert answered(probe, cases) == cases
    assert text_of(triples_answer(THREE, 58)) == THREE_READ


REASONS = [
    "Syntax", "NotUtf8", "BadEscape", "RelativeIri", "IriCharacter", "ZeroCharacter", "Read", "OutOfMemory", "TooLong",
]


def test_reasons(probe: Probe) -> None:
    """The reasons by number and name, and an error as text."""
    cases: list[Case] = []
    for number, name in enumerate(REASONS, 1):
        text = f"{name} at line 7 column 18446744073709551615"
        cases.append((("line_reason", number), ok(number, name)))
        cases.append((("line_fault_text", 7, 2**64 - 1, number), ok(text.encode())))
    assert answered(probe, cases) == cases
    assert [reason.name for reason in Reason] == REASONS


# ---- many lines and long lines

def large_cases(data: bytes, limit: int, steps: list[int], fails: Optional[int] = None) -> list[Case]:
    """What both calls answer for a large document."""
    answer = triples_answer(data, limit, fails)
    cases: list[Case] = [((word, *reader(limit, step, fails)), answer) for step in steps for word in WORDS]
    return [(("file", data), ok()), *cases]


def test_many_triples(probe: Probe) -> None:
    """6,000 triples at once."""
    cases = large_cases(THREE * 2_000, GREATEST, [ALL])
    assert shortened(answered(probe, cases)) == shortened(cases)
    assert len(cases[-1][1]) == 2 + 3 * 6_000


SPACES = b" " * 100_000
LONG_LINE = b"<u:s> <u:p>" + SPACES + b"<u:o> .\n"
LATE = [
    pytest.param(THREE * 700 + b"<u:s> x", 2_101, 7, id="after 2,100 triples"),
    pytest.param(b"# \n" * 100_000 + b"<u:s> x", 100_001, 7, id="after 100,000 bare lines"),
    pytest.param(LONG_LINE * 2 + b"<u:s> <u:p>" + SPACES + b"x", 3, 100_012, id="in a long line"),
]


@pytest.mark.parametrize("data, line, column", LATE)
def test_late_errors(probe: Probe, data: bytes, line: int, column: int) -> None:
    """An error far after the beginning of a document or of a line."""
    cases = large_cases(data, GREATEST, [ALL, 4_096])
    assert shortened(answered(probe, cases)) == shortened(cases)
    assert cases[-1][1][-3:] == ("Syntax", str(line), str(column))


@pytest.mark.parametrize("before, after, string_before, string_after", LARGE_TERMS)
def test_large_objects(probe: Probe, before: bytes, after: bytes, string_before: bytes, string_after: bytes) -> None:
    """A line of more than 240,000 bytes and one after it, in pieces and at once."""
    data = b"<u:s>\t<u:p>" + SPACES + before + LARGE + after + b" .\n<u:s> <u:p> <u:o> ."
    cases = large_cases(data, 1_000_000, [1_000, ALL])
    assert shortened(answered(probe, cases)) == shortened(cases)
    string = string_before + LARGE + string_after
    assert cases[1][1] == ok(b"u:s", b"u:p", string, b"u:s", b"u:p", b"u:o", "end")


def test_large_parts(probe: Probe) -> None:
    """Two lines whose subject, predicate and object are 140,000 bytes long."""
    label, iri = b"_:a" + LARGE, b"<u:" + LARGE + b">"
    data = b" ".join([label, iri, iri, b".\n"]) * 2
    cases = large_cases(data, 1_000_000, [1_000, ALL])
    assert shortened(answered(probe, cases)) == shortened(cases)
    assert cases[1][1] == ok(*[label, iri[1:-1], iri[1:-1]] * 2, "end")


# A line, and a second one before and after many bytes; the limit, after how many bytes the reader fails, and what is
# read.
LARGE_ERRORS = [
    (b"<u:s> <u:p> <u:o> .\n<u:",
     b" > <u:p> <u:o> .\n",
     1_000_000, None, "u:s u:p u:o\nSyntax at line 2 column 140004"),
    (b"<u:s> <u:p> <u:o> .\n<u:",
     b"> <u:p> <u:o> . # \xff\n",
     1_000_000, None, "u:s u:p u:o\nNotUtf8 at line 2 column 140022"),
    (b'<u:s> <u:p> <u:o> .\n<u:s> <u:p> "',
     b'\\x" .\n',
     1_000_000, None, "u:s u:p u:o\nBadEscape at line 2 column 140014"),
    (b"<u:s> <u:p> <u:o> .\n<u:",
     b"> <p> <u:o> .\n",
     1_000_000, None, "u:s u:p u:o\nRelativeIri at line 2 column 140006"),
    (b"<u:s> <u:p> <u:o> .\n<u:",
     b"\\u0020> <u:p> <u:o> .\n",
     1_000_000, None, "u:s u:p u:o\nIriCharacter at line 2 column 140004"),
    (b'<u:s> <u:p> <u:o> .\n<u:s> <u:p> "',
     b'\\u0000" .\n',
     1_000_000, None, "u:s u:p u:o\nZeroCharacter at line 2 column 140014"),
    (b"<u:s> <u:p> <u:o> .\n<u:", b"> <u:p> <u:o> .\n", 140_038, None, "u:s u:p u:o\nTooLong at line 2 column 0"),
    (b"<u:s> <u:p> <u:o> .\n<u:", b"> <u:p> <u:o> .\n", 1_000_000, 140_038, "u:s u:p u:o\nRead at line 2 column 0"),
]


@pytest.mark.parametrize("before, after, limit, fails, text", LARGE_ERRORS)
def test_large_errors(probe: Probe, before: bytes, after: bytes, limit: int, fails: Optional[int], text: str) -> None:
    """Each error of a line after 140,000 bytes of it."""
    data = before + LARGE + after
    assert read_in(probe, data, limit, [1_000, ALL], fails) == all_read(text, [1_000, ALL])
    assert text_of(triples_answer(data, limit, fails)) == text


# ---- the texts of lines

# Inputs of at most 11 bytes, whether the reader fails after them, and their lines with their numbers.
TEXTS = [
    (b"", False, [(1, b"")], "end"),
    (b"a\r\nb\n\n\xffc", False, [(1, b"a"), (1, b""), (2, b"b"), (3, b""), (4, b"\xffc")], "end"),
    (b"? ? ?\n", False, [(1, b"? ? ?"), (2, b"")], "end"),
    (b"\r\r\n\n", False, [(1, b""), (2, b""), (2, b""), (3, b""), (4, b"")], "end"),
    (b"a\nb", True, [(1, b"a")], "Read 2 0"),
    (b"a\n0123456789", False, [(1, b"a")], "TooLong 2 0"),
]


@pytest.mark.parametrize("data, fails, wanted, end", TEXTS)
def test_texts(probe: Probe, data: bytes, fails: bool, wanted: list[tuple[int, bytes]], end: str) -> None:
    """The texts of lines, whatever they hold."""
    after = len(data) if fails else None
    steps = [1, 2, 1_000]
    requests: list[Request] = [("line_texts", *reader(11, step, after)) for step in steps]
    answers = probe.send(("file", data), *requests)[1:]
    texts = [token for number, text in wanted for token in (str(number), text.hex())]
    count = 3 * len(wanted)
    seen = [[token for at, token in enumerate(answer[1:]) if at % 3 != 2 or at >= count] for answer in answers]
    assert seen == [texts + end.split()] * len(steps)
    cases: list[Case] = [(request, texts_answer(data, 11, step, after)) for request, step in zip(requests, steps)]
    assert answered(probe, cases) == cases
    calls = [2] * (len(wanted) + 2)
    assert probe.ask("line_calls", *reader(11, 2, after), *calls) == calls_answer(data, 11, 2, after, calls)


# An input, the size of its pieces, and whether the next line is in the buffer with its end after each line.
HELD = [
    pytest.param(b"a\nb\nc", 1_000, "true false false", id="at once"),
    pytest.param(b"a\rb\r\nc\n", 4, "true false true false false", id="a carriage return waits for nothing"),
    pytest.param(b"\n\xff\n", 2, "false false false", id="a piece ends in a line"),
    pytest.param(b"\n\xff\n", 3, "true false false", id="whole lines"),
]


@pytest.mark.parametrize("data, step, held", HELD)
def test_held_lines(probe: Probe, data: bytes, step: int, held: str) -> None:
    """Whether the next line is in the buffer with its end: then the next call reads nothing."""
    answer = probe.on(data, "line_texts", 1_000_000, step, "-")
    assert answer[3:-1:3] == tuple(held.split())
    assert answer == texts_answer(data, 1_000_000, step, None)


@pytest.mark.parametrize("most", [0, 1, 1_000, 139_999, 140_000, 140_001])
@pytest.mark.parametrize("step", [1_000, 65_536, 1_000_000])
def test_fronts_of_large_texts(probe: Probe, step: int, most: int) -> None:
    """The front of a line that is longer than the buffer, up to its last byte; no more is left of it."""
    answer = probe.on(b"a\n" + LARGE + b"\r\nc", "line_fronts", 1_000_000, step, "-", most)
    seen = [token for at, token in enumerate(answer[1:]) if at % 3 != 2]
    assert seen == ["1", b"a"[:most].hex(), "2", LARGE[:most].hex(), "2", "", "3", b"c"[:most].hex(), "end"]


@pytest.mark.parametrize("length, step", [(140_000, 1_000), (140_000, 1_000_000), (1_100_000, ALL)])
def test_large_texts(probe: Probe, length: int, step: int) -> None:
    """A line of 140,000 bytes, or of more than a mebibyte, between others."""
    data = b"a\n" + b"b" * length + b"\nc"
    answer = probe.on(data, "line_texts", ALL, step, "-")
    seen = [token for at, token in enumerate(answer[1:]) if at % 3 != 2]
    assert seen[3] == (b"b" * length).hex()
    assert seen[:3] + seen[4:] == ["1", b"a".hex(), "2", "3", b"c".hex(), "end"]


@pytest.mark.parametrize("length, most", [(1_000, 2), (100_000, 3), (1_000_000, 16)])
def test_reads_of_a_long_line(probe: Probe, length: int, most: int) -> None:
    """A long line takes few reads: each asks for what the buffer has room for, which grows by an eighth and 64 KiB."""
    literal = b'"' + b"b" * length + b'"'
    assert probe.on(b"<u:s> <u:p> " + literal + b" .", "line_strings", ALL, ALL, "-")[3] == literal.hex()
    assert int(probe.ask("reads")[1]) <= most


def test_many_texts(probe: Probe) -> None:
    """100,001 lines."""
    answer = probe.on(b"\n" * 100_000, "line_texts", 1_000_000, 4_096, "-")
    assert answer[-7:] == ("100000", "", "false", "100001", "", "false", "end")
    assert len(answer) == 2 + 3 * 100_001


# ---- requests

def asked_answer(parse: str, text: bytes) -> Answer:
    """What the reference reads of a request, as a probe answers it."""
    try:
        asked: Optional[Asked] = {"request": parse_request, "raw_request": parse_raw_request}[parse](text)
    except TermError as error:
        return error_answer(error)
    if asked is None:
        return ok("none")
    values: list[Argument] = ["-" if string is None else string for string in asked]
    return ok(*values)


def asked_text(answer: Answer) -> bytes:
    """An answer as text: each string and a bar, `?` for any; or the error."""
    if answer[0] == "fault":
        return f"{answer[2]} at column {answer[3]}".encode()
    if answer[1:] == ("none",):
        return b"none"
    return b"".join((b"?" if value == "-" else bytes.fromhex(value)) + b"|" for value in answer[1:])


# Requests by terms, and what they ask for.
REQUESTS = [
    (b"", b"none"),
    (b" \t# ? ? ?", b"none"),
    (b"? ? ?", b"?|?|?|"),
    (b"\t? ?\t? .\t", b"?|?|?|"),
    (b"???", b"?|?|?|"),
    (b"? ? ?.", b"?|?|?|"),
    (b"??? . # all", b"?|?|?|"),
    (b"???#", b"?|?|?|"),
    (b"<u:a> <u:b> <u:c> .", b"u:a|u:b|u:c|"),
    (b"<u:a>?<u:c>", b"u:a|?|u:c|"),
    (b"_:a?_:b.", b"_:a|?|_:b|"),
    (b"_:a.b ? _:c.d", b"_:a.b|?|_:c.d|"),
    (b'? <u:b> "x" @en # c', b'?|u:b|"x"@en|'),
    (b'? ? "x"#', b'?|?|"x"|'),
    (b'? ? "?" .', b'?|?|"?"|'),
    (rb'? ? "\u00e9"', b'?|?|"\xc3\xa9"|'),
    (b"? ? _:b..", b"Syntax at column 9"),
    (b"? ? ?..", b"Syntax at column 7"),
    (b'"x" ? ?', b"Syntax at column 1"),
    (b"? _:b ?", b"Syntax at column 3"),
    (b"? ?", b"Syntax at column 4"),
    (b"? ? .", b"Syntax at column 5"),
    (b"? ? ? ?", b"Syntax at column 7"),
    (b".", b"Syntax at column 1"),
    (b"<a> ? ?", b"RelativeIri at column 1"),
    (rb'<u:a> ? "\x"', b"BadEscape at column 10"),
    (b"? x \xff", b"NotUtf8 at column 5"),
    (b"# \xff", b"NotUtf8 at column 3"),
]
# Requests by dictionary strings.
RAW_REQUESTS = [
    (b"", b"none"),
    (b" # \t\t", b"none"),
    (b"\t\t", b"none"),
    (b"?\t?\t?", b"?|?|?|"),
    (b'u:a\t?\t"x"@en', b'u:a|?|"x"@en|'),
    (b"a\\tb\tc\\\\n\td\\n\\r", b"a\tb|c\\n|d\n\r|"),
    (b" ?\t\t? # c", b" ?||? # c|"),
    (b"??\t<u:b>\t.", b"??|<u:b>|.|"),
    (b"\\?\t?\t?", b"BadEscape at column 1"),
    (b"?\t?\ta\\", b"BadEscape at column 6"),
    (b"?\t?", b"Syntax at column 4"),
    (b"? ? ?", b"Syntax at column 6"),
    (b"?\t?\t?\t", b"Syntax at column 6"),
    (b"?\t?\t?\t\\u", b"Syntax at column 6"),
    (b"\\u\t\xff", b"NotUtf8 at column 4"),
    (b"\xc3\xa9\t?\t?", b"\xc3\xa9|?|?|"),
]


@pytest.mark.parametrize("text, wanted", REQUESTS)
def test_requests(probe: Probe, text: bytes, wanted: bytes) -> None:
    """What a line asks for by terms."""
    assert asked_text(probe.ask("request", text)) == wanted
    assert asked_text(asked_answer("request", text)) == wanted


@pytest.mark.parametrize("text, wanted", RAW_REQUESTS)
def test_raw_requests(probe: Probe, text: bytes, wanted: bytes) -> None:
    """What a line asks for by dictionary strings."""
    assert asked_text(probe.ask("raw_request", text)) == wanted
    assert asked_text(asked_answer("raw_request", text)) == wanted


@pytest.mark.parametrize("word, text", [
    pytest.param("request", b'? ? "' + LARGE + b'" .', id="terms"),
    pytest.param("raw_request", b'?\t?\t"' + LARGE + b'"', id="strings"),
])
def test_large_requests(probe: Probe, word: str, text: bytes) -> None:
    """A request with a string of 140,000 bytes."""
    cases: list[Case] = [((word, text), ok("-", "-", b'"' + LARGE + b'"'))]
    assert shortened(answered(probe, cases)) == shortened(cases)


# ---- any documents, against the reference

limits = st.none() | st.integers(0, 80)
failures = st.none() | st.integers(0, 80)


@given(data=document_texts(), step=STEPS, limit=limits, fails=failures)
@example(data=b"\n\r<u:s> <u:p> <u:o> .\r\r\n<u:s> <u:p> .", step=3, limit=None, fails=None)
@example(data=b"<u:a> <u:p> <u:b> .\r\n", step=7, limit=20, fails=None)
@example(data=b"<u:a> <u:p> <u:b> .\r\n", step=7, limit=20, fails=20)
@example(data=b"<u:a> <u:p> <u:b> .\r\n", step=7, limit=20, fails=21)
def test_any_document(probe: Probe, data: bytes, step: int, limit: Optional[int], fails: Optional[int]) -> None:
    """Valid, damaged and random documents in any pieces, with a limit and a reader that fails."""
    cases = document_cases(data, limit, step, fails)
    assert answered(probe, cases) == cases


@given(pair=documents(), step=STEPS)
def test_any_valid_document(probe: Probe, pair: tuple[bytes, list[object]], step: int) -> None:
    """A document is read as its triples, however they are spelled and whatever ends its lines."""
    data, found = pair
    assert read_document(data) == (found, None)
    cases = document_cases(data, None, step, None)
    assert answered(probe, cases) == cases


@given(data=document_texts(), step=STEPS, limit=limits, fails=failures,
       calls=st.lists(st.integers(0, 2), min_size=1, max_size=12))
def test_any_calls(probe: Probe, data: bytes, step: int, limit: Optional[int], fails: Optional[int],
                   calls: list[int]) -> None:
    """Triples, strings and texts are asked for in turn, also after the end and after an error, which reads nothing."""
    cases: list[Case] = [
        (("file", data), ok()),
        (("line_calls", *reader(limit, step, fails), *calls), calls_answer(data, limit, step, fails, calls)),
    ]
    *answers, reads = probe.send(*(request for request, _ in cases), ("reads",))
    assert [(request, answer) for (request, _), answer in zip(cases, answers)] == cases
    assert reads[3:5] == ("0", "0")


def one_line(text: bytes) -> bytes:
    """A text without line ends."""
    return text.replace(b"\n", b" ").replace(b"\r", b"\t")


request_texts = st.one_of(
    soups,
    line_texts().map(one_line),
    st.lists(st.sampled_from([b"?", b"<u:a>", b"_:b", b'"x"@en', b".", b" ", b"\t", b"#"]), max_size=9).map(b"".join),
)
raw_pieces = st.sampled_from([b"?", b"u:a", b'"x"', b"\\\\", b"\\n", b"\\t", b"\\r", b"\t", b" ", b"\xc3\xa9"])
raw_strings = st.sampled_from([b"?", b"", b"u:a", b"\\n", b'"\\t"', b"\xe2\x82\xac"])
three_raw_strings = st.tuples(raw_strings, raw_strings, raw_strings).map(b"\t".join)
raw_texts = st.one_of(
    soups, st.lists(raw_pieces, max_size=9).map(b"".join), three_raw_strings, damaged(three_raw_strings),
)


@given(text=request_texts)
@example(text=b"_:a?_:b.")
@example(text=b"? ? ? ?")
def test_any_request(probe: Probe, text: bytes) -> None:
    """Requests by terms, damaged ones and random texts. Each line of a document asks for its own triple."""
    assert probe.ask("request", text) == asked_answer("request", text)
    try:
        triple = parse_line(text)
    except TermError:
        return
    assert parse_request(text) == (None if triple is None else triple_strings(triple))


@given(text=raw_texts)
@example(text=b"?\t?\t?\t\\u")
def test_any_raw_request(probe: Probe, text: bytes) -> None:
    """Requests by dictionary strings, damaged ones and random texts."""
    assert probe.ask("raw_request", text) == asked_answer("raw_request", text)
