"""The N-Triples text of a graph: lines, escapes, strings that are no terms, parts of a text, and writers that fail."""

from __future__ import annotations

from collections.abc import Callable, Sequence
from itertools import product
from typing import Optional

import pytest
from hypothesis import example, given
from hypothesis import strategies as st

from reference import hdt as model
from reference import ntriples
from reference.hdt import Pattern, Triple
from support.built import SAMPLES
from support.probe import Answer, Argument, Probe, ok
from support.properties import examples

Sections = tuple[list[bytes], list[bytes], list[bytes], list[bytes]]

THREE = (SAMPLES / "three.hdt").read_bytes()
IDS = [(1, 1, 2), (1, 2, 3), (2, 1, 1)]
LINES = [b"<u:a> <u:p> <u:b> .\n", b"<u:a> <u:q> \"x\" .\n", b"<u:b> <u:p> <u:a> .\n"]
ALL: Pattern = (None, None, None)

ROLES = "Subject", "Predicate", "Object"


def not_a_term(role: int, n: int) -> Answer:
    """The answer that a string of a role is no term."""
    return "not", "a", "term", str(role), str(n)


def file_of(sections: Sections, ids: Sequence[Triple]) -> bytes:
    """A file of these sections, in blocks of three strings, and triples."""
    style = model.Style(block_size=3)
    return model.write_head() + model.write_dictionary(*sections, style) + model.write_triples(ids)


def answers_by_both(probe: Probe, data: bytes, patterns: Sequence[Pattern]) -> list[tuple[Answer, Answer]]:
    """The text of each pattern's matches, by a graph and by a layout."""
    requests = [it for pattern in patterns for it in (("graph_text", *pattern), ("layout_text", None, *pattern))]
    answers = probe.send(("file", data), *requests)[1:]
    return list(zip(answers[::2], answers[1::2]))


# Texts of patterns

GIVEN = [None, 0, 1, 2, 3, 4]


def test_every_pattern(probe: Probe) -> None:
    """The lines of the matches of each of 216 patterns, by a graph and a layout."""
    patterns: list[Pattern] = [(s, p, o) for s, p, o in product(GIVEN, GIVEN, GIVEN)]
    expected = [ok(b"".join(LINES[IDS.index(triple)] for triple in model.matches(IDS, pattern)))
                for pattern in patterns]
    assert list(zip(patterns, answers_by_both(probe, THREE, patterns))) == [
        (pattern, (answer, answer)) for pattern, answer in zip(patterns, expected)]


@pytest.mark.parametrize("most", [0, 1, 2, 3, None])
def test_part_of_every_pattern(probe: Probe, most: Optional[int]) -> None:
    """The first lines of each pattern's matches, at most so many."""
    patterns: list[Pattern] = [(s, p, o) for s, p, o in product(GIVEN, GIVEN, GIVEN)]
    probe.send(("file", THREE))
    texts = [b"".join(LINES[IDS.index(it)] for it in model.matches(IDS, pattern)[:most]) for pattern in patterns]
    answers = probe.send(*(("layout_text", most, *pattern) for pattern in patterns))
    assert list(zip(patterns, answers)) == [(pattern, ok(text)) for pattern, text in zip(patterns, texts)]
    answers = probe.send(*(("append_graph_text", b"", most, *pattern) for pattern in patterns))
    assert list(zip(patterns, answers)) == [(pattern, ok("done", text)) for pattern, text in zip(patterns, texts)]


def test_no_pattern(probe: Probe) -> None:
    """Where strings have no pattern, the text is empty."""
    assert probe.on(THREE, "graph_text", "none") == ok(b"")
    assert probe.ask("layout_text", None, "none") == probe.ask("layout_text", 1, "none") == ok(b"")


def test_texts_by_one_speller(probe: Probe) -> None:
    """Texts of several patterns are appended by one `Speller` to what is there."""
    asked: list[Argument] = [None, 1, None, None, 1, *ALL, 0, *ALL, None, None, 1, None, 2, "none"]
    expected = b"before" + LINES[0] + LINES[1] + LINES[0] + LINES[0] + LINES[2]
    assert probe.on(THREE, "append_graph_text", b"before", *asked) == ok(*["done"] * 5, expected)


# Spelling of terms

TEXTS: dict[str, tuple[Sections, list[Triple], bytes]] = {
    # A text with all that is escaped, and a quote inside; other kinds of objects.
    "escapes-in-literals": (
        ([], [b"u:s"], [b"u:p"], [b'"a"^^<u:t>', b'"a"b\\c\n\r"@en', b'"t\tu"', b"_:b.c"]),
        [(1, 1, 1), (1, 1, 2), (1, 1, 3), (1, 1, 4)],
        b"<u:s> <u:p> \"a\"^^<u:t> .\n<u:s> <u:p> \"a\\\"b\\\\c\\n\\r\"@en .\n<u:s> <u:p> \"t\tu\" .\n"
        b"<u:s> <u:p> _:b.c .\n"),
    # Characters that an IRI of the grammar excludes, and others of two and three bytes.
    "escapes-in-iris": (
        ([], [b"_:a", b"u:a b"], ["u:\u00e9<".encode()], ["u:\u20ac".encode()]),
        [(1, 1, 1), (2, 1, 1)],
        "_:a <u:\u00e9\\u003C> <u:\u20ac> .\n<u:a\\u0020b> <u:\u00e9\\u003C> <u:\u20ac> .\n".encode()),
    # One subject with two predicates, and one predicate of two subjects after another.
    "terms-again": (
        ([b"u:a"], [b"u:b"], [b"u:p", b"u:q"], []),
        [(1, 1, 1), (1, 2, 1), (2, 2, 1)],
        b"<u:a> <u:p> <u:a> .\n<u:a> <u:q> <u:a> .\n<u:b> <u:q> <u:a> .\n"),
}


@pytest.mark.parametrize("sections, ids, text", TEXTS.values(), ids=TEXTS)
def test_spelling(probe: Probe, sections: Sections, ids: list[Triple], text: bytes) -> None:
    """Terms of all kinds, as a whole and subject by subject."""
    by_pattern = answers_by_both(probe, file_of(sections, ids), [ALL, (1, None, None), (2, None, None)])
    whole, first, second = (bytes.fromhex(of_graph[1]) for of_graph, _ in by_pattern)
    assert (whole, first + second) == (text, text)
    assert [of_graph == of_layout for of_graph, of_layout in by_pattern] == [True] * 3


# Sections, triples, and the first string that is no term of its role: the role and its ID.
NO_TERMS: dict[str, tuple[Sections, list[Triple], int, int]] = {
    "relative-predicate": (([], [b"u:s"], [b"rel"], [b"u:o"]), [(1, 1, 1)], 1, 1),
    "literal-as-subject": (([], [b'"x"'], [b"_:p"], [b"rel"]), [(1, 1, 1)], 0, 1),
    "blank-as-predicate": (([], [b"u:s"], [b"_:p"], [b"rel"]), [(1, 1, 1)], 1, 1),
    "relative-object": (([], [b"u:s"], [b"u:p"], [b"rel"]), [(1, 1, 1)], 2, 1),
    # The first triple that has one, though an earlier string and role come later.
    "first-triple": (([], [b"rel", b"u:s"], [b"u:p"], [b'"', b"u:o"]), [(1, 1, 2), (2, 1, 1)], 0, 1),
    "last-object": (([b"u:t"], [b"_:s", b"rel"], [b"u:p"], [b'"x', b"u:o"]), [(1, 1, 3), (2, 1, 2), (3, 1, 1)], 2, 2),
}


@pytest.mark.parametrize("sections, ids, role, n", NO_TERMS.values(), ids=NO_TERMS)
def test_first_string_that_is_no_term(probe: Probe, sections: Sections, ids: list[Triple], role: int, n: int) -> None:
    """The first such string of the first such triple is reported, and nothing is written."""
    answer = not_a_term(role, n)
    # The triples of predicate 1 are all triples.
    assert answers_by_both(probe, file_of(sections, ids), [ALL, (None, 1, None)]) == [(answer, answer)] * 2
    assert probe.ask("write_graph", 1, None, *ALL) == (*answer, "")
    assert probe.ask("append_graph_text", b"before", 0, *ALL, None, *ALL, 0, *ALL) == ok(
        "done", "not_a_term", role, n, "done", b"before")


def test_string_that_no_match_uses(probe: Probe) -> None:
    """A string that is no term doesn't matter to triples that don't have it."""
    data = file_of(([], [b"rel", b"u:s"], [b"u:p"], [b"u:o"]), [(1, 1, 1), (2, 1, 1)])
    answer = ok(b"<u:s> <u:p> <u:o> .\n")
    assert answers_by_both(probe, data, [(2, None, None)]) == [(answer, answer)]


@pytest.mark.parametrize("text, arguments", [
    (b"a string that is not a term: Object 7", ("not_a_term", 2, 7)),
    (b"writing failed after 5 bytes", ("write", 5)),
    (b"out of memory", ("out_of_memory",))], ids=["term", "write", "memory"])
def test_text_of_an_error(probe: Probe, text: bytes, arguments: tuple[Argument, ...]) -> None:
    """The text of the error of writing."""
    assert probe.ask("dump_fault_text", *arguments) == ok(text)


# Writers

@pytest.mark.parametrize("failure", ["", ":interrupted", ":zero"], ids=["error", "interrupted", "zero"])
@pytest.mark.parametrize("step", [1, 7, 58])
def test_writer_that_fails_at_each_call(probe: Probe, step: int, failure: str) -> None:
    """A writer takes some bytes a call and fails at one: it has taken what is before, which is reported."""
    text = b"".join(LINES)
    calls = range(-(-len(text) // step) + 2)
    answers = probe.send(("file", THREE), *(("write_graph", step, f"{n}{failure}", *ALL) for n in calls))[1:]
    taken = [text[:n * step] for n in calls]
    assert list(zip(calls, answers)) == [
        (n, ok(len(text), text) if part == text else ("written", str(len(part)), part.hex()))
        for n, part in zip(calls, taken)]


def test_writer_that_is_not_needed(probe: Probe) -> None:
    """Where strings have no pattern, nothing is written, so that a writer that fails at once doesn't fail."""
    assert probe.on(THREE, "write_graph", 1, 0, "none") == ok(0, b"")


def test_many_triples(probe: Probe) -> None:
    """5,001 lines of one subject and 2,500 predicates, one of them with a literal of 100,000 characters."""
    long = b'"' + b"x" * 100_000 + b'"'
    predicates = [b"u:%d" % n for n in range(1_000, 3_500)]
    ids = [(1, 1, 1)] + [(1, p, o) for p in range(1, 2_501) for o in (2, 3)]
    text = b"<u:s> <u:1000> %s .\n" % long + b"".join(
        b"<u:s> <%s> _:o .\n<u:s> <%s> <u:o> .\n" % (predicate, predicate) for predicate in predicates)
    data = file_of(([], [b"u:s"], predicates, [long, b"_:o", b"u:o"]), ids)
    answers = answers_by_both(probe, data, [ALL, (1, None, None)])
    assert [answer == ok(text) for pair in answers for answer in pair] == [True] * 4
    for step in len(text), 4_096:
        written = probe.ask("write_graph", step, None, *ALL)
        assert (written == ok(len(text), text)) is True, "another text"


# Properties

def text_of(file: model.File, ids: Sequence[Triple]) -> Answer:
    """The reference's text of triples, or the first string that is no term of its role."""
    strings = [file.dictionary.strings(role) for role in model.ROLES]
    kinds = (ntriples.Iri, ntriples.Blank), (ntriples.Iri,), (ntriples.Iri, ntriples.Blank, ntriples.Literal)
    lines = []
    for triple in ids:
        for role, n in enumerate(triple):
            try:
                is_term = isinstance(ntriples.string_term(strings[role][n - 1]), kinds[role])
            except ntriples.NotATerm:
                is_term = False
            if not is_term:
                return not_a_term(role, n)
        s, p, o = (row[n - 1] for row, n in zip(strings, triple))
        lines.append(ntriples.put_strings((s, p, o)))
    return ok(b"".join(lines))


characters = "ab:<>\"\\^@._- \n\r\t\u00e9\u20ac\U0001f600"
word = st.text(characters, max_size=5)
iris = word.map("u:{}".format)
blanks = st.text("ab0_-.\u00e9", max_size=4).map("_:a{}".format)
literals = st.builds("\"{}\"{}".format, word, st.sampled_from(["", "@en", "@en-GB", "^^<u:t>", "^^<rel>", "@", "^^"]))
terms = st.one_of(iris, st.sampled_from(["_:a", "_:b.c"]), st.builds("\"{}\"{}".format, word,
                  st.sampled_from(["", "@en", "^^<u:t>"])))
strings = st.one_of(terms, iris, blanks, literals, word)


@st.composite
def graphs(draw: st.DrawFn) -> model.Written:
    """Graphs of a few strings; most are terms of their roles, some aren't."""
    good = draw(st.booleans())
    subjects = draw(st.lists(st.one_of(iris, st.just("_:a")) if good else strings, min_size=1, max_size=4))
    predicates = draw(st.lists(iris if good else st.one_of(iris, strings), min_size=1, max_size=4))
    objects = draw(st.lists(terms if good else strings, min_size=1, max_size=5))
    triples = draw(st.lists(st.tuples(*map(st.sampled_from, (subjects, predicates, [*objects, *subjects]))),
                            min_size=1, max_size=9))
    block_size = draw(st.sampled_from([1, 2, 16]))
    return model.graph({(s.encode(), p.encode(), o.encode()) for s, p, o in triples}, None, block_size)


part = st.one_of(st.none(), st.integers(1, 4))


@examples(2)
@given(graphs(), st.tuples(part, part, part), st.one_of(st.none(), st.integers(0, 9)), st.integers(1, 9),
       st.integers(0, 40))
@example(model.graph({(b"u:a", b"u:p", b"rel"), (b"u:b", b"u:p", b"u:a")}), (2, None, None), None, 3, 1)
def test_text_is_that_of_the_reference(probe: Probe, graph: model.Written, pattern: Pattern, most: Optional[int],
                                       step: int, calls: int) -> None:
    """The text of a pattern's matches, whole and in part, or the first string that is no term."""
    file = model.read_file(graph.data)
    for asked in pattern, ALL:
        ids = model.matches(graph.ids, asked)
        whole, first = text_of(file, ids), text_of(file, ids[:most])
        assert answers_by_both(probe, graph.data, [asked]) == [(whole, whole)]
        assert probe.ask("layout_text", most, *asked) == first
        appended = probe.ask("append_graph_text", b"", most, *asked)
        if first[0] == "ok":
            assert appended == ok("done", bytes.fromhex(first[1]))
        else:
            assert appended == ok("not_a_term", *first[3:], b"")
        failing = probe.ask("write_graph", step, calls, *asked)
        text = bytes.fromhex(whole[1]) if whole[0] == "ok" else b""
        if whole[0] != "ok":
            assert failing == (*whole, "")
        elif step * calls >= len(text):
            assert failing == ok(len(text), text)
        else:
            assert failing == ("written", str(step * calls), text[:step * calls].hex())


@examples(2)
@given(graphs())
def test_text_is_read_again(probe: Probe, graph: model.Written) -> None:
    """A text is N-Triples of the graph's triples, where no IRI has a character that N-Triples excludes."""
    answer = probe.on(graph.data, "graph_text", *ALL)
    excluded: Callable[[bytes], bool] = lambda string: not (string[:1] in b'_"' or ntriples.is_iri(string))
    if answer[0] == "ok" and not any(excluded(string) for row in graph.strings for string in row):
        triples, error = ntriples.read_document(bytes.fromhex(answer[1]))
        assert ([ntriples.triple_strings(triple) for triple in triples], error) == (graph.strings, None)
