"""Graphs and layouts: the eight patterns by IDs and by strings, look-ups in both directions, and a large graph."""

from __future__ import annotations

from collections.abc import Iterable, Sequence
from itertools import accumulate, product
from typing import NamedTuple, Optional

import pytest
from hypothesis import given
from hypothesis import strategies as st

from reference import hdt as model
from reference.hdt import MAX, Pattern, Triple
from support import prefixes
from support.built import SAMPLES
from support.drafts import texts
from support.probe import Answer, Argument, Probe, ok, spelled
from support.properties import examples

Given = tuple[Optional[bytes], Optional[bytes], Optional[bytes]]

# Three triples: u:a and u:b have the IDs 1 and 2, u:p and u:q 1 and 2, "x" has 3.
THREE = (SAMPLES / "three.hdt").read_bytes()
IDS = [(1, 1, 2), (1, 2, 3), (2, 1, 1)]
STRINGS = [[b"u:a", b"u:b"], [b"u:p", b"u:q"], [b"u:a", b"u:b", b'"x"']]

# The calls for a graph, for a layout, and for the layout of a graph, which answer the same.
BOTH = "", "layout_"
ALL = *BOTH, "graph_layout_"


def items_of(ids: Sequence[Triple]) -> list[int]:
    """The matches of a pattern as they are answered: their count, and their IDs."""
    return [len(ids), *(n for triple in ids for n in triple)]


def split_by_pattern(answer: Answer) -> list[list[int]]:
    """What `search` answers for each pattern: how many match, then the count of the matches and their IDs."""
    assert answer[0] == "ok", answer
    parts, at = [], 1
    while at < len(answer):
        end = at + 2 + 3 * int(answer[at + 1])
        parts.append([int(word) for word in answer[at:end]])
        at = end
    return parts


def assert_finds(probe: Probe, data: bytes, ids: Sequence[Triple], patterns: Iterable[Pattern]) -> None:
    """A graph and a layout find and count, for each pattern, the triples that match."""
    asked = list(patterns)
    expected = model.matches_of(ids, asked)
    wanted = [(pattern, [len(expected[pattern]), *items_of(expected[pattern])]) for pattern in asked]
    arguments = [n for pattern in asked for n in pattern]
    for prefix in ALL:
        answer = probe.on(data, f"{prefix}search", *arguments)
        assert list(zip(asked, split_by_pattern(answer))) == wanted, f"{prefix}search"
        for most in (0, 1, 2, MAX):
            answer = probe.on(data, f"{prefix}search_count", most, *arguments)
            assert answer == ok(*(min(most, len(expected[pattern])) for pattern in asked)), (prefix, most)


GIVEN = [None, 0, 1, 2, 3, 4]


def test_every_pattern(probe: Probe) -> None:
    """Each of 216 patterns: nothing given, 0, IDs that are there, the counts, and one more."""
    assert_finds(probe, THREE, IDS, product(GIVEN, GIVEN, GIVEN))


# Strings, of which any may be given, and the pattern of their IDs; or None where one of them isn't in its role.
NAMED: dict[Given, Optional[Pattern]] = {
    (None, None, None): (None, None, None),
    (b"u:a", None, None): (1, None, None),
    (b"u:b", None, None): (2, None, None),
    (None, b"u:p", None): (None, 1, None),
    (None, b"u:q", None): (None, 2, None),
    (None, None, b"u:a"): (None, None, 1),
    (None, None, b'"x"'): (None, None, 3),
    (b"u:a", b"u:q", b'"x"'): (1, 2, 3),
    (b"u:b", b"u:q", None): (2, 2, None),
    (b"u:a", None, b'"x"'): (1, None, 3),
    (None, b"u:p", b"u:a"): (None, 1, 1),
    (b"u:z", None, None): None,
    (None, b"", None): None,
    (None, None, b""): None,
    (b'"x"', None, None): None,
    (None, b"u:a", None): None,
    (None, None, b"u:p"): None,
    (b"u:a", b"u:p", b"u:z"): None,
    (b"", None, None): None,
}


def assert_names(probe: Probe, data: bytes, ids: Sequence[Triple], named: dict[Given, Optional[Pattern]]) -> None:
    """Strings have these patterns, by a graph and a layout, and a graph finds their matches."""
    probe.send(("file", data))
    patterns = [ok(None) if pattern is None else ("ok", *map(spelled, pattern)) for pattern in named.values()]
    for prefix in ALL:
        answers = probe.send(*((f"{prefix}pattern", *given) for given in named))
        assert list(zip(named, answers)) == list(zip(named, patterns)), f"{prefix}pattern"
    matches = [[] if pattern is None else model.matches(ids, pattern) for pattern in named.values()]
    answers = probe.send(*(("find_strings", *given) for given in named))
    assert list(zip(named, answers)) == [(given, ok(*items_of(found))) for given, found in zip(named, matches)]


def test_patterns_of_strings(probe: Probe) -> None:
    """Strings that are there, and strings that aren't, or not in that role."""
    assert_names(probe, THREE, IDS, NAMED)


def walk(strings: Sequence[bytes]) -> Answer:
    """The answer of a walk over strings: each behind its ID."""
    values: list[Argument] = []
    for n, string in enumerate(strings, 1):
        values += [n, string]
    return ok(*values)


def assert_looks_up(probe: Probe, data: bytes, strings: Sequence[Sequence[bytes]], ids: Sequence[Triple],
                    others: Sequence[bytes]) -> None:
    """A graph and a layout have these strings in the roles, and none of the others.

    Strings are appended to the bytes that are there, and a graph says which of them triples use.
    """
    expected: dict[tuple[Argument, ...], Answer] = {}
    for role, row in enumerate(strings):
        used = {triple[role] for triple in ids}
        absent = [string for string in others if string not in row]
        asked = [*range(len(row) + 3), MAX]
        for prefix in BOTH:
            expected[f"{prefix}strings", role] = walk(row)
            expected[(f"{prefix}number_of", role, *row, *absent)] = ok(*range(1, len(row) + 1), *[None] * len(absent))
            for n in asked:
                there = 1 <= n <= len(row)
                expected[f"{prefix}string_of", role, n, b"y"] = ok(
                    there, b"y" + (row[n - 1] if there else b""), *([] if prefix else [n in used]))
        many = [*range(1, len(row) + 1), *range(len(row), 0, -1)]
        texts = [row[n - 1] for n in many]
        ends = accumulate([1, *map(len, texts)])
        expected[("strings_of", role, b"y", *many)] = ok(True, b"y" + b"".join(texts), *ends)
        expected[("strings_of", role, b"y", *many, len(row) + 1)] = ok(False, b"y", 1)
        expected[("uses_of", role, *asked)] = ok(*(n in used for n in asked))
    answers = probe.send(("file", data), *expected)[1:]
    assert dict(zip(expected, answers)) == expected


def test_look_ups(probe: Probe) -> None:
    """The strings of each role, their IDs, and which IDs triples use."""
    assert_looks_up(probe, THREE, STRINGS, IDS, [b"u:z", b"", b"u:", b"u:aa", b'"', b"v"])


def assert_prefixes(probe: Probe, data: bytes, strings: Sequence[Sequence[bytes]], tried: Sequence[bytes]) -> None:
    """In a graph and a layout the IDs of the strings that begin with a prefix are those of a plain filter."""
    probe.on(data, "open")
    for role, row in enumerate(strings):
        found = [prefixes.begin(row, prefix) for prefix in tried]
        for word in "ids_with_prefix", "layout_ids_with_prefix":
            assert prefixes.ids_of(probe.ask(word, role, *tried), len(row), 2) == found, (word, role)


def test_prefixes(probe: Probe) -> None:
    """The IDs of the strings of each role that begin with a prefix."""
    assert_prefixes(probe, THREE, STRINGS, [*prefixes.SPECIAL, *prefixes.near(STRINGS[0] + STRINGS[2]), b"u:z", b"v"])


def test_whole(probe: Probe) -> None:
    """The counts, the header body, and the numbers that are held; each string is used, so the file is tight."""
    body, counts = THREE[68:218], (3, 2, 0, 2, 1)
    assert probe.on(THREE, "open_tight") == ok(*counts, 17) == probe.ask("open")
    assert probe.ask("layout") == ok(*counts, 2, 2, 3)
    assert probe.ask("graph") == ok(body, 2, 2, 3, *counts)


# A large graph: more than 65,536 strings in each section and 131,072 pairs and triples. The last string of each section
# has 100,000 bytes and is no term; the header body is as long.

SECTION, LONG = 66_000, 100_000


class Large(NamedTuple):
    """The file, its strings in each role, and its triples."""

    data: bytes
    strings: tuple[list[bytes], list[bytes], list[bytes]]
    ids: list[Triple]


def section_texts(first: int) -> list[bytes]:
    """`u:` and six digits; the last one has `uz` and many more bytes."""
    texts = [b"u:%06d" % n for n in range(first, first + SECTION - 1)]
    return [*texts, b"uz%06d" % (first + SECTION - 1) + b"x" * LONG]


@pytest.fixture(scope="module")
def large() -> Large:
    """Subjects and predicates are `u:000000` to `u:065999`, then come the shared strings, then the objects.

    Each subject has a triple with the object of the same ID; each predicate has two.
    """
    subjects, shared, objects = (section_texts(n * SECTION) for n in range(3))
    ids = [(n, (n - 1) % SECTION + 1, n) for n in range(1, 2 * SECTION + 1)]
    data = model.write_head(b"y" * LONG) + model.write_dictionary(shared, subjects, subjects, objects)
    return Large(data + model.write_triples(ids), (shared + subjects, subjects, shared + objects), ids)


def test_large_graph_opens(probe: Probe, large: Large) -> None:
    """Each call that reads a whole file gives its counts."""
    counts = 2 * SECTION, SECTION, SECTION, SECTION, SECTION
    held = 2 * (-(-2 * SECTION // 512) + 1) + 2 * len(large.ids) + 3 * SECTION + 2
    answers = probe.send(("file", large.data), ("verify",), ("verify_tight",), ("open",), ("open_tight",))
    assert answers[1:] == [ok(*counts)] * 2 + [ok(*counts, held)] * 2
    assert (probe.ask("graph") == ok(b"y" * LONG, 2 * SECTION, SECTION, 2 * SECTION, *counts)) is True
    assert (probe.ask("layout") == ok(*counts, 2 * SECTION, SECTION, 2 * SECTION)) is True


@pytest.mark.parametrize("role", range(3))
@pytest.mark.parametrize("prefix", BOTH, ids=["graph", "layout"])
def test_large_graph_looks_up(probe: Probe, large: Large, prefix: str, role: int) -> None:
    """Strings at the ends of the sections and around 65,536, behind 100,000 bytes; and the walk over all strings."""
    strings = large.strings[role]
    ids = [n for n in (1, 65_536, 65_537, 66_000, 66_001, 132_000) if n <= len(strings)]
    past = [n for n in (66_001, len(strings) + 1) if n > len(strings)]
    probe.on(large.data, "verify")
    assert probe.ask(f"{prefix}number_of", role, *(strings[n - 1] for n in ids)) == ok(*ids)
    out = b"y" * LONG
    uses = [[True], [False]] if prefix == "" else [[], []]
    expected = [(n, ok(True, out + strings[n - 1], *uses[0])) for n in ids]
    expected += [(n, ok(False, out, *uses[1])) for n in past]
    for n, answer in expected:
        assert (probe.ask(f"{prefix}string_of", role, n, out) == answer) is True, f"another string than that of {n}"
    assert (probe.ask(f"{prefix}strings", role) == walk(strings)) is True, "another walk"


def test_prefixes_of_a_large_graph(probe: Probe, large: Large) -> None:
    """The same with 132,000 strings in a role, of which half are shared."""
    rows = large.strings
    tried = [*prefixes.SPECIAL, *prefixes.near([rows[0][0], rows[2][-1]]), *prefixes.some(rows[0] + rows[2], 30, 0)]
    assert_prefixes(probe, large.data, rows, tried)


def test_large_graph_searches(probe: Probe, large: Large) -> None:
    """The eight patterns of triples at both ends and around 65,536."""
    triples = [(1, 1, 1), (65_537, 65_537, 65_537), (66_001, 1, 66_001), (132_000, 66_000, 132_000)]
    assert_finds(probe, large.data, large.ids, dict.fromkeys(
        pattern for triple in triples for pattern in model.patterns(triple) if pattern != (None, None, None)))
    for prefix in BOTH:
        answer = probe.ask(f"{prefix}search", None, None, None)
        assert (answer == ok(len(large.ids), *items_of(large.ids))) is True, "other triples"


def test_large_graph_finds_each_triple(probe: Probe, large: Large) -> None:
    """Each triple is found by its three IDs. A search that walks over all triples would take minutes."""
    answer = probe.on(large.data, "search", *(n for triple in large.ids for n in triple))
    assert (answer == ok(*(value for triple in large.ids for value in (1, 1, *triple)))) is True, "other triples"


def line(triple: Triple) -> bytes:
    """The line of a triple of the large graph."""
    n, p, _ = triple
    return b"<u:%06d> <u:%06d> <u:%06d> .\n" % (n + SECTION - 1, p - 1, n + SECTION - 1)


def test_text_of_a_large_graph(probe: Probe, large: Large) -> None:
    """The text of a part of the triples is written, though there is none of all: a string is no term."""
    lines = b"".join(map(line, large.ids[:SECTION - 1]))
    assert len(lines) == 2_309_965 and lines.endswith(b"<u:131998> <u:065998> <u:131998> .\n")
    probe.send(("file", large.data))
    no_term = "not", "a", "term", "0", "66000"
    text = probe.ask("layout_text", SECTION - 1, None, None, None)
    assert (text == ok(lines)) is True, "a part"
    assert probe.ask("layout_text", SECTION, None, None, None) == no_term
    for request in ("layout_text", None), ("graph_text",):
        assert probe.ask(*request, None, None, None) == no_term
    # The last subject's ID is large.
    assert probe.ask("graph_text", 132_000, None, None) == ("not", "a", "term", "0", "132000")


def test_text_of_a_large_graph_by_one_speller(probe: Probe, large: Large) -> None:
    """One `Speller` appends a text twice, of triples with more predicates than it keeps, and then a longer one."""
    lines = [line(triple) for triple in large.ids[:SECTION - 1]]
    whole = [None] * 3
    texts = b"".join(lines[:1_000]) * 2 + b"".join(lines)
    seen = probe.on(large.data, "append_graph_text", b"", 1_000, *whole, 1_000, *whole, SECTION - 1, *whole)
    assert (seen == ok("done", "done", "done", texts)) is True, "another text"


# Properties

styles = st.builds(
    model.Style, block_size=st.sampled_from([1, 2, 3, 16]), width=st.sampled_from([0, 0, 12, 63]),
    padding=st.sampled_from([0, -1]), longest_prefixes=st.booleans(), behind=st.sampled_from([b"", b"a=b"]))


@st.composite
def graphs(draw: st.DrawFn) -> tuple[model.Written, model.File]:
    """Graphs of a few strings, which may be subjects, predicates and objects; some files have unused strings."""
    pool = draw(st.lists(texts, unique=True, min_size=1, max_size=8))
    some = st.sampled_from(pool)
    triples = draw(st.lists(st.tuples(some, some, some), min_size=1, max_size=14, unique=True))
    unused = set(draw(st.lists(texts, max_size=2))) - set(pool)
    subjects, predicates, objects = ({triple[role] for triple in triples} for role in range(3))
    parts = model.split(subjects, predicates | unused, objects | unused)
    written = model.write_file(triples, parts, None, draw(styles))
    return written, model.read_file(written.data)


part = st.one_of(st.none(), st.integers(0, 9), st.sampled_from([MAX]))


@examples()
@given(graphs(), st.tuples(part, part, part), st.data())
def test_search_is_a_filter(probe: Probe, graph: tuple[model.Written, model.File], pattern: Pattern,
                            data: st.DataObject) -> None:
    """A graph and a layout find the triples that match a pattern of IDs, and a graph those of strings."""
    written, file = graph
    some = data.draw(st.integers(0, len(written.ids) - 1))
    assert_finds(probe, written.data, written.ids, dict.fromkeys([pattern, *model.patterns(written.ids[some])]))
    ids = [{string: n for n, string in enumerate(file.dictionary.strings(role), 1)} for role in model.ROLES]
    asked: list[Given] = [(s, p, o) for s, p, o in product(*((None, string) for string in written.strings[some]))]
    s, p, o = (st.one_of(st.none(), st.sampled_from([b"", b"z", *row])) for row in ids)
    asked.append(data.draw(st.tuples(s, p, o)))
    named: dict[Given, Optional[Pattern]] = {}
    for strings in asked:
        a, b, c = (None if string is None else row.get(string, 0) for string, row in zip(strings, ids))
        named[strings] = None if 0 in (a, b, c) else (a, b, c)
    assert_names(probe, written.data, written.ids, named)


@examples()
@given(graphs(), texts)
def test_look_ups_are_inverse(probe: Probe, graph: tuple[model.Written, model.File], other: bytes) -> None:
    """Strings and IDs of a role are those of the reference, in both directions."""
    written, file = graph
    strings = [file.dictionary.strings(role) for role in model.ROLES]
    others = {other, other + b"a", other[:1], b"", b"\xff", *(string for row in strings for string in row)}
    assert_looks_up(probe, written.data, strings, written.ids, sorted(others))
