"""Pages of matches and their text, and the matches after any number of others, against a filter of all triples.

The eight patterns; pages from any triple on, joined and one by one.
"""

from __future__ import annotations

from collections.abc import Iterator, Sequence
from itertools import product
from pathlib import Path
from random import Random
from time import process_time
from typing import Optional

import pytest
from hypothesis import given
from hypothesis import strategies as st

from reference import hdt as model
from reference import ntriples
from reference.hdt import MAX, Pattern, Triple
from support.built import SAMPLES
from support.probe import Answer, Probe, ok
from support.program import Word, hdt
from support.python_package import hdt as hdt_package
from support.python_package import pattern_of
from support.timing import is_linear, measure

THREE = (SAMPLES / "three.hdt").read_bytes()
THREE_IDS = [(1, 1, 2), (1, 2, 3), (2, 1, 1)]

# A page as the probe answers it: the index of the next match, and the triples.
Page = tuple[Optional[int], list[Triple]]


def agrees(pattern: Pattern, triple: Triple) -> bool:
    """Whether a triple has each ID that the pattern gives."""
    return all(wanted in (None, n) for wanted, n in zip(pattern, triple))


class Graph:
    """A file and its triples."""

    def __init__(self, strings: Sequence[tuple[bytes, bytes, bytes]]) -> None:
        self.data, self.ids, self.strings = model.graph(strings)

    def places(self, pattern: Pattern) -> list[int]:
        """The indices of the matches."""
        return [n for n, triple in enumerate(self.ids) if agrees(pattern, triple)]

    def page(self, places: Sequence[int], start: int, most: int) -> Page:
        """The page of so many matches from index `start` on, given the indices of all matches."""
        left = [n for n in places if n >= start]
        return (left[most] if most < len(left) else None), [self.ids[n] for n in left[:most]]

    def text(self, places: Sequence[int]) -> bytes:
        """The lines of the triples with these indices."""
        return b"".join(ntriples.put_strings(self.strings[n]) for n in places)


def pages_in(words: Sequence[str]) -> Iterator[Page]:
    """The pages of an answer: each the index of the next match or `none`, a count, and as many triples."""
    at = 0
    while at < len(words):
        after = None if words[at] == "none" else int(words[at])
        end = at + 2 + 3 * int(words[at + 1])
        numbers = [int(word) for word in words[at + 2 : end]]
        yield after, list(zip(numbers[::3], numbers[1::3], numbers[2::3]))
        at = end


def answers_in(answer: Answer, count: int) -> list[tuple[int, Page]]:
    """What `page` answers of so many patterns: the number of matches left, and the page behind (0, 0, 0), of each."""
    assert answer[0] == "ok", answer
    found, at = [], 1
    for _ in range(count):
        end = at + 3 + 3 * int(answer[at + 2])
        ((after, triples),) = pages_in(answer[at + 1 : end])
        assert triples[0] == (0, 0, 0), "what was there is gone"
        found.append((int(answer[at]), (after, triples[1:])))
        at = end
    assert at == len(answer)
    return found


def page_in(answer: Answer) -> tuple[int, Page]:
    """What `page` answers of one pattern."""
    return answers_in(answer, 1)[0]


def of_many() -> Graph:
    """121,000 triples: a subject of 40,000, a predicate of 100,000, an object of 50,000, and others."""
    triples = [(b"u:s%05d" % (n // 3), b"u:p%d" % (n % 3), b"u:o%05d" % (n * 7919 % 9_973)) for n in range(30_000)]
    triples += [(b"u:t", b"u:p0", b"u:o%06d" % n) for n in range(40_000)]
    triples += [(b"u:v%05d" % n, b"u:p1", b"u:z") for n in range(50_000)]
    triples += [(b"u:w", b"u:r%04d" % n, b"u:z") for n in range(1_000)]
    return Graph(triples)


@pytest.fixture(scope="module", name="many")
def fixture_many() -> Graph:
    """The large graph."""
    return of_many()


def patterns_of(graph: Graph) -> list[Pattern]:
    """The eight patterns of a few triples, and pairs of IDs that no triple has."""
    last = len(graph.ids)
    given = dict.fromkeys(
        pattern for n in (0, last // 5, last // 2, last - 500, last - 1) for pattern in model.patterns(graph.ids[n])
    )
    s, p, o = (max(triple[role] for triple in graph.ids) for role in range(3))
    return [
        *given,
        (s + 1, None, None),
        (None, p + 1, None),
        (None, None, o + 1),
        (1, p, None),
        (0, None, 0),
        (None, p, 1),
        (s, None, 1),
        (MAX, MAX, MAX),
    ]


def test_all_pages_of_three(probe: Probe) -> None:
    """Each pattern over three triples, from each index, in pages of each size."""
    graph = Graph([(b"u:a", b"u:p", b"u:b"), (b"u:a", b"u:q", b'"x"'), (b"u:b", b"u:p", b"u:a")])
    assert list(graph.ids) == THREE_IDS
    probe.on(THREE, "verify")
    for pattern in product((None, 0, 1, 2, 3), (None, 0, 1, 2, 3), (None, 0, 1, 2, 3, 4)):
        places = graph.places(pattern)
        for start, most in product((0, 1, 2, 3, 4, MAX), (0, 1, 2, 3, MAX)):
            answer = probe.ask("page", start, most, *pattern)
            expected = sum(n >= start for n in places), graph.page(places, start, most)
            assert page_in(answer) == expected, (pattern, start, most)


@st.composite
def searches(draw: st.DrawFn) -> tuple[Graph, Pattern]:
    """Any graph of a few strings, and any pattern."""
    names = st.integers(0, 5)
    triples = draw(st.sets(st.tuples(names, names, names), min_size=1, max_size=60))
    ids = st.none() | st.integers(0, 7)
    return Graph([(b"u:%d" % s, b"u:%d" % p, b"u:%d" % o) for s, p, o in triples]), draw(st.tuples(ids, ids, ids))


@given(data=st.data())
def test_pages(probe: Probe, data: st.DataObject) -> None:
    """Any graph of a few strings, any pattern, any start and any size."""
    graph, pattern = data.draw(searches())
    start = data.draw(st.integers(0, len(graph.ids) + 1))
    most = data.draw(st.integers(0, len(graph.ids) + 1))
    places = graph.places(pattern)
    expected = sum(n >= start for n in places), graph.page(places, start, most)
    assert page_in(probe.on(graph.data, "page", start, most, *pattern)) == expected


def test_pages_of_many_from_anywhere(probe: Probe, many: Graph) -> None:
    """The large graph: its eight patterns from both ends, past the end, around matches and from random triples."""
    random = Random(52)
    last = len(many.ids)
    patterns = patterns_of(many)
    places = {pattern: many.places(pattern) for pattern in patterns}
    near = {n + by for found in places.values() for n in random.sample(found, min(2, len(found))) for by in (-1, 0, 1)}
    starts = [0, 1, last - 1, last, last + 1, MAX - 1, MAX, *random.sample(sorted(near - {-1}), 20)]
    starts += [random.randrange(last) for _ in range(10)]
    probe.on(many.data, "verify")
    for start in dict.fromkeys(starts):
        most = random.choice((0, 1, 2, 7, 100))
        answer = probe.ask("page", start, most, *(n for pattern in patterns for n in pattern))
        for pattern, found in zip(patterns, answers_in(answer, len(patterns))):
            expected = sum(n >= start for n in places[pattern]), many.page(places[pattern], start, most)
            assert found == expected, (pattern, start, most)


@pytest.mark.parametrize("most", [1, 7, 1_000, 65_536, MAX])
def test_joined_pages_of_many(probe: Probe, many: Graph, tmp_path: Path, most: int) -> None:
    """The pages of the large graph, joined: those of `hdt find --numbers`, and each begins where the last one says."""
    file = tmp_path / "many.hdt"
    file.write_bytes(many.data)
    probe.on(many.data, "verify")
    for pattern in patterns_of(many)[:8]:
        places = many.places(pattern)
        answer = probe.ask("pages", most, *pattern)
        assert answer[0] == "ok"
        pages = list(pages_in(answer[1:]))
        assert [after for after, _ in pages[:-1]] == places[most::most] and pages[-1][0] is None
        joined = [triple for _, triples in pages for triple in triples]
        assert (joined == [many.ids[n] for n in places]) is True, pattern
        if pattern == (None, None, None):
            words: list[Word] = ["find", "--numbers", file, "?", "?", "?"]
            lines = b"".join(b"%d %d %d\n" % triple for triple in joined)
            assert (hdt(*words).out == lines) is True


# ---- the text of pages


def text_of_page(probe: Probe, graph: Graph, pattern: Pattern, start: int, most: int) -> None:
    """Check the text of a page, which is appended to one that is there, and the index of the next match."""
    places = graph.places(pattern)
    left = [n for n in places if n >= start]
    following = left[most] if most < len(left) else None
    expected = ok(following, b"before" + graph.text(left[:most]))
    assert probe.ask("page_text", b"before", start, most, *pattern) == expected, (pattern, start, most)


def test_all_page_texts_of_three(probe: Probe) -> None:
    """The text of each page of three triples: of each pattern, from each index, of each size."""
    graph = Graph([(b"u:a", b"u:p", b"u:b"), (b"u:a", b"u:q", b'"x\n"@en'), (b"_:b", b"u:p", b"u:a")])
    probe.on(graph.data, "verify")
    for pattern in product((None, 0, 1, 2, 3), (None, 1, 2, 3), (None, 1, 2, 3, 4)):
        for start, most in product((0, 1, 2, 3, MAX), (0, 1, 2, 3, MAX)):
            text_of_page(probe, graph, pattern, start, most)


def test_page_texts_of_many_from_anywhere(probe: Probe, many: Graph) -> None:
    """The text of pages of the large graph, of few lines and of many, from random triples."""
    random = Random(53)
    last = len(many.ids)
    probe.on(many.data, "verify")
    for pattern in patterns_of(many):
        for start in (0, random.randrange(last), random.randrange(last), last - 1, last, MAX):
            text_of_page(probe, many, pattern, start, random.choice((0, 1, 2, 7, 100, 3_000)))
    text_of_page(probe, many, (None, None, None), 1, last)
    text_of_page(probe, many, (None, None, None), 1, last - 1)


@pytest.mark.parametrize("most", [7, 1_000, 100_000])
def test_joined_page_texts_of_many(probe: Probe, many: Graph, most: int) -> None:
    """The text of all pages of the large graph, joined: one writer serves them all."""
    probe.on(many.data, "verify")
    for pattern in patterns_of(many)[:8]:
        places = many.places(pattern)
        expected = ok(*places[most::most], None, many.text(places))
        assert (probe.ask("page_texts", b"", most, *pattern) == expected) is True, pattern


def test_page_with_a_string_that_is_not_a_term(probe: Probe) -> None:
    """The first such string of the page is reported and the text is unchanged; other pages are not affected."""
    graph = Graph([(b"u:a", b"u:p", b"u:o"), (b"u:b", b"rel", b"u:o"), (b"u:b", b"u:q", b"rel"),
                   (b"u:c", b"u:p", b"u:o")])
    strings = sorted({triple[1] for triple in graph.strings})
    bad = next(n for n, triple in enumerate(graph.strings) if triple[1] == b"rel")
    assert bad == 1 and graph.strings[2][2] == b"rel"
    told = ok("not_a_term", 1, strings.index(b"rel") + 1, b"before")
    assert probe.on(graph.data, "page_text", b"before", 0, 1, None, None, None) == ok(1, b"before" + graph.text([0]))
    assert probe.ask("page_text", b"before", 0, 2, None, None, None) == told
    assert probe.ask("page_text", b"before", 1, 3, None, None, None) == told
    assert probe.ask("page_text", b"before", 3, 2, None, None, None) == ok(None, b"before" + graph.text([3]))
    assert probe.ask("page_text", b"before", 2, 1, None, None, None)[:3] == ("ok", "not_a_term", "2")
    assert probe.ask("page_texts", b"", 1, None, None, None) == ok(
        1, "not_a_term", 1, strings.index(b"rel") + 1, graph.text([0]))


# ---- the matches after some


def after(graph: Graph, pattern: Pattern, skip: int) -> list[int]:
    """What `search_after` answers of one pattern: the number of matches left, and the first two of them."""
    left = graph.places(pattern)[skip:]
    return [len(left), *(number for n in left[:2] for number in graph.ids[n])]


def test_matches_after_some_of_three(probe: Probe) -> None:
    """Each pattern over three triples, after each number of matches."""
    graph = Graph([(b"u:a", b"u:p", b"u:b"), (b"u:a", b"u:q", b'"x"'), (b"u:b", b"u:p", b"u:a")])
    probe.on(THREE, "verify")
    for pattern in product((None, 0, 1, 2, 3), (None, 0, 1, 2, 3), (None, 0, 1, 2, 3, 4)):
        for skip in (0, 1, 2, 3, MAX - 1, MAX):
            assert probe.ask("search_after", skip, *pattern) == ok(*after(graph, pattern, skip)), (pattern, skip)


@given(data=st.data())
def test_matches_after_some(probe: Probe, data: st.DataObject) -> None:
    """Any graph of a few strings, any pattern and any number of matches."""
    graph, pattern = data.draw(searches())
    skip = data.draw(st.integers(0, len(graph.ids) + 1))
    assert probe.on(graph.data, "search_after", skip, *pattern) == ok(*after(graph, pattern, skip))


def test_matches_after_many(probe: Probe, many: Graph) -> None:
    """The eight patterns of the large graph, after random numbers of matches, all of them, and more."""
    random = Random(54)
    probe.on(many.data, "verify")
    for pattern in patterns_of(many):
        count = len(many.places(pattern))
        for skip in (0, 1, random.randrange(count + 1), max(count - 1, 0), count, count + 1, MAX):
            assert probe.ask("search_after", skip, *pattern) == ok(*after(many, pattern, skip)), (pattern, skip)


# The least and the greatest of the sizes that are compared, and how often as long the greatest may take.
SIZES, RATIO, FLOOR = (7_000, 112_000), 4, 0.002
JUMPING: dict[str, tuple[Optional[int], Optional[int], Optional[int]]] = {
    "nothing given": (None, None, None),
    "a subject": (1, None, None),
    "a subject and a predicate": (1, 1, None),
    "an object": (None, None, 1),
}


@pytest.fixture(scope="module", name="sized")
def fixture_sized(tmp_path_factory: pytest.TempPathFactory) -> Iterator[dict[int, hdt_package.Graph]]:
    """For each size a graph, open in Python, in which one subject and one object have so many triples each."""
    folder = tmp_path_factory.mktemp("sized")
    graphs = {}
    for size in SIZES:
        lines = [b"<u:a> <u:p> <u:%d> .\n<u:b%d> <u:p> <u:0> .\n" % (n, n) for n in range(size)]
        (folder / "in.nt").write_bytes(b"".join(lines))
        assert hdt("build", folder / "in.nt", folder / f"{size}.hdt").status == 0
        graphs[size] = hdt_package.open(folder / f"{size}.hdt")
    yield graphs
    for graph in graphs.values():
        graph.close()


@pytest.mark.parametrize("parts", JUMPING.values(), ids=JUMPING)
def test_a_skip_jumps(sized: dict[int, hdt_package.Graph],
                      parts: tuple[Optional[int], Optional[int], Optional[int]]) -> None:
    """Skipping all matches but the last one takes as long for 112,000 matches as for 7,000."""
    pattern = pattern_of(*parts)

    def seconds(size: int) -> float:
        graph = sized[size]
        before_last = graph._matching(pattern) - 1
        assert before_last >= size - 1
        began = process_time()
        for _ in range(200):
            last = graph._matches(pattern, before_last, 2)
        taken = process_time() - began
        assert tuple(last) == list(graph.find_ids(*parts))[-1]
        return taken

    small, large = SIZES
    measured = measure(lambda: seconds(small), lambda: seconds(large), RATIO, FLOOR)
    assert is_linear(measured, RATIO, FLOOR), measured
