"""Calls of the Python package on IDs, parts of results, prefixes, text in pieces, and graphs that are pickled."""

from __future__ import annotations

import array
import copy
import importlib.util
import io
import os
import pickle
import random
import sys
from collections.abc import Callable, Iterator
from functools import partial
from itertools import chain, product
from pathlib import Path
from typing import Any, Optional, Union
from unittest import mock

import pytest
from hypothesis import example, given
from hypothesis import strategies as st

from reference import hdt as reference
from support import c_files, program
from support.built import SAMPLES
from support.c_library import CC, succeeds
from support.python_package import ENVIRONMENT, PACKAGE, hdt
from test_python import GRAPHS, ROLES, THREE, WORKED, Triple, built, lines, matching, patterns_of, strings_of

from hdt import _calls, _columns, _files, _handle, _library

Ids = tuple[int, int, int]
Part = Union[str, int, None]

COUNTS = st.one_of(st.none(), st.integers(0, 25), st.sampled_from([2**63, 2**64, 2**70]))


@pytest.fixture
def three() -> Iterator[hdt.Graph]:
    """The sample with three triples, open."""
    with hdt.open(THREE) as graph:
        yield graph


@pytest.fixture(scope="module")
def many(tmp_path_factory: pytest.TempPathFactory) -> Iterator[tuple[hdt.Graph, list[Triple]]]:
    """A graph of 100,000 triples with literals that aren't ASCII, and the triples in its order."""
    source = random.Random(52)
    subjects = [f"http://example.org/{n}" for n in range(30_000)]
    objects = subjects[:10_000] + [f'"{n} \u20ac \U0001f600 \u00e9"@fr' for n in range(20_000)]
    triples = {(source.choice(subjects), f"u:p{n % 7}", source.choice(objects)) for n in range(100_000)}
    path, _ = built(tmp_path_factory.mktemp("many"), sorted(triples))
    with hdt.open(path) as graph:
        found = list(graph)
        assert set(found) == triples
        yield graph, found


def numbers_of(graph: hdt.Graph, triple: Triple) -> Ids:
    """The IDs of a triple."""
    s, p, o = (graph.number(role, term) or 0 for role, term in zip(ROLES, triple))
    return s, p, o


# ---- terms in brackets

SEARCHES: dict[str, Callable[..., Any]] = {
    name: getattr(hdt.Graph, name)
    for name in ("matching", "matching_ids", "find", "find_ids", "id_array", "page", "page_ids", "page_text",
                 "position", "text", "text_pieces")
}


@pytest.mark.parametrize("call", SEARCHES)
def test_terms_in_brackets(three: hdt.Graph, call: str) -> None:
    """An IRI as N-Triples writes it is a ValueError that says what to write, and not a search without a match."""
    for pattern in (("<u:a>",), (None, "<u:p>"), ("u:a", "u:p", "<u:b>")):
        with pytest.raises(ValueError, match=r"no brackets: write '(u:\w)' for '<\1>'"):
            SEARCHES[call](three, *pattern)
    for other in ("<", ">", "<u:a", "u:a>", '"<x>"', "?s", "u:none"):
        SEARCHES[call](three, other)
    with pytest.raises(ValueError, match="no brackets"):
        ("<u:a>", "u:p", "u:b") in three
    with pytest.raises(ValueError, match="no brackets"):
        three.write_text(io.BytesIO(), "<u:a>")


def test_brackets_in_a_file() -> None:
    """A file of another program that has such a string, in that role, is searched for it."""
    data, *_ = reference.graph([(b"<u:a>", b"u:p", b"u:b")], b"u:base", 16)
    with hdt.Graph(data) as graph:
        assert list(graph.find("<u:a>")) == [("<u:a>", "u:p", "u:b")] == graph.page("<u:a>")[0]
        assert graph.matching("<u:a>") == graph.matching_ids("<u:a>", 1) == 1 and ("<u:a>", "u:p", "u:b") in graph
        with pytest.raises(ValueError, match="no brackets"):
            graph.find(o="<u:a>")


def test_pages_without_triples(three: hdt.Graph) -> None:
    """A page with the limit 0 has no triples, and the position of the first match."""
    for position, ids in enumerate(three.find_ids()):
        assert three.page_ids(*ids, limit=0) == ([], position) == three.page_ids(*ids, start=position, limit=0)
        assert three.page_ids(*ids, start=position + 1, limit=0) == ([], None)
    assert three.page(p="u:q", limit=0) == ([], 1) and three.page("u:none", limit=0) == ([], None)


# ---- parts of results, and searches by IDs


@given(GRAPHS, st.integers(0, 25) | st.sampled_from([2**63, 2**64, 2**70]), COUNTS, st.integers(0, 19))
@example(WORKED, 1, 1, 0)
def test_limit_and_start(triples: list[Triple], start: int, limit: Optional[int], at: int) -> None:
    """Each pattern with a start and a limit gives that slice of its matches, as strings and as IDs."""
    with hdt.Graph(reference.graph(strings_of(triples)).data) as graph:
        found = list(graph)
        for pattern in patterns_of(found[at % len(found)]):
            wanted = matching(found, pattern)
            wanted = wanted[min(start, 100):][:None if limit is None else min(limit, 100)]
            ids = [numbers_of(graph, triple) for triple in wanted]
            assert list(graph.find(*pattern, limit=limit, start=start)) == wanted
            assert list(graph.find_ids(*pattern, limit=limit, start=start)) == ids
            assert list(graph.id_array(*pattern, limit=limit, start=start)) == ids


@given(GRAPHS, st.integers(0, 19), st.data())
@example(WORKED, 0, None)
def test_parts_by_id(triples: list[Triple], at: int, data: Optional[st.DataObject]) -> None:
    """Each part of a pattern may be a string or its ID."""
    with hdt.Graph(reference.graph(strings_of(triples)).data) as graph:
        found = list(graph)
        triple = found[at % len(found)]
        ids = numbers_of(graph, triple)
        for pattern in patterns_of(triple):
            wanted = [numbers_of(graph, it) for it in matching(found, pattern)]
            for by_id in product((False, True), repeat=3):
                parts: list[Part] = [
                    number if term is not None and is_id else term for term, number, is_id in zip(pattern, ids, by_id)]
                assert list(graph.find_ids(*parts)) == list(graph.find_numbers(*parts)) == wanted
                assert list(graph.id_array(*parts)) == wanted
                assert graph.matching_ids(*parts) == len(wanted)


@pytest.mark.parametrize("number", [0, -1, 3, 2**64, 2**64 + 1, -(2**64)])
@pytest.mark.parametrize("role", range(3))
def test_ids_of_no_string(number: int, role: int, three: hdt.Graph) -> None:
    """An ID that no string of the role has matches nothing."""
    number += role == 2 and number == 3  # (there are three objects)
    parts: list[Part] = [None, None, None]
    parts[role] = number
    assert (list(three.find_ids(*parts)), three.matching_ids(*parts), len(three.id_array(*parts))) == ([], 0, 0)


BAD_WINDOWS: dict[str, tuple[dict[str, Any], type[Exception]]] = {
    "start": ({"start": -1}, ValueError),
    "limit": ({"limit": -1}, ValueError),
    "no integer": ({"limit": 1.0}, TypeError),
    "no integer to start": ({"start": "1"}, TypeError),
}


@pytest.mark.parametrize("call", ["find", "find_ids", "id_array"])
@pytest.mark.parametrize("window", BAD_WINDOWS)
def test_bad_windows(window: str, call: str, three: hdt.Graph) -> None:
    """A negative start or limit is a ValueError at the call, and no integer is a TypeError."""
    options, error = BAD_WINDOWS[window]
    with pytest.raises(error):
        getattr(three, call)(**options)


@pytest.mark.parametrize("wrong", [1.0, b"u:a", ()])
def test_bad_parts(wrong: Any, three: hdt.Graph) -> None:
    """A part is a str, an integer or None; a term is no integer."""
    for call in ("find_ids", "matching_ids", "id_array"):
        with pytest.raises(TypeError):
            getattr(three, call)(wrong)
    with pytest.raises(TypeError):
        three.find(1)  # type: ignore[arg-type]


def test_terms_are_plain_strings(three: hdt.Graph) -> None:
    """A given term of a class of its own comes back as a plain str."""

    class Iri(str):
        def __str__(self) -> str:
            return "other"

    found = list(three.find(Iri("u:a"), Iri("u:p"), Iri("u:b")))
    assert found == [("u:a", "u:p", "u:b")] and {type(term) for term in found[0]} == {str}


# ---- arrays


def test_arrays(three: hdt.Graph) -> None:
    """An array of triples is a sequence of them, lends its IDs, and is a value."""
    ids = three.id_array()
    triples = [(1, 1, 2), (1, 2, 3), (2, 1, 1)]
    assert list(ids) == triples and len(ids) == 3 and ids[0] == triples[0] and ids[-1] == triples[-1]
    assert (2, 1, 1) in ids and ids.index((1, 2, 3)) == 1 and list(reversed(ids)) == triples[::-1]
    assert ids.array.typecode == "Q" and memoryview(ids.array).nbytes == 72
    assert [ids.column(role).tolist() for role in ROLES] == [list(it) for it in zip(*triples)]
    assert repr(ids) == "<hdt.IdArray of 3 triples>"
    assert ids == three.id_array() == pickle.loads(pickle.dumps(ids)) == copy.copy(ids) != three.id_array(p=1)
    assert ids != triples
    bounds = [None, *range(-4, 5)]
    for first, last, step in product(bounds, bounds, (None, 1, 2, -1, -2)):
        assert list(ids[first:last:step]) == triples[first:last:step]
    for at in (3, -4):
        with pytest.raises(IndexError):
            ids[at]
    with pytest.raises(ValueError):
        ids.column("verb")  # type: ignore[arg-type]
    with pytest.raises(TypeError):
        hash(ids)


@pytest.mark.parametrize("wrong", [array.array("Q", [1, 2]), array.array("L", [1, 2, 3])])
def test_arrays_of_others(wrong: Any) -> None:
    """An array of another type or length is refused."""
    with pytest.raises(ValueError):
        hdt.IdArray(wrong)


def test_arrays_of_numpy(many: tuple[hdt.Graph, list[Triple]]) -> None:
    """numpy takes an array without a copy, also an empty one, and gives IDs back."""
    numpy = pytest.importorskip("numpy")
    graph, found = many
    ids = graph.id_array()
    rows = numpy.asarray(ids)
    assert rows.shape == (len(found), 3) and rows.dtype == numpy.uint64
    assert rows.__array_interface__["data"][0] == ids.array.buffer_info()[0]
    assert numpy.frombuffer(ids.array, numpy.uint64).ctypes.data == ids.array.buffer_info()[0]
    assert (rows[:, 2] == numpy.frombuffer(ids.column("object"), numpy.uint64)).all()
    assert graph.strings("object", rows[:100, 2]) == [triple[2] for triple in found[:100]]
    assert graph.matching_ids(rows[0, 0], rows[0, 1], rows[0, 2]) == 1
    assert numpy.asarray(graph.id_array("u:none")).shape == (0, 3)


def test_many_ids(many: tuple[hdt.Graph, list[Triple]]) -> None:
    """All IDs of a large graph, iterated over and in one array, are those of its strings."""
    graph, found = many
    ids = list(graph.find_ids())
    assert ids == list(graph.id_array()) and len(ids) == len(found)
    names = [["", *graph.terms(role)] for role in ROLES]
    assert [tuple(known[number] for known, number in zip(names, it)) for it in ids] == found
    assert graph.id_array().array.buffer_info()[1] == 3 * len(found)
    for start in (0, 63, 64, 65, 5_000, len(found) - 1, len(found)):
        assert list(graph.find_ids(start=start)) == ids[start:]
        assert list(graph.find_ids(start=start, limit=20_000)) == ids[start:start + 20_000]
    assert list(graph.find(start=90_000)) == found[90_000:]


# ---- pages


def followed(page: Callable[..., tuple[list[Any], Optional[int]]], size: int) -> list[Any]:
    """All pages of this size, joined, each from the position that the one before it names."""
    found, start = [], 0
    while True:
        some, following = page(start=start, limit=size)
        found += some
        if following is None:
            return found
        assert len(some) == size and following >= start + size
        start = following


@given(GRAPHS, st.integers(0, 19), st.integers(1, 9))
@example(WORKED, 0, 1)
def test_pages(triples: list[Triple], at: int, size: int) -> None:
    """The pages of each pattern from any position on are the matches from there; the positions are those of `find`."""
    with hdt.Graph(reference.graph(strings_of(triples)).data) as graph:
        found = list(graph)
        for pattern in patterns_of(found[at % len(found)]):
            places = [n for n, triple in enumerate(found) if triple in matching(found, pattern)]
            parts = [term if term is None else graph.number(role, term) for role, term in zip(ROLES, pattern)]
            for start in range(len(found) + 2):
                wanted = [n for n in places if n >= start]
                following = wanted[size] if len(wanted) > size else None
                assert graph.page(*pattern, start=start, limit=size) == ([found[n] for n in wanted[:size]], following)
                ids = [numbers_of(graph, found[n]) for n in wanted[:size]]
                assert graph.page_ids(*parts, start=start, limit=size) == (ids, following)
                assert graph.page(*pattern, start=start, limit=0) == ([], wanted[0] if wanted else None)
                skipped = places[start] if start < len(places) else None
                assert graph.position(*pattern, skip=start) == graph.position(*parts, skip=start) == skipped
                later = wanted[at % 4] if len(wanted) > at % 4 else None
                assert graph.position(*pattern, skip=at % 4, start=start) == later
            assert graph.position(*pattern) == places[0]


@pytest.mark.parametrize("size", [7, 100, 5_000])
def test_many_pages(size: int, many: tuple[hdt.Graph, list[Triple]]) -> None:
    """The pages of a large graph, joined, are what `find` gives, for the eight patterns."""
    graph, found = many
    for kind, pattern in enumerate(patterns_of(found[50_000])):
        wanted = found if kind == 0 else matching(found, pattern)
        by_id: list[Part] = [term if term is None else graph.number(role, term) for role, term in zip(ROLES, pattern)]
        ids = list(graph.find_ids(*by_id))
        assert followed(partial(graph.page_ids, *by_id), size) == ids and len(ids) == len(wanted)
        if size > 7 or kind:
            assert followed(partial(graph.page, *pattern), size) == wanted == list(graph.find(*pattern))


def test_positions_of_many(many: tuple[hdt.Graph, list[Triple]]) -> None:
    """The position after thousands of matches, from any position on, for the eight patterns."""
    graph, found = many
    for pattern in patterns_of(found[50_000]):
        places = [n for n, triple in enumerate(found) if triple in matching([triple], pattern)]
        for start in (0, 1, 777, 50_000):
            first = next((n for n, place in enumerate(places) if place >= start), len(places))
            for skip in (0, 1, 999, 16_384, 40_000):
                wanted = places[first + skip] if first + skip < len(places) else None
                assert graph.position(*pattern, skip=skip, start=start) == wanted


def test_pages_of_searches(many: tuple[hdt.Graph, list[Triple]]) -> None:
    """A search by IDs has at most 4,096 matches in memory, and few at first."""
    graph, _ = many
    with mock.patch.object(graph, "_page", wraps=graph._page) as page:
        assert len(list(graph.find_ids(limit=20_000))) == 20_000
        rooms = [call.args[2] for call in page.call_args_list]
        assert rooms == [64, 256, 1_024, 4_096, 4_096, 4_096, 4_096, 2_272]


@pytest.mark.parametrize("start", [3, 4, 2**63, 2**64 - 1, 2**64, 2**70])
def test_pages_past_the_end(start: int, three: hdt.Graph) -> None:
    """From the end on there is nothing, and no match is skipped to."""
    for pattern in patterns_of(("u:b", "u:p", "u:a")):
        assert three.page(*pattern, start=start) == ([], None) == three.page_ids(*pattern, start=start)
        assert three.position(*pattern, skip=start) is None is three.position(*pattern, skip=1, start=start)
    assert three.page(start=2) == ([("u:b", "u:p", "u:a")], None)
    assert three.page(limit=2**70) == (list(three), None)


BAD_PAGES: dict[str, tuple[dict[str, Any], type[Exception]]] = {
    "negative start": ({"start": -1}, ValueError),
    "negative limit": ({"limit": -1}, ValueError),
    "no limit": ({"limit": None}, TypeError),
    "no integer": ({"limit": 1.0}, TypeError),
    "no integer to start": ({"start": "1"}, TypeError),
    "bytes": ({"s": b"u:a"}, TypeError),
    "a number of no kind": ({"o": 1.0}, TypeError),
}


@pytest.mark.parametrize("call", ["page", "page_ids"])
@pytest.mark.parametrize("wrong", BAD_PAGES)
def test_bad_pages(wrong: str, call: str, three: hdt.Graph) -> None:
    """A negative number is a ValueError, and another type a TypeError."""
    options, error = BAD_PAGES[wrong]
    with pytest.raises(error):
        getattr(three, call)(**options)


def test_bad_positions(three: hdt.Graph) -> None:
    """`page` takes strings only; a position is after so many matches as a number says that isn't negative."""
    with pytest.raises(TypeError):
        three.page(1)  # type: ignore[arg-type]
    with pytest.raises(ValueError):
        three.position(skip=-1)
    with pytest.raises(ValueError):
        three.position(start=-1)
    with pytest.raises(TypeError):
        three.position(skip=1.0)  # type: ignore[arg-type]


# ---- strings of many triples


@pytest.mark.parametrize("change", [
    {}, {"_MOST": 4_096}, {"_BYTES": 1}, {"_WHOLE": 0}, {"_WHOLE_BYTES": 100_000}, {"_WHOLE": 10**9},
], ids=lambda change: ",".join(change) or "as they are")
def test_portions(change: dict[str, Any], many: tuple[hdt.Graph, list[Triple]]) -> None:
    """Whatever the portions are and which roles are kept, the triples are the same."""
    graph, found = many
    with mock.patch.multiple(_columns, _FEW=4, **change):
        assert list(graph) == found
        assert list(graph.find(p="u:p1")) == matching(found, (None, "u:p1", None))


def test_kept_strings_have_a_bound(many: tuple[hdt.Graph, list[Triple]]) -> None:
    """A role whose strings take more than is kept is looked up by portions."""
    graph, found = many
    columns = _columns.Columns(graph, _calls.matched(None, None, None))
    with mock.patch.multiple(_columns, _WHOLE_BYTES=100_000):
        assert list(columns.triples(0, None)) == found
    assert [it is None for it in columns._whole] == columns._too_large == [True, False, True]


# ---- strings by prefix, and all of a role


PREFIXES = st.text(st.sampled_from('u:ab"_é€\U0001f600htp/x@\udc80'), max_size=4)


@given(GRAPHS, st.lists(PREFIXES, max_size=5), st.sampled_from([1, 2, 16]))
@example(WORKED, ["u:", '"'], 16)
def test_prefixes(triples: list[Triple], prefixes: list[str], block_size: int) -> None:
    """The IDs by a prefix are those of the strings that begin with it, in at most two ranges."""
    with hdt.Graph(reference.graph(strings_of(triples), b"u:base", block_size).data) as graph:
        for role in ROLES:
            terms = list(graph.terms(role))
            assert terms == [graph.string(role, n) for n in range(1, graph.count(role) + 1)]
            for prefix in ["", *prefixes, *(term[:n] for term in terms for n in (1, 3, 9))]:
                ranges = graph.ids_with_prefix(prefix, role)
                assert len(ranges) <= (1 if role == "predicate" else 2) and all(ranges)
                wanted = [n for n, term in enumerate(terms, 1) if term.startswith(prefix)]
                assert list(chain.from_iterable(ranges)) == wanted, (prefix, role)


def test_many_terms(many: tuple[hdt.Graph, list[Triple]]) -> None:
    """All strings of a role come in the order of their IDs; a prefix finds those of both sections."""
    graph, found = many
    for place, role in enumerate(ROLES):
        terms = list(graph.terms(role))
        assert len(terms) == graph.count(role) and set(terms) == {triple[place] for triple in found}
        assert terms == graph.strings(role, range(1, len(terms) + 1))
    prefix = "http://example.org/1"
    ids = list(chain.from_iterable(graph.ids_with_prefix(prefix, "subject")))
    assert set(graph.strings("subject", ids)) == {s for s, _, _ in found if s.startswith(prefix)}


def test_predicates(many: tuple[hdt.Graph, list[Triple]]) -> None:
    """Each predicate comes once, with the number of its triples."""
    graph, found = many
    counts = dict(graph.predicates())
    assert counts == {f"u:p{n}": sum(p == f"u:p{n}" for _, p, _ in found) for n in range(7)}
    assert list(counts) == list(graph.terms("predicate"))


@pytest.mark.parametrize("call", [
    lambda graph: graph.terms("verb"), lambda graph: graph.ids_with_prefix("u:", "verb"),
    lambda graph: graph.ids_with_prefix("u:", "subjects"),
])
def test_other_roles(call: Callable[[hdt.Graph], object], three: hdt.Graph) -> None:
    """Another word for a role is a ValueError at the call."""
    with pytest.raises(ValueError, match="no such role"):
        call(three)


# ---- text in pieces


@given(GRAPHS, st.integers(0, 19), st.sampled_from([1, 2, 7, 1_024]))
@example(WORKED, 0, 1)
def test_text_in_pieces(triples: list[Triple], at: int, size: int) -> None:
    """The pieces of each pattern's text, none of them empty, are that text."""
    with hdt.Graph(reference.graph(strings_of(triples)).data) as graph, mock.patch.object(_handle, "_LINES", size):
        found = list(graph)
        for pattern in [*patterns_of(found[at % len(found)]), [None, "u:none", None], ["u:none", None, None]]:
            pieces = list(graph.text_pieces(*pattern))
            assert "".join(pieces) == graph.text(*pattern)
            assert all(piece.count("\n") <= size and piece.endswith("\n") for piece in pieces)
            pages: list[str] = []
            start: Optional[int] = 0
            while start is not None:
                page, start = graph.page_text(*pattern, start=start, limit=size)
                pages.append(page)
            assert [page for page in pages if page] == pieces
            written, told = io.BytesIO(), io.StringIO()
            graph.write_text(written, *pattern)
            graph.write_text(told, *pattern)
            assert written.getvalue().decode() == told.getvalue() == "".join(pieces)


def test_many_pieces(many: tuple[hdt.Graph, list[Triple]], tmp_path: Path) -> None:
    """The text of a large graph comes in pieces of 1,024 lines, and can be built again."""
    graph, found = many
    pieces = list(graph.text_pieces())
    assert "".join(pieces) == lines(found)
    assert len(pieces) > 50 and {piece.count("\n") for piece in pieces[:-1]} == {1_024}
    with open(tmp_path / "all.nt", "wb") as file:
        graph.write_text(file)
    assert hdt.build(tmp_path / "all.nt", tmp_path / "all.hdt").triples == len(found)
    assert "".join(graph.text_pieces(p="u:p3")) == lines(matching(found, (None, "u:p3", None)))


def test_pieces_with_a_string_that_is_no_term() -> None:
    """The pieces before it come; then it is an error, as of `text`."""
    strings = [(b"u:a", b"u:p", b"u:b"), (b"u:a", b"u:q", b"rel"), (b"u:b", b"u:p", b"u:a")]
    with hdt.Graph(reference.graph(strings).data) as graph, mock.patch.object(_handle, "_LINES", 1):
        assert list(graph.text_pieces(p="u:p")) == ["<u:a> <u:p> <u:b> .\n", "<u:b> <u:p> <u:a> .\n"]
        for subject in (None, "u:a"):
            with pytest.raises(hdt.NotATerm) as raised:
                list(graph.text_pieces(subject))
            assert (raised.value.role, raised.value.number) == ("object", 3)


# ---- closed graphs


CLOSED_CALLS: dict[str, Callable[[hdt.Graph], object]] = {
    "find_ids": lambda graph: graph.find_ids(1),
    "matching_ids": lambda graph: graph.matching_ids(p=1),
    "id_array": lambda graph: graph.id_array(),
    "page": lambda graph: graph.page(),
    "page_ids": lambda graph: graph.page_ids(1),
    "page_text": lambda graph: graph.page_text(),
    "position": lambda graph: graph.position(),
    "terms": lambda graph: graph.terms("subject"),
    "predicates": lambda graph: graph.predicates(),
    "ids_with_prefix": lambda graph: graph.ids_with_prefix("", "object"),
    "text_pieces": lambda graph: graph.text_pieces(),
    "text_pieces of a subject": lambda graph: graph.text_pieces("u:a"),
    "write_text": lambda graph: graph.write_text(io.BytesIO()),
    "pickle": pickle.dumps,
}


@pytest.mark.parametrize("call", CLOSED_CALLS)
def test_calls_on_a_closed_graph(call: str) -> None:
    """Every call on a closed graph is a ValueError; its `repr` says that it is closed."""
    graph = hdt.open(THREE)
    graph.close()
    with pytest.raises(ValueError, match="the graph is closed"):
        CLOSED_CALLS[call](graph)
    assert repr(graph) == "<hdt.Graph, closed>"


# ---- graphs that are pickled, and how they are shown


def test_repr() -> None:
    """A graph is shown with its triples and the name of its file."""
    with hdt.open(THREE) as graph, hdt.Graph(THREE.read_bytes()) as other:
        assert (repr(graph), repr(other)) == ("<hdt.Graph of 3 triples: three.hdt>", "<hdt.Graph of 3 triples>")


@pytest.mark.parametrize("copied", [None, True, False])
def test_pickled_by_path(copied: Optional[bool], tmp_path: Path, monkeypatch: pytest.MonkeyPatch) -> None:
    """A graph that `open` made is opened again by its path, also from another folder, and twice over."""
    path = tmp_path / "own.hdt"
    path.write_bytes(THREE.read_bytes())
    monkeypatch.chdir(tmp_path)
    with hdt.open("own.hdt", copied) as graph, mock.patch("hdt._graph.data_of", wraps=_files.data_of) as read:
        monkeypatch.chdir("/")
        with pickle.loads(pickle.dumps(graph)) as again, pickle.loads(pickle.dumps(again)) as third:
            assert list(third) == list(again) == list(graph)
            assert again._origin == graph._origin
        assert read.call_args_list == [mock.call(str(path), copied)] * 2
        with pytest.raises(TypeError, match="can't be copied"):
            copy.copy(graph)
        assert len(graph) == 3


@pytest.mark.parametrize("change", ["replaced", "written", "gone"])
def test_another_file_is_not_taken(change: str, tmp_path: Path) -> None:
    """A file that was replaced or written to since the graph was pickled is refused, and so is a missing one."""
    path, other = tmp_path / "own.hdt", tmp_path / "other.hdt"
    for it in (path, other):
        it.write_bytes(THREE.read_bytes())
    with hdt.open(path) as graph:
        pickled = pickle.dumps(graph)
    stat = path.stat()
    if change == "replaced":
        os.utime(other, ns=(stat.st_atime_ns, stat.st_mtime_ns))
        other.replace(path)
    elif change == "written":
        os.utime(path, ns=(stat.st_atime_ns, stat.st_mtime_ns + 1))
    else:
        path.unlink()
    with pytest.raises(OSError if change == "gone" else ValueError):
        pickle.loads(pickled)


def test_pipe_is_not_pickled() -> None:
    """A graph of a pipe can't be opened again."""
    reading, writing = os.pipe()
    with os.fdopen(writing, "wb") as file:
        file.write(THREE.read_bytes())
    with hdt.open(f"/dev/fd/{reading}") as graph, pytest.raises(TypeError, match="Graph can't be pickled"):
        pickle.dumps(graph)
    os.close(reading)


def test_graphs_of_processes() -> None:
    """A process that was started by `spawn` gets a graph by its path."""
    code = f"""
import multiprocessing, hdt
def count(graph):
    return graph.matching(p="u:p")
if __name__ == "__main__":
    with hdt.open({str(THREE)!r}) as graph, multiprocessing.get_context("spawn").Pool(2) as pool:
        print(pool.map(count, [graph] * 3))
"""
    with io.open(os.memfd_create("main.py"), "w+") as file:
        file.write(code)
        file.flush()
        command = [sys.executable, "-W", "error", f"/proc/{os.getpid()}/fd/{file.fileno()}"]
        assert program.run(command, env=ENVIRONMENT, seconds=60) == (0, b"[2, 2, 2]\n", b"")


# ---- tight verification


@pytest.mark.parametrize("name", c_files.loose_files())
def test_tight(name: str, tmp_path: Path) -> None:
    """A string that no triple uses is an error of tight verification only, and the program says the same."""
    path = tmp_path / "unused.hdt"
    path.write_bytes(c_files.loose_files()[name])
    assert hdt.verify(THREE, tight=True) == hdt.verify(THREE)
    assert hdt.verify(path).triples == 1
    with pytest.raises(hdt.Fault) as raised:
        hdt.verify(path, tight=True)
    assert (raised.value.reason, raised.value.name) == (34, "Unused")
    assert f"{path}: {program.hdt('verify', '--tight', path).err.decode()[len('hdt: '):]}" == f"{raised.value}\n"


# ---- names


def imported(code: str, *folders: Union[str, Path]) -> str:
    """What a program prints that finds packages in these folders, and the package after them."""
    environment = {**ENVIRONMENT, "PYTHONPATH": os.pathsep.join(map(str, [*folders, PACKAGE]))}
    done = program.run([sys.executable, "-W", "error", "-c", code], env=environment)
    assert (done.status, done.err) == (0, b""), done.err.decode()
    return done.out.decode()


@pytest.mark.parametrize("code", [
    "import tickmarl_hdt as t, hdt",
    "import hdt, tickmarl_hdt as t",
    "import hdt; from tickmarl_hdt import open; t = hdt",
])
def test_one_module(code: str) -> None:
    """`tickmarl_hdt` is `hdt` if nobody else has that name."""
    assert imported(f"{code}; print(t is hdt, t.Fault is hdt.Fault, t.__version__)") == "True True 2.1.0\n"


@pytest.mark.parametrize("first", ["import hdt", "pass"])
@pytest.mark.parametrize("kind", ["hdt.py", "hdt/__init__.py"])
def test_beside_another_package(first: str, kind: str, tmp_path: Path) -> None:
    """If another distribution has the name `hdt`, both are there."""
    (tmp_path / kind).parent.mkdir(exist_ok=True)
    (tmp_path / kind).write_text("HDTDocument = 'the other one'\n")
    code = f"""
{first}
import pickle, tickmarl_hdt as t
import hdt
print(hdt.HDTDocument, t is hdt)
with t.open({str(THREE)!r}) as graph:
    print(len(pickle.loads(pickle.dumps(graph))), t.Term.parse("_:b").kind)
try:
    t.verify({str(SAMPLES / "v1-head.hdt")!r})
except t.Fault as fault:
    print(fault.name)
"""
    assert imported(code, tmp_path) == "the other one False\n3 blank\nTruncated\n"


def test_version() -> None:
    """The version of the package is that of its distribution."""
    assert f'version = "{hdt.__version__}"\n' in (PACKAGE / "pyproject.toml").read_text()
    assert importlib.util.find_spec("hdt") is None or hdt.__version__ == "2.1.0"
    assert hdt.LIBHDT_VERSION == _library.VERSION == "1.4"


def test_an_old_library_is_refused(tmp_path: Path) -> None:
    """A library without one of the calls isn't taken."""
    (tmp_path / "old.c").write_text("void hdt_verify(void) {}\n")
    library = tmp_path / "libhdt.so"
    succeeds(CC, "-shared", "-fPIC", "-o", library, tmp_path / "old.c")
    done = program.run([sys.executable, "-c", "import hdt"], env={**ENVIRONMENT, "HDT_LIBRARY": str(library)})
    assert done.status == 1
    assert f"{library} is another library, or an older one: it has no hdt_verify_tight" in done.err.decode()
