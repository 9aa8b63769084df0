"""hdt.parts and hdt.fragments on more than 2^20 triples and strings of a role. (test_large_rdflib has hdt.rdflib.)"""

from __future__ import annotations

import gzip
import zlib
from itertools import repeat
from pathlib import Path
from typing import Any, TypeVar

import pytest

from support.fragments import BASE, Site, fragments, url
from support.large import COUNT, LARGE, MOST, Files, Large, last
from support.parts import parts
from test_fragments import HYDRA, controls, data
from test_large_calls import GIVEN, ROLES, column_of, pattern, strings_of

Row = TypeVar("Row")


@pytest.fixture(params=LARGE)
def it(request: pytest.FixtureRequest) -> Large:
    """A large graph."""
    return LARGE[request.param]


# ---- hdt.parts

# How many parts each graph has: one, if that is how it has more than 2^20 subjects.
PARTS = {"subjects": 1, "predicates": 2, "objects": 2, "shared": 2}


def by_parts(it: Large, rows: list[Row]) -> list[Row]:
    """What belongs to the triples, part by part."""
    count = PARTS[it.name]
    if count == 1 or not it.large[0]:
        return rows
    homes = [zlib.crc32(subject.encode()) % count for subject in strings_of(it, 0)]
    return [row for part in range(count) for row, home in zip(rows, homes) if home == part]


@pytest.fixture
def folder(it: Large, large_files: Files, tmp_path: Path) -> Path:
    """The graph in parts, built of an input without triples and a large one: compressed, HDT, or with limited lines."""
    document = large_files.file(it) if it.name == "shared" else large_files.document(it)
    empty, out = tmp_path / "empty.nt", tmp_path / "graph.parts"
    empty.write_bytes(b"# nothing\n")
    if it.name == "objects":
        packed = tmp_path / "graph.nt.gz"
        packed.write_bytes(gzip.compress(document.read_bytes(), 1))
        document = packed
    longest = len(last(it.line)) - 1 if it.name == "predicates" else None
    manifest = parts.build([empty, document], out, PARTS[it.name], longest_line=longest)
    assert (manifest.triples, manifest.subjects) == (COUNT, it.count(0))
    return out


def test_parts(it: Large, folder: Path) -> None:
    """The counts, and all matches as strings and as text, in both orders, and from one on."""
    everything = pattern(it, it.constant)
    patterns: list[Any] = [pattern(it, given) for given in GIVEN]
    counts = [COUNT if it.matches_all(given) else 1 for given in GIVEN]
    with parts.open(folder) as graph:
        graph.verify()
        assert (len(graph), graph.subjects) == (COUNT, it.count(0))
        predicates = list(graph.predicates())
        wanted = list(zip(strings_of(it, 1), repeat(1 if it.large[1] else COUNT)))
        assert (len(predicates), predicates == wanted) == (it.count(1), True)
        assert graph.matching_all(patterns) == [graph.matching(*terms) for terms in patterns] == counts
        assert [graph.position(*terms, skip=count) for terms, count in zip(patterns, counts)] == [None] * len(GIVEN)
        assert graph.position(*everything, skip=COUNT - 1) == COUNT - 1
        lines = by_parts(it, it.document.splitlines(keepends=True))
        text = graph.text(*everything).encode()
        assert (len(text), text == b"".join(lines)) == (len(it.document), True)
        triples = list(zip(*(column_of(it, role) for role in range(3))))
        found, in_order = list(graph.find(*everything)), list(graph.find(*everything, order="strings"))
        assert (len(found), found == by_parts(it, triples)) == (COUNT, True)
        assert (len(in_order), in_order == triples) == (COUNT, True)
        assert list(graph.find(start=MOST)) == graph.page(start=MOST, limit=COUNT)[0] == found[MOST:]
        if it.name == "objects":  # (the others have the same loop)
            page, following = graph.page(limit=MOST)
            assert (following, page == found[:MOST]) == (MOST, True)
        assert all(triple in graph for triple in (triples[0], triples[-1]))


# ---- hdt.fragments

PAGE_SIZE = 1000
# A page whose first match is more than the 2^20th one.
FAR = MOST // PAGE_SIZE + 2


@pytest.fixture
def site(it: Large, large_files: Files) -> Site:
    """The application that serves the graph."""
    return Site(fragments.Application({"page_size": PAGE_SIZE, "datasets": {
        "large": {"file": str(large_files.file(it)), "download": True}}}))


def lines_of(it: Large, page: int) -> str:
    """The lines of a page of all triples."""
    lines, size = it.document, len(last(it.line))
    assert len(lines) == size * COUNT
    return lines[(page - 1) * PAGE_SIZE * size:page * PAGE_SIZE * size].decode()


def test_fragments(it: Large, site: Site) -> None:
    """The count of each pattern, and pages far behind, by their numbers and by the links between them."""
    for given in GIVEN:
        asked: dict[str, str] = {role: term for role, term in zip(ROLES, pattern(it, given)) if term is not None}
        if not it.matches_all(given):
            answer = site.nquads(url("large", **asked))
            assert (answer.total, data(answer.text)) == (1, last(it.line).decode())
            continue
        answer = site.nquads(url("large", page=FAR, **asked))
        assert (answer.total, data(answer.text)) == (COUNT, lines_of(it, FAR))
        following, = (o for _, p, o in controls(answer.text) if p == HYDRA + "next")
        assert data(site.nquads("/" + following[len(BASE):]).text) == lines_of(it, FAR + 1)
        answer = site.ask(url("large", page=COUNT // PAGE_SIZE, **asked), Accept="application/n-triples")
        assert lines_of(it, COUNT // PAGE_SIZE) in answer.text and HYDRA + "next" not in answer.text
        assert site.nquads(url("large", page=COUNT // PAGE_SIZE + 1, **asked)).status == 404


def test_descriptions(it: Large, site: Site, large_files: Files) -> None:
    """The counts of the graph, for programs and for people, and the whole file."""
    found = site.nquads("/large/void").text
    sizes = {"triples": COUNT, "distinctSubjects": it.count(0), "properties": it.count(1),
             "distinctObjects": it.count(2)}
    for name, count in sizes.items():
        assert f'#{name}> "{count}"' in found
    assert f"{COUNT:,}" in site.ask("/large", Accept="text/html").text
    answer = site.ask("/large/data.hdt")
    assert (answer.status, answer.body == large_files.file(it).read_bytes()) == (200, True)
