"""`hdt.compat`: pyHDT's document over a graph, compared with a plain filter of the triples."""

from __future__ import annotations

import random
from itertools import product
from pathlib import Path
from typing import Any

import pytest

from support.built import SAMPLES
from support.docstrings import check_example, examples, untyped
from support.python_package import hdt

# (the module is part of the package that is tested)
import hdt.compat as compat  # isort: skip

POSITIONS = compat.IdentifierPosition
ROLES: dict[compat.IdentifierPosition, hdt.Role] = {
    POSITIONS.Subject: "subject", POSITIONS.Predicate: "predicate", POSITIONS.Object: "object"}
EXPORTED = {name: getattr(compat, name) for name in compat.__all__}
EXAMPLES = examples(EXPORTED, EXPORTED)


@pytest.fixture(scope="module")
def path(tmp_path_factory: pytest.TempPathFactory) -> Path:
    """A file of some hundred triples, with every kind of term."""
    drawn = random.Random(1)
    subjects = [f"u:{n}" for n in range(12)] + ["_:b"]
    objects = [*subjects, '"x"', '"x"@en', '"é"^^<u:t>', "u:other"]
    triples = [(drawn.choice(subjects), f"u:p{drawn.randrange(3)}", drawn.choice(objects)) for _ in range(300)]
    out = tmp_path_factory.mktemp("compat") / "graph.hdt"
    hdt.build(triples, out)
    return out


@pytest.fixture
def document(path: Path) -> compat.HDTDocument:
    """The file, opened."""
    return compat.HDTDocument(str(path))


def windows(found: list[Any]) -> list[tuple[int, int, list[Any]]]:
    """Some limits and offsets, and what they leave of the matches."""
    pairs = product((0, 1, 3, len(found), len(found) + 1), (0, 1, len(found) - 1, len(found), len(found) + 5))
    return [(limit, max(offset, 0), found[max(offset, 0):][: limit or None]) for limit, offset in pairs]


@pytest.mark.parametrize("name", EXAMPLES)
def test_examples(name: str, tmp_path: Path, monkeypatch: pytest.MonkeyPatch) -> None:
    """The examples of docstrings give what they say."""
    (tmp_path / "graph.hdt").write_bytes((SAMPLES / "three.hdt").read_bytes())
    monkeypatch.chdir(tmp_path)
    check_example(EXAMPLES[name])


def test_counts(document: compat.HDTDocument, path: Path) -> None:
    """The counts are those of the graph."""
    with hdt.open(path) as graph:
        counts = [graph.count(role) for role in ROLES.values()]
        assert [document.nb_subjects, document.nb_predicates, document.nb_objects] == counts
        assert (document.total_triples, document.nb_shared) == (len(graph), graph.counts.shared)
    assert (len(document), document.file_path) == (document.total_triples, str(path))
    assert repr(document) == f"<HDTDocument {path} ({len(document)} triples)>"


def test_searches(document: compat.HDTDocument) -> None:
    """Each search gives the matches of a plain filter, in any window, with their number."""
    triples = list(document.graph)
    for s, p, o in product(("", "u:1", "_:b", "u:none"), ("", "u:p1", "u:none"), ("", "u:2", '"x"@en', '"none"')):
        wanted = [it for it in triples if s in ("", it[0]) and p in ("", it[1]) and o in ("", it[2])]
        for limit, offset, part in windows(wanted):
            found, cardinality = document.search_triples(s, p, o, limit, offset)
            assert (cardinality, len(found), found.size_hint()) == (len(wanted), len(part), len(part))
            assert (found.subject, found.predicate, found.object) == (s, p, o)
            assert (found.limit, found.offset) == (limit, offset)
            assert list(found) == part and found.nb_reads == len(part) and not found.has_next()
            ids, cardinality = document.search_triples_ids(s, p, o, limit=limit, offset=offset)
            assert ([document.convert_tripleid(*it) for it in ids], cardinality) == (part, len(wanted))
            data, cardinality = document.search_triples_bytes(s, p, o, limit=limit, offset=offset)
            assert ([tuple(map(bytes.decode, it)) for it in data], cardinality) == (part, len(wanted))


def test_searches_by_ids(document: compat.HDTDocument) -> None:
    """0 is any ID; an ID that no term has matches nothing."""
    triples = list(document.graph.find_ids())
    for s, p, o in product((0, 1, 5, 99), (0, 2, 99), (0, 3, 15, 99)):
        wanted = [it for it in triples if s in (0, it[0]) and p in (0, it[1]) and o in (0, it[2])]
        for limit, offset, part in windows(wanted):
            found, cardinality = document.search_ids(s, p, o, limit, offset)
            assert (list(found), len(found), cardinality) == (part, len(part), len(wanted))


def test_steps(document: compat.HDTDocument) -> None:
    """An iterator can be looked at before it is read."""
    found, _ = document.search_triples("u:1", "", "")
    wanted = list(document.search_triples("u:1", "", "")[0])
    assert len(wanted) > 2
    assert (found.has_next(), found.peek(), found.peek(), found.nb_reads) == (True, wanted[0], wanted[0], 0)
    assert (found.next(), next(found), found.nb_reads) == (wanted[0], wanted[1], 2)
    assert list(found) == wanted[2:]
    for call in (found.peek, found.next):
        with pytest.raises(StopIteration):
            call()


def test_terms_and_ids(document: compat.HDTDocument) -> None:
    """IDs and terms are converted in each position."""
    for position, role in ROLES.items():
        terms = list(document.graph.terms(role))
        assert [document.convert_id(n + 1, position) for n in range(len(terms))] == terms
        assert [document.convert_term(term, position) for term in terms] == [*range(1, len(terms) + 1)]
        assert document.convert_term("u:none", position) == 0
        for n in (0, len(terms) + 1):
            with pytest.raises(IndexError):
                document.convert_id(n, position)
    wrong: Any = 4
    calls: list[Any] = [document.convert_id, document.convert_term]
    for call in calls:
        with pytest.raises(ValueError, match="no such position"):
            call(wrong, wrong)
    with pytest.raises(IndexError):
        document.convert_tripleid(1, 99, 1)


def test_what_differs(document: compat.HDTDocument) -> None:
    """What the docstring of the module says of terms in brackets, `"?"` and `close`."""
    for given in (("<u:1>", "", ""), ("?", "", ""), ("", "?", "")):
        for call in (document.search_triples, document.search_triples_ids, document.search_triples_bytes):
            with pytest.raises(ValueError):
                call(*given)
    for window in ({"limit": -1}, {"offset": -1}):
        with pytest.raises(ValueError):
            document.search_triples("", "", "", **window)
    assert not hasattr(document, "search_join")
    with document:
        pass
    with pytest.raises(ValueError, match="closed"):
        document.search_triples("", "", "")


@pytest.mark.parametrize("is_mapped", [True, False])
def test_mapped_or_read(is_mapped: bool, path: Path, tmp_path: Path) -> None:
    """By default the file is mapped."""
    with compat.HDTDocument(path, map=is_mapped) as document:
        mapped = Path("/proc/self/maps").read_text().count(str(path))
        assert (mapped > 0, len(document) > 200) == (is_mapped, True)
    with pytest.raises(hdt.Fault, match="NotHdt"):
        compat.HDTDocument(SAMPLES / "three.nt", map=is_mapped, progress=True)


def test_annotations() -> None:
    """Each parameter and each result has a type."""
    assert untyped({f"HDTDocument.{key}": it for key, it in vars(compat.HDTDocument).items()}) == []
