"""Each call of the Python package, and so of the C library, on more than 2^20 triples and strings of a role.

Those of the library that the package lacks are called by their declarations. (rust/tests/large.rs is that of Rust.)
"""

from __future__ import annotations

import array
import ctypes
import io
import zlib
from collections.abc import Callable, Iterator, Sequence
from itertools import chain, product, repeat
from pathlib import Path
from typing import Any

import pytest

from support.built import SHARED_LIBRARY
from support.large import COUNT, LARGE, MOST, Files, Large, first, last, many
from support.python_package import hdt

ROLES: tuple[hdt.Role, hdt.Role, hdt.Role] = ("subject", "predicate", "object")
GIVEN = list(product((False, True), repeat=3))


def strings_of(it: Large, role: int) -> list[str]:
    """The strings of a role, by ID."""
    if b"#" not in it.strings[role]:
        return [it.strings[role].decode()]
    return many(it.strings[role] + b"\n").decode().splitlines()


def column_of(it: Large, role: int) -> list[str]:
    """The strings of all triples in a role."""
    return strings_of(it, role) if it.large[role] else strings_of(it, role) * COUNT


def ids_of(it: Large, start: int = 0) -> array.array[int]:
    """The IDs of the triples from an index on, one after another."""
    ids = array.array("Q", bytes(24 * (COUNT - start)))
    for role, large in enumerate(it.large):
        ids[role::3] = array.array("Q", range(start + 1, COUNT + 1) if large else repeat(1, COUNT - start))
    return ids


def pattern(it: Large, given: Sequence[bool]) -> list[str | None]:
    """The last strings of the roles that are given, and None."""
    return [last(string).decode() if one else None for string, one in zip(it.strings, given)]


def id_pattern(it: Large, given: Sequence[bool]) -> list[int | None]:
    """Their IDs, and None."""
    return [(COUNT if large else 1) if one else None for large, one in zip(it.large, given)]


@pytest.fixture(scope="module", params=LARGE)
def it(request: pytest.FixtureRequest) -> Large:
    """A large graph."""
    return LARGE[request.param]


@pytest.fixture(scope="module")
def graph(it: Large, large_files: Files) -> Iterator[Any]:
    """The same, open."""
    with hdt.open(large_files.file(it)) as opened:
        yield opened


def test_counts(it: Large, graph: Any, large_files: Files) -> None:
    """The counts, also of each role and predicate."""
    path = large_files.file(it)
    assert hdt.verify(path) == hdt.verify(path, tight=True) == graph.counts == it.counts
    assert len(graph) == COUNT
    assert [graph.count(role) for role in ROLES] == [COUNT if large else 1 for large in it.large]
    assert list(graph.predicates()) == list(zip(strings_of(it, 1), repeat(1 if it.large[1] else COUNT)))


@pytest.mark.parametrize("role", range(3), ids=ROLES)
def test_strings(role: int, it: Large, graph: Any) -> None:
    """The strings of a role, and their IDs."""
    strings, name = strings_of(it, role), ROLES[role]
    assert graph.string(name, len(strings)) == strings[-1]
    assert graph.number(name, strings[-1]) == len(strings)
    assert graph.strings(name, range(1, len(strings) + 1)) == strings
    assert graph.strings(name, [len(strings)] * 3) == strings[-1:] * 3
    assert list(graph.terms(name)) == strings
    prefix = it.strings[role].partition(b"#")[0].decode()
    assert graph.ids_with_prefix(prefix, name) == [range(1, len(strings) + 1)]
    if it.large[role]:
        assert graph.ids_with_prefix(prefix + "1", name) == [range(1_000_001, COUNT + 1)]


def test_searches_by_ids(it: Large, graph: Any) -> None:
    """The matches of each pattern as IDs, at once and by pages, from any match on."""
    ids, rest = ids_of(it), ids_of(it, MOST)
    for given in GIVEN:
        given_strings, given_ids, all_match = pattern(it, given), id_pattern(it, given), it.matches_all(given)
        count = COUNT if all_match else 1
        assert graph.matching(*given_strings) == graph.matching_ids(*given_ids) == count
        assert graph.id_array(*given_ids).array == (ids if all_match else ids[-3:])
        assert graph.id_array(*given_strings, start=MOST).array == (rest if all_match else ids[:0])
        assert graph.position(*given_ids, skip=count - 1) == COUNT - 1
        rows, following = graph.page_ids(*given_ids, start=MOST, limit=COUNT)
        assert (rows[-1], following) == (tuple(ids[-3:]), None)
        assert len(rows) == (COUNT - MOST if all_match else 1)
    everything = id_pattern(it, it.constant)
    assert array.array("Q", chain.from_iterable(graph.find_ids(*everything))) == ids
    rows, following = graph.page_ids(*everything, limit=MOST)
    assert (len(rows), following, rows[-1]) == (MOST, MOST, tuple(ids[3 * MOST - 3:3 * MOST]))


def test_searches(it: Large, graph: Any) -> None:
    """The matches as strings, at once and by pages."""
    everything = pattern(it, it.constant)
    found = list(graph.find(*everything))
    assert found == list(zip(*(column_of(it, role) for role in range(3))))
    assert list(graph.find(start=MOST)) == found[MOST:]
    assert list(graph.find(*pattern(it, (True,) * 3))) == found[-1:]
    assert found[-1] in graph
    page, following = graph.page(*everything, limit=MOST)
    assert (page == found[:MOST], following) == (True, MOST)


def test_texts(it: Large, graph: Any) -> None:
    """The matches as N-Triples, at once, by pages and by pieces."""
    document, everything = it.document.decode(), pattern(it, it.constant)
    for given in GIVEN:
        if it.matches_all(given):
            assert (given, graph.text(*pattern(it, given)) == document) == (given, True)
        else:
            assert graph.text(*pattern(it, given)) == last(it.line).decode()
    text, following = graph.page_text(*everything, limit=MOST)
    assert (text == first(it.line, MOST).decode(), following) == (True, MOST)
    text, following = graph.page_text(start=MOST, limit=COUNT)
    assert (text == document[len(first(it.line, MOST)):], following) == (True, None)
    assert "".join(graph.text_pieces(*everything)) == document
    file = io.BytesIO()
    graph.write_text(file)
    assert file.getvalue() == it.document


def test_files(it: Large, large_files: Files, tmp_path: Path) -> None:
    """`build`, and `rewrite` with another block size and back: the file of the reference."""
    path, built, other = large_files.file(it), tmp_path / "built.hdt", tmp_path / "other.hdt"
    assert hdt.build(large_files.document(it), built) == it.counts
    assert built.read_bytes() == path.read_bytes()
    assert hdt.rewrite(path, other, block_size=65_535) == it.counts
    assert hdt.rewrite(other, other) == it.counts
    assert other.read_bytes() == path.read_bytes()


def test_merge(tmp_path: Path) -> None:
    """`merge` of a graph and itself, with a label as one node and as two: the file of all lines."""
    def built(*labels: bytes) -> bytes:
        (tmp_path / "in.nt").write_bytes(b"".join(many(b"_:%s# <u:p> _:%s# .\n" % (it, it)) for it in labels))
        hdt.build(tmp_path / "in.nt", tmp_path / "built.hdt")
        return (tmp_path / "built.hdt").read_bytes()

    out, one = tmp_path / "out.hdt", built(b"b")
    with hdt.open(tmp_path / "built.hdt") as graph:
        assert hdt.merge([graph, graph], out) == graph.counts
        assert out.read_bytes() == one
        assert hdt.merge([graph, graph], out, blank_nodes="apart").triples == 2 * COUNT
    assert out.read_bytes() == built(b"f0_b", b"f1_b")


# ---- calls of the library that the package lacks


class Made(ctypes.Structure):
    """An hdt_bytes."""

    _fields_ = [(name, ctypes.c_uint64) for name in ("at", "len", "state", "kept")]

    def taken(self) -> bytes:
        """Its bytes, after which it is freed."""
        data = ctypes.string_at(self.at, self.len)
        library.free(self)
        return data


class Library:
    """The C library, whose calls take numbers as 64-bit ones and bytes with their length."""

    def __init__(self) -> None:
        self.calls = ctypes.CDLL(str(SHARED_LIBRARY))

    def __getattr__(self, name: str) -> Callable[..., int]:
        call = self.calls[f"hdt_{name}"]
        call.restype = ctypes.c_uint64

        def called(*parameters: Any) -> int:
            given: list[Any] = []
            for one in parameters:
                if isinstance(one, bytes):
                    given += [ctypes.c_char_p(one), ctypes.c_size_t(len(one))]
                elif isinstance(one, int):
                    given.append(ctypes.c_uint64(one))
                else:
                    given.append(ctypes.byref(one))
            answer: int = call(*given)
            return answer

        return called


library = Library()


@pytest.fixture
def handle(it: Large, large_files: Files) -> Iterator[Any]:
    """An hdt_graph, open."""
    data, opened, verdict = large_files.file(it).read_bytes(), (ctypes.c_uint64 * 2)(), (ctypes.c_uint64 * 7)()
    library.open(data, opened, verdict)
    assert verdict[0] & 0xFFFFFFFF == 0
    yield opened
    library.close(opened)


def test_calls_with_nine_parameters(it: Large, handle: Any) -> None:
    """`hdt_find`, `hdt_matching` and `hdt_text`."""
    for given in GIVEN:
        parts = list(chain.from_iterable((int(one), last(string)) for one, string in zip(given, it.strings)))
        all_match = it.matches_all(given)
        assert library.matching(handle, *parts) == (COUNT if all_match else 1)
        out = (ctypes.c_uint64 * (3 * COUNT))()
        skip = MOST if all_match and given != it.constant else 0
        found = library.find(handle, *parts, skip, out, COUNT)
        assert found == (COUNT - skip if all_match else 1)
        assert array.array("Q", bytes(out)[:24 * found]) == (ids_of(it, skip) if all_match else ids_of(it, COUNT - 1))
    parts = list(chain.from_iterable((int(one), last(string)) for one, string in zip(it.constant, it.strings)))
    made, outcome = Made(), (ctypes.c_uint64 * 2)()
    library.text(handle, *parts, made, outcome)
    assert (outcome[0] & 0xFFFFFFFF, made.taken() == it.document) == (0, True)


def test_split() -> None:
    """`hdt_split` into one, two and 65,536 parts."""
    document = LARGE["subjects"].document
    lines = document.splitlines(keepends=True)
    hashes = [zlib.crc32(line[1:10]) for line in lines]
    for parts in (1, 2, 65_536):
        made, ends, report = Made(), (ctypes.c_uint64 * parts)(), (ctypes.c_uint64 * 5)()
        library.split(document, parts, b"", made, ends, parts, report)
        assert (report[0] & 0xFFFFFFFF, report[3], report[4]) == (0, COUNT, COUNT)
        text = made.taken()
        assert (len(text), ends[parts - 1]) == (len(document), len(document))
        for part in {0, parts // 2, parts - 1}:
            wanted = b"".join(line for line, it in zip(lines, hashes) if it % parts == part)
            assert text[ends[part - 1] if part else 0:ends[part]] == wanted


# ---- strings of 17 MiB

LENGTH = 17 << 20
LONG = [f"u:{'x' * LENGTH}", f'"{"y" * LENGTH}\n"@en', f'"z"^^<u:{"t" * LENGTH}>']


@pytest.mark.parametrize("string", LONG, ids=["IRI", "tag", "datatype"])
def test_long_terms(string: str) -> None:
    """`hdt_term` and `hdt_term_string`."""
    parts = (ctypes.c_uint64 * 5)()
    assert library.term(string.encode(), parts) & 0xFFFFFFFF == 0
    _, at, size, suffix_at, suffix_size = parts
    data, out = string.encode(), ctypes.create_string_buffer(len(string))
    text, suffix = data[at:at + size], data[suffix_at:suffix_at + suffix_size]
    assert library.term_string(parts[0] & 0xFFFFFFFF, text, suffix or b"x", out, len(out)) == len(data)
    assert out.raw == data


def test_long_strings(tmp_path: Path) -> None:
    """Each call whose result has a string of 17 MiB."""
    path, out = tmp_path / "long.nt", tmp_path / "long.hdt"
    triple = LONG[0], "u:p", LONG[1]
    term = hdt.Term.parse(LONG[1])
    path.write_text(f"<{LONG[0]}> <u:p> {term.format_ntriples()} .\n")
    assert term.format() == LONG[1]
    assert hdt.build(path, out) == (1, 0, 1, 1, 1)
    assert hdt.verify(out, tight=True) == (1, 0, 1, 1, 1)
    with hdt.open(out) as graph:
        for role, string in zip(ROLES, triple):
            assert (graph.string(role, 1) == string, graph.number(role, string)) == (True, 1)
            assert graph.strings(role, [1, 1]) == [string] * 2 and list(graph.terms(role)) == [string]
            assert graph.ids_with_prefix(string, role) == [range(1, 2)]
        assert list(graph) == list(graph.find(*triple)) == graph.page(*triple)[0] == [triple]
        assert graph.matching(*triple) == 1
        assert graph.text().encode() == path.read_bytes() == "".join(graph.text_pieces()).encode()
        assert graph.page_text()[0].encode() == path.read_bytes()
    hdt.rewrite(out, tmp_path / "again.hdt", block_size=1)
    assert hdt.verify(tmp_path / "again.hdt") == (1, 0, 1, 1, 1)
