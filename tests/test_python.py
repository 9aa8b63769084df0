"""The Python package: every call over files, errors, closed graphs, written files, large graphs and random ones."""

from __future__ import annotations

import copy
import ctypes
import os
import pickle
import random
import shutil
import sys
import threading
from collections.abc import Callable, Iterable, Iterator, Sequence
from itertools import product
from pathlib import Path
from typing import Any, NamedTuple, Optional, Union

import pytest
from hypothesis import example, given
from hypothesis import strategies as st

from reference import checks, hdt as reference
from support import program
from support.built import SAMPLES, SHARED_LIBRARY
from support.c_library import CC, file_reasons, succeeds, text_reasons
from support.python_package import ENVIRONMENT, hdt

Triple = tuple[str, str, str]
Pattern = Sequence[Optional[str]]

THREE = SAMPLES / "three.hdt"
LINE = "<u:s> <u:p> <u:o> .\n"
KINDS = list(product((False, True), repeat=3))
ROLES: tuple[hdt.Role, ...] = ("subject", "predicate", "object")


def printed(*words: Union[str, Path]) -> str:
    """What the command prints, which has the same engine."""
    done = program.hdt(*words)
    assert (done.status, done.err) == (0, b"")
    return done.out.decode()


def spelled(string: str) -> str:
    """A dictionary string as a term of N-Triples."""
    if string.startswith("_:"):
        return string
    if not string.startswith('"'):
        return f"<{string}>"
    end = string.rindex('"')
    escapes = {"\\": "\\\\", '"': '\\"', "\n": "\\n", "\r": "\\r"}
    return '"' + "".join(escapes.get(character, character) for character in string[1:end]) + string[end:]


def line(triple: Triple) -> str:
    """A triple as a line of N-Triples."""
    return " ".join(map(spelled, triple)) + " .\n"


def lines(triples: Iterable[Triple]) -> str:
    """Triples as N-Triples."""
    return "".join(map(line, triples))


def matching(triples: Iterable[Triple], pattern: Pattern) -> list[Triple]:
    """The triples that have each term that is given: a plain filter."""
    s, p, o = pattern
    return [it for it in triples if s in (None, it[0]) and p in (None, it[1]) and o in (None, it[2])]


def patterns_of(triple: Triple) -> Iterator[list[Optional[str]]]:
    """The eight patterns that a triple matches, the one without a term first."""
    for kind in KINDS:
        yield [term if has else None for term, has in zip(triple, kind)]


def built(folder: Path, triples: Iterable[Triple], name: str = "built") -> tuple[Path, hdt.Counts]:
    """A file of triples of strings, and what `build` returns."""
    text, path = folder / f"{name}.nt", folder / f"{name}.hdt"
    text.write_text(lines(triples), encoding="utf-8")
    return path, hdt.build(text, path, base="http://a/")


def check_strings(graph: hdt.Graph, role: hdt.Role) -> None:
    """IDs and strings of a role map to each other; other IDs and strings are not found."""
    strings = [graph.string(role, n) for n in range(1, graph.count(role) + 1)]
    assert [graph.number(role, string) for string in strings] == list(range(1, len(strings) + 1))
    for n in (0, -1, len(strings) + 1, 2**64, 2**64 + 1, -(2**64) + 1):
        with pytest.raises(IndexError):
            graph.string(role, n)
    ids = [*range(1, len(strings) + 1), *range(len(strings), 0, -1)]
    assert graph.strings(role, iter(ids)) == strings + strings[::-1]
    assert graph.strings(role, []) == []
    for n in (0, -1, len(strings) + 1, 2**64, -(2**64) + 1):
        with pytest.raises(IndexError, match=f"there is no {role} {n}$"):
            graph.strings(role, [*ids, n, 0])
    absent = ("u:none", "", "\0", "\ud800", strings[0] + "\0", strings[0] + "x")
    assert {term: graph.number(role, term) for term in absent} == dict.fromkeys(absent)


def check_searches(graph: hdt.Graph, triples: list[Triple]) -> None:
    """Each pattern finds what a plain filter finds."""
    for triple in triples:
        for pattern in patterns_of(triple):
            wanted = matching(triples, pattern)
            found = list(graph.find(*pattern)), graph.matching(*pattern), graph.text(*pattern)
            assert found == (wanted, len(wanted), lines(wanted)), pattern
    s, p, o = triples[0]
    for terms in product((None, s, "u:none"), (None, p, "u:none"), (None, o, "\ud800")):
        assert list(graph.find(*terms)) == matching(triples, terms), terms
    assert triples[0] in graph
    assert (s, p, "u:none") not in graph


def check_graph(path: Union[str, Path]) -> hdt.Counts:
    """Every call on a small file."""
    counts = hdt.verify(path)
    with hdt.open(path) as graph:
        assert graph.counts == counts
        assert len(graph) == counts.triples
        assert [graph.count(role) for role in ROLES] == [
            counts.shared + counts.subjects, counts.predicates, counts.shared + counts.objects]
        for role in ROLES:
            check_strings(graph, role)
        triples = list(graph)
        assert len(triples) == len(set(triples))
        numbers = [tuple(map(graph.number, ROLES, triple)) for triple in triples]
        assert numbers == sorted(graph.find_numbers())
        check_searches(graph, triples)
        assert graph.text() == printed("dump", Path(path))
        predicate = triples[0][1]
        assert graph.text(p=predicate) == printed("find", "--raw", Path(path), "?", predicate, "?")
        header = f"length {len(graph.header)}\n{graph.header.decode()}"
        assert printed("head", Path(path)).endswith(header)
    return counts


# ---- the library


def imported(library: Path) -> program.Result:
    """What a program prints that imports the package with HDT_LIBRARY naming a file or folder."""
    command = [sys.executable, "-W", "error", "-c", "import hdt; print(hdt.__name__)"]
    return program.run(command, env={**ENVIRONMENT, "HDT_LIBRARY": str(library)})


@pytest.mark.parametrize("library", [SHARED_LIBRARY, SHARED_LIBRARY.parent], ids=["file", "folder"])
def test_named_library(library: Path) -> None:
    """HDT_LIBRARY names the library, or the folder that has it."""
    assert imported(library) == (0, b"hdt\n", b"")


def test_missing_library(tmp_path: Path) -> None:
    """The error names a missing library."""
    done = imported(tmp_path / "libhdt.so")
    assert (done.status, done.out) == (1, b"") and bytes(tmp_path / "libhdt.so") in done.err


@pytest.mark.skipif(not shutil.which("cc"), reason="there is no cc")
def test_other_library(tmp_path: Path) -> None:
    """Another library with the same name is an ImportError, which names it."""
    (tmp_path / "other.c").write_text("int hdt_other(void);\nint hdt_other(void) { return 0; }\n")
    succeeds(CC, "-shared", "-fPIC", "-o", tmp_path / "libhdt.so", tmp_path / "other.c")
    done = imported(tmp_path / "libhdt.so")
    library = tmp_path / "libhdt.so"
    wanted = f"ImportError: {library} is another library, or an older one: it has no hdt_verify\n".encode()
    assert (done.status, done.out, done.err[-len(wanted):]) == (1, b"", wanted)


def test_library_that_is_none(tmp_path: Path) -> None:
    """A file that is no library is an ImportError, as a library of another kind is."""
    library = tmp_path / "libhdt.so"
    library.write_bytes(b"no library")
    done = imported(library)
    assert done.status == 1 and b"ImportError" in done.err and str(library).encode() in done.err


# ---- files


def test_three() -> None:
    """Every call on the sample with three triples."""
    assert check_graph(THREE) == hdt.Counts(3, 2, 0, 2, 1)


def test_v1_by_a_path_that_is_a_str() -> None:
    """Every call on the sample with one triple."""
    assert check_graph(str(SAMPLES / "v1.hdt")) == (1, 1, 0, 1, 0)


def test_a_path_of_bytes() -> None:
    """A path may be bytes."""
    assert list(hdt.open(os.fsencode(THREE)).find("u:a", None, '"x"')) == [("u:a", "u:q", '"x"')]


def test_terms_of_each_kind(tmp_path: Path) -> None:
    """Every call on a graph with terms of each kind."""
    objects = ['"x"', '"x"@en', '"x"^^<u:t>', '"a\\"b"\n\r\t"@en-GB', '""@""', "_:b", "u:a", '"\u20ac\U0001f600"', '""']
    path, counts = built(tmp_path, product(("_:b", "_:b.1", "u:a", "u:\u00e9"), ("u:p", "u:q"), objects))
    assert check_graph(path) == counts
    assert counts.triples == 72


def test_header() -> None:
    """The header of a sample is N-Triples with its count of triples."""
    with hdt.open(THREE) as graph:
        assert b'<http://a/> <http://rdfs.org/ns/void#triples> "3" .\n' in graph.header
        assert graph.header.count(b"\n") == 2


@pytest.mark.parametrize("call", ["count", "string", "strings", "number"])
def test_wrong_roles(call: str) -> None:
    """An unknown role is a ValueError."""
    arguments: dict[str, tuple[Any, ...]] = {"count": (), "string": (1,), "strings": ([1],), "number": ("u:a",)}
    with hdt.open(THREE) as graph, pytest.raises(ValueError, match="no such role: 'verb'"):
        getattr(graph, call)("verb", *arguments[call])


# ---- errors


def test_names_of_errors() -> None:
    """The names are those of the documents; a number that the library doesn't know is no error of its own."""
    assert [hdt.Fault(it, 0).name for it in range(36)] == ["Unknown", *file_reasons(), "Unknown"]
    assert [hdt.LineFault(it, 1, 1).name for it in range(11)] == ["Unknown", *text_reasons(), "Unknown"]
    assert hdt.Fault(-1, 0).name == hdt.Fault(2**32 + 1, 0).name == "Unknown"


def result_of(call: Callable[[Path], hdt.Counts], path: Path) -> Union[hdt.Counts, tuple[int, str, int]]:
    """What a call returns for a file, or the error that it raises."""
    try:
        return call(path)
    except hdt.Fault as fault:
        return fault.reason, fault.name, fault.place


def counts_opened(path: Path) -> hdt.Counts:
    """The counts of a file that is opened."""
    with hdt.open(path) as graph:
        return graph.counts


def test_truncated_and_changed_files(tmp_path: Path) -> None:
    """`verify`, `open` and `rewrite` agree on each, and so does the command."""
    data = THREE.read_bytes()
    changed = (data[:i] + bytes([data[i] ^ 1]) + data[i + 1:] for i in range(len(data)))
    path, out, names = tmp_path / "damaged.hdt", tmp_path / "out", set()
    for number, bad in enumerate([*(data[:i] for i in range(len(data))), *changed, data + b"x"]):
        path.write_bytes(bad)
        result = result_of(hdt.verify, path)
        assert result == result_of(counts_opened, path)
        if not isinstance(result, hdt.Counts):
            names.add(result[1])
            assert result == result_of(lambda path: hdt.rewrite(path, out), path)
            if number % 60 == 0:
                assert program.hdt("verify", path).err.decode() == "hdt: fault %d %s at %d\n" % result
    assert not out.exists()
    assert names >= {"Truncated", "NotHdt", "Check8", "Check16", "Check32", "TrailingBytes"}


CALLS_ON_FILES: dict[str, Callable[[Any], object]] = {
    "verify": hdt.verify,
    "open": hdt.open,
    "build": lambda path: hdt.build(path, "out"),
    "rewrite": lambda path: hdt.rewrite(path, "out"),
}


@pytest.mark.parametrize("call", CALLS_ON_FILES)
@pytest.mark.parametrize("name", ["none", "."], ids=["missing", "folder"])
def test_no_files(name: str, call: str, tmp_path: Path) -> None:
    """A missing file and a folder raise OSError; `build` takes a folder, but not one without documents."""
    with pytest.raises(ValueError if (name, call) == (".", "build") else OSError):
        CALLS_ON_FILES[call](tmp_path / name)


@pytest.mark.parametrize("path, name", [
    ("./cut.hdt", "./cut.hdt"), (b"cut.hdt", "cut.hdt"), (Path("./cut.hdt"), "cut.hdt")], ids=["str", "bytes", "Path"])
@pytest.mark.parametrize("call", ["verify", "open", "rewrite"])
def test_fault_has_the_path(call: str, path: Any, name: str, tmp_path: Path, monkeypatch: pytest.MonkeyPatch) -> None:
    """A fault says which file it is in, by the path that was given; of bytes it says none."""
    (tmp_path / "cut.hdt").write_bytes(THREE.read_bytes()[:-1])
    monkeypatch.chdir(tmp_path)
    with pytest.raises(hdt.Fault) as raised:
        CALLS_ON_FILES[call](path)
    assert (raised.value.path, str(raised.value).partition(" fault ")[0]) == (name, f"{name}:")
    with pytest.raises(hdt.Fault) as raised:
        hdt.Graph(THREE.read_bytes()[:-1])
    assert raised.value.path is None and str(raised.value).startswith("fault ")


def test_empty_file(tmp_path: Path) -> None:
    """A file of no bytes is truncated."""
    (tmp_path / "empty").touch()
    assert result_of(counts_opened, tmp_path / "empty") == (1, "Truncated", 0)


def test_pipes() -> None:
    """A file may be a pipe."""
    reading, writing = os.pipe()
    with os.fdopen(writing, "wb") as file:
        file.write(THREE.read_bytes())
    assert hdt.verify(f"/dev/fd/{reading}").triples == 3
    os.close(reading)


@pytest.mark.parametrize("document, reason, name, row, column", [
    ("<u:s> <u:p> <u:o> . x", 1, "Syntax", 1, 21),
    ("<u:s> <u:p> <u:o> .\n<u:s> <u:p> <o> .\n", 4, "RelativeIri", 2, 13),
    ('\r\n<u:s> <u:p> "\\u0000" .', 6, "ZeroCharacter", 2, 14),
])
def test_errors_of_texts(document: str, reason: int, name: str, row: int, column: int, tmp_path: Path) -> None:
    """The first error of a text is raised with its line and column, and no file is made."""
    text, out = tmp_path / "text.nt", tmp_path / "out.hdt"
    text.write_bytes(document.encode())
    with pytest.raises(hdt.LineFault) as raised:
        hdt.build(text, out)
    fault = raised.value
    assert (fault.reason, fault.name, fault.line, fault.column) == (reason, name, row, column)
    assert (fault.path, str(fault)) == (str(text), f"{text}: line {row} column {column}: {reason} {name}")
    assert not out.exists()


@pytest.mark.parametrize("document", ["", "# nothing\n"])
def test_texts_without_triples(document: str, tmp_path: Path) -> None:
    """No file is made from a text without triples."""
    (tmp_path / "text.nt").write_text(document)
    with pytest.raises(hdt.NoTriples) as raised:
        hdt.build(tmp_path / "text.nt", tmp_path / "out.hdt")
    assert (raised.value.path, str(raised.value)) == (f"{tmp_path}/text.nt", f"{tmp_path}/text.nt: no triples")
    assert not (tmp_path / "out.hdt").exists()


@pytest.mark.parametrize("base", ["rel", "", "\ud800"])
def test_bad_base(base: str, tmp_path: Path) -> None:
    """The base has to be an absolute IRI."""
    (tmp_path / "text.nt").write_text(LINE)
    with pytest.raises(ValueError, match="the base"):
        hdt.build(tmp_path / "text.nt", tmp_path / "out.hdt", base=base)
    assert not (tmp_path / "out.hdt").exists()


@pytest.mark.parametrize("size", [0, 65536, -1, 2**32 + 16])
def test_bad_block_size(size: int, tmp_path: Path) -> None:
    """A block size is 1 to 65535."""
    (tmp_path / "text.nt").write_text(LINE)
    with pytest.raises(ValueError, match="the block size"):
        hdt.build(tmp_path / "text.nt", tmp_path / "out.hdt", block_size=size)
    with pytest.raises(ValueError, match="the block size"):
        hdt.rewrite(THREE, tmp_path / "out.hdt", block_size=size)
    assert not (tmp_path / "out.hdt").exists()


def test_strings_that_are_no_terms() -> None:
    """A string that has no form in N-Triples is reported by role and ID."""
    strings = [(b"u:a", b"u:p", b"u:b"), (b"u:a", b"u:q", b"rel"), (b"u:b", b"u:p", b"u:a")]
    with hdt.Graph(reference.graph(strings).data) as graph:
        assert graph.string("object", 3) == "rel"
        assert list(graph.find("u:a", "u:q")) == [("u:a", "u:q", "rel")]
        with pytest.raises(hdt.NotATerm) as raised:
            graph.text()
        assert (raised.value.role, raised.value.number) == ("object", 3)
        assert str(raised.value) == "object 3 is not a term"
        assert graph.text(p="u:p") == "<u:a> <u:p> <u:b> .\n<u:b> <u:p> <u:a> .\n"


@pytest.mark.parametrize("copied", [copy.copy, lambda fault: pickle.loads(pickle.dumps(fault))], ids=["copy", "pickle"])
@pytest.mark.parametrize("fault", [
    hdt.Fault(11, 5), hdt.Fault(11, 5, "a.hdt"), hdt.LineFault(1, 2, 3), hdt.LineFault(1, 2, 3, "a.nt"),
    hdt.NotATerm("object", 3), hdt.NoTriples("no triples"), hdt.NoTriples(path="a.nt"),
], ids=lambda fault: f"{type(fault).__name__} {getattr(fault, 'path', None)}")
def test_errors_are_values(fault: Exception, copied: Callable[[Exception], Exception]) -> None:
    """An error can be copied and pickled."""
    other = copied(fault)
    assert (type(other), str(other), vars(other)) == (type(fault), str(fault), vars(fault))
    assert isinstance(fault, ValueError)


# ---- closed graphs, types, and what is kept


CLOSED_CALLS: dict[str, Callable[[hdt.Graph], object]] = {
    "len": len,
    "counts": lambda graph: graph.counts,
    "header": lambda graph: graph.header,
    "count": lambda graph: graph.count("subject"),
    "string": lambda graph: graph.string("subject", 1),
    "string 0": lambda graph: graph.string("subject", 0),
    "strings": lambda graph: graph.strings("subject", [1]),
    "no strings": lambda graph: graph.strings("subject", []),
    "strings 0": lambda graph: graph.strings("subject", [0]),
    "number": lambda graph: graph.number("subject", "u:a"),
    "matching": lambda graph: graph.matching(),
    "in": lambda graph: ("u:a", "u:p", "u:b") in graph,
    "find": lambda graph: graph.find(),
    "find_numbers": lambda graph: graph.find_numbers(),
    "iter": iter,
    "text": lambda graph: graph.text(),
    "with": lambda graph: graph.__enter__(),
}


@pytest.mark.parametrize("call", CLOSED_CALLS)
def test_calls_on_a_closed_graph(call: str) -> None:
    """Every call on a closed graph but `close` is a ValueError."""
    graph = hdt.open(THREE)
    graph.close()
    graph.close()
    with pytest.raises(ValueError, match="the graph is closed"):
        CLOSED_CALLS[call](graph)


def test_closed_during_a_search() -> None:
    """A search that begins after the graph was closed is a ValueError; one that is under way ends."""
    graph = hdt.open(THREE)
    begun, other = graph.find_numbers(), graph.find()
    next(begun)
    graph.close()
    with pytest.raises(ValueError, match="the graph is closed"):
        list(other)


WRONG_TYPES: dict[str, Callable[[Any], object]] = {
    "a term of bytes": lambda graph: graph.find(b"u:a"),
    "a term that is None": lambda graph: graph.number("object", None),
    "a term that is a number": lambda graph: graph.text(3),
    "an ID with a fraction": lambda graph: graph.string("object", 1.0),
    "IDs with a fraction": lambda graph: graph.strings("object", [1, 2.0]),
    "an ID for IDs": lambda graph: graph.strings("object", 1),
}


@pytest.mark.parametrize("call", WRONG_TYPES)
def test_wrong_types(call: str) -> None:
    """An argument of a wrong type is a TypeError."""
    with hdt.open(THREE) as graph, pytest.raises(TypeError):
        WRONG_TYPES[call](graph)


def test_in() -> None:
    """Only triples of strings are in a graph; an unknown role is a ValueError."""
    others: tuple[object, ...] = (
        ("u:a", "u:p", "u:a"), (None, None, None), ("u:a", "u:p"), "u:a", 3, ("u:a", "u:p", b"u:b"))
    with hdt.open(THREE) as graph:
        assert ("u:a", "u:p", "u:b") in graph
        assert [other for other in others if other in graph] == []
        with pytest.raises(ValueError):
            graph.count("subjects")  # type: ignore[arg-type]


def test_with() -> None:
    """The end of a `with` closes the graph, and passes an exception on."""
    with pytest.raises(KeyError), hdt.open(THREE) as graph:
        raise KeyError
    with pytest.raises(ValueError):
        len(graph)


def test_bytes() -> None:
    """Bytes are borrowed without a copy, and given back."""
    data = bytearray(THREE.read_bytes())
    graph = hdt.Graph(data)
    assert graph._lent.address == ctypes.addressof(ctypes.c_char.from_buffer(data))
    with pytest.raises(BufferError):
        data.append(0)
    assert len(graph) == 3
    graph.close()
    data.append(0)
    with pytest.raises(hdt.Fault):
        hdt.Graph(data)
    data.pop()
    del graph
    assert len(hdt.Graph(bytes(data))) == 3


@pytest.mark.parametrize("wrong", ["text", 3, None])
def test_graph_of_no_bytes(wrong: object) -> None:
    """A graph is opened from bytes only."""
    with pytest.raises(TypeError):
        hdt.Graph(wrong)


def test_files_are_given_back() -> None:
    """No descriptor and no mapping is left of graphs that were closed, or were never closed."""

    def held() -> tuple[int, int]:
        maps = Path("/proc/self/maps").read_text().count(THREE.name)
        return len(os.listdir("/proc/self/fd")), maps

    before = held()
    for _ in range(50):
        with hdt.open(THREE, copy=False) as graph:
            assert held()[1] == before[1] + 1
        with hdt.open(THREE) as graph:
            assert held() == before
        hdt.open(THREE)
        hdt.verify(THREE)
    del graph
    assert held() == before


@pytest.mark.parametrize("made", [copy.copy, copy.deepcopy, pickle.dumps])
def test_graph_is_not_copied(made: Callable[[Any], Any]) -> None:
    """A graph of bytes can't be copied or pickled, and stays open."""
    with hdt.Graph(THREE.read_bytes()) as graph:
        with pytest.raises(TypeError, match="Graph can't be"):
            made(graph)
        assert len(list(graph)) == 3


# ---- a large graph


class Large(NamedTuple):
    """A graph of 100,000 triples: its file, what `build` returned, the triples, and the open file."""

    path: Path
    counts: hdt.Counts
    triples: set[Triple]
    graph: hdt.Graph


def random_triples(source: random.Random, count: int) -> set[Triple]:
    """Random triples; some objects occur in many."""
    subjects = [f"http://example.org/item/{n}" for n in range(20_000)]
    predicates = [f"http://example.org/p{n}" for n in range(12)]
    integers = [f'"{n}"^^<http://www.w3.org/2001/XMLSchema#integer>' for n in range(500)]
    objects = subjects + [f'"value {n}"@en' for n in range(5_000)] + integers
    triples: set[Triple] = set()
    while len(triples) < count:
        object = objects[int(len(objects) * source.random() ** 3)]
        triples.add((source.choice(subjects), source.choice(predicates), object))
    return triples


@pytest.fixture(scope="module")
def large(tmp_path_factory: pytest.TempPathFactory) -> Iterator[Large]:
    """A graph of 100,000 triples, built in a random order."""
    source = random.Random(100_000)
    triples = random_triples(source, 100_000)
    path, counts = built(tmp_path_factory.mktemp("large"), source.sample(sorted(triples), len(triples)))
    with hdt.open(path) as graph:
        yield Large(path, counts, triples, graph)


def test_large_graph(large: Large) -> None:
    """All triples are found, once each, and printed in that order."""
    assert (large.counts.triples, len(large.graph)) == (100_000, 100_000)
    found = list(large.graph)
    assert len(found) == 100_000
    assert set(found) == large.triples
    assert large.graph.text() == lines(found)


def test_large_patterns(large: Large) -> None:
    """Sampled triples, each under the patterns with a term that it matches, and with an object of another one."""
    found, source = list(large.graph), random.Random(1)
    for triple in source.sample(found, 6):
        for pattern in list(patterns_of(triple))[1:]:
            wanted = matching(found, pattern)
            seen = large.graph.matching(*pattern), list(large.graph.find(*pattern)), large.graph.text(*pattern)
            assert seen == (len(wanted), wanted, lines(wanted)), pattern
        other = [triple[0], triple[1], source.choice(found)[2]]
        assert list(large.graph.find(*other)) == matching(found, other), other


@pytest.mark.parametrize("role", ["subject", "predicate", "object"])
def test_large_strings(role: hdt.Role, large: Large) -> None:
    """Sampled strings of a role have their IDs."""
    count = large.graph.count(role)
    numbers = range(1, count + 1)
    chosen = list(numbers) if count < 2_000 else random.Random(2).sample(numbers, 2_000)
    strings = [large.graph.string(role, n) for n in chosen]
    assert [large.graph.number(role, string) for string in strings] == chosen
    assert len(set(strings)) == len(chosen)
    assert large.graph.strings(role, chosen) == strings


def run_threads(count: int, work: Callable[[int], None]) -> list[threading.Thread]:
    """Threads that are started with numbers from 0."""
    threads = [threading.Thread(target=work, args=(number,)) for number in range(count)]
    for thread in threads:
        thread.start()
    return threads


def test_threads(large: Large) -> None:
    """Threads share a graph."""
    subjects = random.Random(3).sample(sorted({triple[0] for triple in large.triples}), 200)
    wanted: dict[str, set[Triple]] = {subject: set() for subject in subjects}
    for triple in large.triples:
        if triple[0] in wanted:
            wanted[triple[0]].add(triple)
    seen: list[list[bool]] = [[] for _ in range(4)]

    def work(mine: int) -> None:
        for subject in subjects:
            number = large.graph.number("subject", subject)
            found = set(large.graph.find(subject))
            seen[mine].append(found == wanted[subject] and large.graph.string("subject", number or 0) == subject)

    for thread in run_threads(4, work):
        thread.join()
    assert seen == [[True] * 200] * 4


def test_closed_by_another_thread(large: Large) -> None:
    """Each call of a thread returns its count, or raises that the graph is closed."""
    graph = hdt.open(large.path)
    results: list[Union[int, str]] = []

    def work(_: int) -> None:
        try:
            while True:
                results.append(graph.matching(p="http://example.org/p1"))
        except ValueError as error:
            results.append(str(error))

    threads = run_threads(3, work)
    while len(results) < 10:
        pass
    graph.close()
    for thread in threads:
        thread.join()
    assert results.count("the graph is closed") == 3
    assert len(set(results)) == 2


def test_large_graph_rewritten(large: Large, tmp_path: Path) -> None:
    """Rewritten in other blocks it is another file of the same triples; rewritten again it is the built one."""
    out = tmp_path / "again.hdt"
    assert hdt.rewrite(large.path, out, block_size=3) == large.counts
    assert out.read_bytes() != large.path.read_bytes()
    hdt.rewrite(out, out)
    assert out.read_bytes() == large.path.read_bytes()
    printed("build", "--base", "http://a/", large.path.with_suffix(".nt"), out)
    assert out.read_bytes() == large.path.read_bytes()


def test_long_strings(tmp_path: Path) -> None:
    """Terms and a base of 100,000 bytes."""
    long = "x" * 100_000
    triples = [(f"u:{s}{long}", f"u:p{p}{long}", f'"{o}{long}"') for s, p, o in product("ab", "cd", "ef")]
    path, counts = built(tmp_path, triples)
    assert counts.triples == 8
    with hdt.open(path) as graph:
        assert sorted(graph) == sorted(triples)
        assert graph.text() == lines(sorted(triples))
        for triple in triples:
            numbers = list(map(graph.number, ROLES, triple))
            assert [graph.string(role, n or 0) for role, n in zip(ROLES, numbers)] == list(triple)
            assert graph.matching(*triple) == 1
    base = "http://a/" + long
    hdt.build(path.with_suffix(".nt"), path, base=base)
    with hdt.open(path) as graph:
        assert graph.header.count(base.encode()) == 2


def test_file_past_four_gibibytes(tmp_path: Path) -> None:
    """A file of more than 2^32 bytes is opened and searched: its header body is a hole that takes no disk."""
    path, data, length = tmp_path / "huge.hdt", THREE.read_bytes(), (1 << 32) + 5
    with open(path, "wb") as out:
        out.write(reference.write_control(reference.GLOBAL))
        out.write(reference.write_control(reference.HEADER, b"length=%d;" % length))
        out.seek(length, os.SEEK_CUR)
        out.write(data[reference.read_head(data)[1]:])
    with hdt.open(path) as graph:
        assert list(graph) == [("u:a", "u:p", "u:b"), ("u:a", "u:q", '"x"'), ("u:b", "u:p", "u:a")]


# ---- random graphs


IRIS = st.sampled_from(["u:a", "u:b", "u:aa", "http://a/", "http://a/b", "u:\u00e9", "u:p"])
BLANKS = st.sampled_from(["_:b", "_:b1", "_:a.b"])
TEXTS = st.text(st.characters(blacklist_categories=["Cs"], blacklist_characters="\0"), max_size=6)
SUFFIXES = st.sampled_from(["", "@en", "@en-GB", "^^<u:t>"])
LITERALS = st.builds(lambda text, suffix: f'"{text}"{suffix}', TEXTS, SUFFIXES)
TRIPLES = st.tuples(IRIS | BLANKS, IRIS, IRIS | BLANKS | LITERALS)
GRAPHS = st.lists(TRIPLES, min_size=1, max_size=20, unique=True)
BLOCK_SIZES = st.sampled_from([1, 2, 3, 16, 65_535])
WORKED: list[Triple] = [("u:a", "u:p", "u:b"), ("u:a", "u:q", '"x"'), ("u:b", "u:p", "u:a")]


def strings_of(triples: Iterable[Triple]) -> list[tuple[bytes, bytes, bytes]]:
    """Triples as the reference takes them."""
    return [(s.encode(), p.encode(), o.encode()) for s, p, o in triples]


@given(GRAPHS, BLOCK_SIZES, TRIPLES)
@example(WORKED, 16, ("u:a", "u:p", "u:a"))
def test_patterns_of_random_graphs(triples: list[Triple], block_size: int, other: Triple) -> None:
    """Each pattern of each triple, and of another one, finds what a filter of the reference's triples finds."""
    data, ids, strings = reference.graph(strings_of(triples), b"u:base", block_size)
    ordered: list[Triple] = [(s.decode(), p.decode(), o.decode()) for s, p, o in strings]
    with hdt.Graph(data) as graph:
        assert [triple for triple in ordered if triple not in graph] == []
        assert (other in graph) == (other in triples)
        patterns = {tuple(pattern) for triple in [*ordered[:5], other] for pattern in patterns_of(triple)}
        seen, wanted = {}, {}
        for pattern in patterns:
            numbers, found = list(graph.find_numbers(*pattern)), list(graph.find(*pattern))
            seen[pattern] = numbers, found, graph.matching(*pattern), graph.text(*pattern)
            match = matching(ordered, pattern)
            number = [n for triple, n in zip(ordered, ids) if triple in match]
            wanted[pattern] = number, match, len(match), lines(match)
        assert seen == wanted


@given(GRAPHS, BLOCK_SIZES, BLOCK_SIZES, st.randoms(use_true_random=False))
@example(WORKED, 16, 1, random.Random(0))
def test_random_graphs_are_built(tmp_path_factory: pytest.TempPathFactory, triples: list[Triple], block_size: int,
                                 other_size: int, source: random.Random) -> None:
    """A text in any order, with lines that are repeated, is built to the reference's file, and so it is rewritten."""
    folder = tmp_path_factory.getbasetemp()
    text, path = folder / "random.nt", folder / "random.hdt"
    document = triples + source.choices(triples, k=3)
    source.shuffle(document)
    text.write_text(lines(document), encoding="utf-8", newline="")
    wanted = [reference.graph(strings_of(triples), b"u:base", size).data for size in (block_size, other_size)]
    counts = hdt.build(text, path, base="u:base", block_size=block_size)
    assert path.read_bytes() == wanted[0]
    assert counts == hdt.verify(path)
    assert hdt.rewrite(path, path, block_size=other_size) == counts
    assert path.read_bytes() == wanted[1]


def result_for_bytes(data: bytes) -> Union[tuple[int, ...], tuple[int, str, int]]:
    """The counts of a file's bytes, or the error that they have."""
    try:
        with hdt.Graph(data) as graph:
            return graph.counts
    except hdt.Fault as fault:
        return fault.reason, fault.name, fault.place


def result_by_reference(data: bytes) -> Union[tuple[int, ...], tuple[int, str, int]]:
    """The same by the reference."""
    read = checks.outcome(reference.read_file, data)
    return read.counts if isinstance(read, reference.File) else read


@given(GRAPHS, BLOCK_SIZES, st.lists(st.tuples(st.integers(0, 2**16), st.integers(1, 255)), min_size=1, max_size=3))
@example(WORKED, 16, [(0, 1)])
def test_damaged_random_graphs(triples: list[Triple], block_size: int, changes: list[tuple[int, int]]) -> None:
    """A file with changed bytes, and with CRCs made right, has the counts or the error that the reference finds."""
    data = bytearray(reference.graph(strings_of(triples), b"u:base", block_size).data)
    for at, flip in changes:
        data[at % len(data)] ^= flip
    files = [bytes(data), checks.with_right_crcs(bytes(data), reference.read_file), bytes(data[:changes[0][0]])]
    assert list(map(result_for_bytes, files)) == list(map(result_by_reference, files))
