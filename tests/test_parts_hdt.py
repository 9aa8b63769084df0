"""HDT files as inputs of graphs in parts: the parts of what they are dumped to, and what is wrong with them."""

from __future__ import annotations

import gzip
import os
import tracemalloc
from collections.abc import Callable, Sequence
from concurrent.futures import ThreadPoolExecutor
from pathlib import Path
from typing import Any
from unittest import mock

import pytest
from hypothesis import given
from hypothesis import strategies as st

from reference import hdt as reference
from support.documents import THREE, Strings, canonical_file, document, many_triples
from support.formats import children
from support.parts import hdt, named, parts, ranges, small
from support.properties import examples

from hdt import _program

NODES = [b"u:a", b"u:b", "u:\u00e9".encode(), b"_:b", b"_:f0_b"]
OBJECTS = [*NODES, b'"x"', b'"a\n\\"\x01"b"@en', b'"5"^^<u:t>', b'""']
TRIPLES = st.lists(st.tuples(st.sampled_from(NODES), st.sampled_from([b"u:a", b"u:p"]), st.sampled_from(OBJECTS)),
                   min_size=1, max_size=12, unique=True)
STRING = b'"x"^^<http://www.w3.org/2001/XMLSchema#string>'


def loose(triples: Sequence[Strings]) -> bytes:
    """A file of another tool: with strings that no triple uses, wide numbers and another base."""
    subjects, predicates, objects = ({triple[role] for triple in triples} for role in range(3))
    return bytes(reference.loose(triples, {*subjects, b"v:zzz"}, predicates, objects, b"u:foreign", 3, 61).data)


# How triples become an input, by the suffix of its name.
KINDS: dict[str, Callable[[Sequence[Strings]], bytes]] = {
    ".nt": document, ".nt.gz": lambda triples: gzip.compress(document(triples)), ".hdt": canonical_file,
    ".HDT": loose, ".hdt.gz": lambda triples: gzip.compress(canonical_file(triples, b"u:some", 2)),
}


def put(folder: Path, *given_inputs: tuple[str, Sequence[Strings]]) -> list[Path]:
    """Inputs with these suffixes and triples."""
    paths = []
    for number, (suffix, triples) in enumerate(given_inputs):
        paths.append(folder / f"in{number}{suffix}")
        paths[-1].write_bytes(KINDS[suffix](triples))
    return paths


def refused(folder: Path, given_inputs: Sequence[Path], **options: Any) -> tuple[Any, str, dict[str, Any]]:
    """The error of a build, which leaves nothing: no file and no process."""
    before, names = children(), set(os.listdir(folder))
    with pytest.raises(Exception) as raised:
        parts.build(given_inputs, folder / "out", 3, **options)
    assert set(os.listdir(folder)) == names and children() <= before
    return type(raised.value), str(raised.value), vars(raised.value)


# ---- what is made

@examples(4)
@given(TRIPLES, st.lists(st.tuples(st.sampled_from(sorted(KINDS)), st.integers(0, 12)), max_size=4),
       st.integers(1, 4), st.integers(1, 200), st.integers(1, 90))
def test_equal_graphs_have_equal_parts(tmp_path_factory: pytest.TempPathFactory, triples: list[Strings],
                                       kinds: list[tuple[str, int]], count: int, size: int, block: int) -> None:
    """Parts are the same, byte for byte, whatever mixture of inputs has the triples."""
    folder = tmp_path_factory.mktemp("mixed")
    mixed = [(suffix, triples[:most] or triples) for suffix, most in kinds]
    paths = put(folder, *mixed, (".hdt", triples), (".nt", triples))
    with small(size, block):
        wanted = parts.build(paths[-1:], folder / "wanted", count)
        for name, some in ("mixed", paths), ("hdt", paths[-2:-1]):
            assert named(parts.build(some, folder / name, count, blank_nodes="one")) == named(wanted)
        parts.open(folder / "mixed").verify()


def test_large_file(tmp_path: Path) -> None:
    """20,000 triples, with a long literal: the same parts, in the memory of some blocks of 1 MiB."""
    text, file = put(tmp_path, (".nt", many_triples()), (".hdt", many_triples()))
    wanted = parts.build([text], tmp_path / "wanted", 5)
    tracemalloc.start()
    try:
        made = parts.build([file], tmp_path / "out", 5)
        assert tracemalloc.get_traced_memory()[1] < 6 * 2**20
    finally:
        tracemalloc.stop()
    assert named(made) == named(wanted) and made.inputs == ((str(file), file.stat().st_size),)


def test_blocks(tmp_path: Path) -> None:
    """An HDT file is one range, in blocks as large as those of a text, and another name is a text."""
    paths = put(tmp_path, (".hdt", many_triples()), (".hdt.gz", THREE))
    with small(100, 2**17):
        found = list(ranges.ranges(map(str, paths)))
        assert [(it.number, it.start, it.stop) for it in found] == [(0, 0, None), (1, 0, None)]
        sizes = [len(block) for block in ranges.blocks(found[0])]
    assert sum(sizes) == len(document(many_triples())) and len(sizes) == sum(sizes) // 2**17 + 1
    other = tmp_path / "hdt"
    other.write_bytes(canonical_file(THREE))
    with pytest.raises(parts.InputFault, match="hdt: line 1 column 1: 1 Syntax"):
        parts.build([other], tmp_path / "out", 2)


def test_blank_nodes(tmp_path: Path) -> None:
    """A label is one node in all inputs, or one in each; two inputs that have some need to say so."""
    some, others = [(b"_:b", b"u:p", b"_:c")], [(b"_:b", b"u:p", b"_:b"), (b"u:a", b"u:p", b'"_:b"')]
    paths = put(tmp_path, (".nt", some), (".hdt", THREE), (".hdt", others), (".hdt.gz", some))
    assert refused(tmp_path, [paths[1], *paths[2:]])[:2] == (
        ValueError, f"{paths[2]} and {paths[3]} have blank nodes: say by blank_nodes whether a label is one node in "
        'all inputs ("one"), or not ("apart")')
    parts.build(paths[:2], tmp_path / "some", 2)  # (one of them has some)
    for how, pairs in (
        ("one", {("_:b", "_:c"), ("_:b", "_:b")}),
        ("apart", {("_:f0_b", "_:f0_c"), ("_:f2_b", "_:f2_b"), ("_:f3_b", "_:f3_c")}),
    ):
        parts.build(paths, tmp_path / how, 3, blank_nodes=how)
        with parts.open(tmp_path / how) as graph:
            graph.verify()
            assert {(s, o) for s, _, o in graph if s.startswith("_:")} == pairs
            assert ("u:a", "u:p", '"_:b"') in graph and len(graph) == len(pairs) + 4


def test_datatype_string(tmp_path: Path) -> None:
    """It is left out, as it is of a text."""
    paths = put(tmp_path, (".HDT", [(b"u:a", b"u:p", STRING)]), (".nt", [(b"u:a", b"u:p", b'"x"')]))
    one, other = (parts.build([path], tmp_path / path.stem, 1) for path in paths)
    assert named(one) == named(other)


# ---- errors

FILE = canonical_file(THREE)
FAULTY = {"cut": FILE[:-1], "damaged": FILE[:-9] + bytes([FILE[-9] ^ 1]) + FILE[-8:], "empty": b"",
          "text": document(THREE), "gzip": gzip.compress(FILE)}


@pytest.mark.parametrize("place", [0, 1])
@pytest.mark.parametrize("wrong", FAULTY)
def test_faulty_files(wrong: str, place: int, tmp_path: Path, monkeypatch: pytest.MonkeyPatch) -> None:
    """The error is that of a build of the file, with the path as it was given."""
    monkeypatch.chdir(tmp_path)
    paths = [Path(path.name) for path in put(tmp_path, (".hdt", THREE), (".hdt", THREE))]
    paths[place].write_bytes(FAULTY[wrong])
    with pytest.raises(hdt.Fault) as told:
        hdt.build(paths[place], "in.hdt")
    assert told.value.path == str(paths[place])
    with ThreadPoolExecutor(2) as threads:
        for executor in (None, threads):
            kind, text, fields = refused(tmp_path, paths, executor=executor)
            assert (kind, text, fields) == (hdt.Fault, str(told.value), vars(told.value))


@pytest.mark.parametrize("role", range(3))
def test_strings_that_are_no_terms(role: int, tmp_path: Path) -> None:
    """They have no line: the error has the file's name, the role and the ID."""
    triple = [b"u:a", b"u:p", b"u:o"]
    triple[role] = b"rel"
    paths = put(tmp_path, (".nt", THREE), (".HDT", [(triple[0], triple[1], triple[2])]))
    name = ("subject", "predicate", "object")[role]
    assert refused(tmp_path, paths) == (hdt.NotATerm, f"{paths[1]}: {name} 1 is not a term",
                                        {"role": name, "number": 1, "path": str(paths[1])})


@pytest.mark.parametrize("block", [1, 2**20])
def test_lines_that_are_faulty(block: int, tmp_path: Path) -> None:
    """An IRI that N-Triples excludes, or a long line, is a fault of the line of the file's dump."""
    triples = [(b"u:a%d" % number, b"u:p", b"u:o") for number in range(50)]
    paths = put(tmp_path, (".nt", THREE), (".HDT", [*triples, (b"u:b c", b"u:p", b"u:o")]))
    with small(100, block):
        kind, text, fields = refused(tmp_path, paths)
        assert (kind, text) == (parts.InputFault, f"{paths[1]}: line 51 column 5: 5 IriCharacter")
        assert fields["path"] == str(paths[1])
        assert "line 3 column 21: 9 TooLong" in str(refused(tmp_path, paths[1:], longest_line=20)[1])
        assert parts.build(put(tmp_path, (".HDT", triples)), tmp_path / "out", 3, longest_line=21).triples == 50


def test_first_error(tmp_path: Path) -> None:
    """It is that of the first input with one, whatever kind both are."""
    paths = put(tmp_path, (".nt", THREE), (".hdt", THREE))
    paths[0].write_text("x")
    paths[1].write_bytes(FAULTY["cut"])
    assert [refused(tmp_path, it)[0] for it in (paths, paths[::-1])] == [parts.InputFault, hdt.Fault]


def test_files_that_cannot_be_read(tmp_path: Path) -> None:
    """A compressed file that is cut, a missing one, a folder; and a program that is killed, or isn't there."""
    cut, good = put(tmp_path, (".hdt.gz", THREE), (".hdt", THREE))
    cut.write_bytes(cut.read_bytes()[:-9])
    (tmp_path / "in").mkdir()
    assert refused(tmp_path, [cut])[:2] == (
        OSError, f"{cut}: not a whole gzip file: Compressed file ended before the end-of-stream marker was reached")
    assert refused(tmp_path, [tmp_path / "none.hdt"])[0] == FileNotFoundError
    (tmp_path / "in").rename(tmp_path / "in.hdt")
    assert "is no regular file" in str(refused(tmp_path, [tmp_path / "in.hdt"])[1])
    program = tmp_path / "in.program"
    for script, error in (("kill -9 $$", ChildProcessError), ("echo hdt: out of memory >&2; exit 4", MemoryError)):
        program.write_text(f"#!/bin/sh\necho '<u:a> <u:p> <u:b> .'\n{script}\n")
        program.chmod(0o700)
        with mock.patch.object(_program, "path", lambda: str(program)):
            assert refused(tmp_path, [good])[0] == error
    with mock.patch.object(_program, "path", mock.Mock(side_effect=FileNotFoundError)):
        assert refused(tmp_path, [good])[0] == FileNotFoundError
