"""HDT files as inputs of `hdt.build`, and `hdt.merge(.., memory=)`: the files and errors of `hdt.merge`."""

from __future__ import annotations

import gzip
import io
import os
import pickle
import re
import tracemalloc
from collections.abc import Sequence
from pathlib import Path
from typing import Any, Optional

import pytest
from hypothesis import given
from hypothesis import strategies as st

from reference import hdt as reference
from support.built import SAMPLES
from support.documents import THREE, Strings, canonical_file, many_triples
from support.formats import COMPRESS, TURTLE, children, command, fails, needs, stand_in
from support.program import Result
from support.properties import examples
from support.python_package import hdt

NAMES = [b"u:a", b"u:b", "u:é".encode(), b"_:b", b"_:b1", b"_:f0_b"]
LITERALS = [b'"x"', b'"a\n\\"\x01"b"@en', b'"5"^^<u:t>', b'""']
TRIPLES = st.tuples(st.sampled_from(NAMES), st.sampled_from([b"u:a", b"u:p"]), st.sampled_from(NAMES + LITERALS))
WORDS = st.sampled_from([None, "one", "apart"])


def loose(triples: Sequence[Strings]) -> bytes:
    """A file of another tool: with strings that no triple uses, wide numbers and another base."""
    roles = [{triple[role] for triple in triples} for role in range(3)]
    subjects, predicates, objects = roles
    subjects.add(b"v:zzz")
    return bytes(reference.loose(triples, subjects, predicates, objects, b"u:foreign", 3, 61).data)


@pytest.fixture
def two(tmp_path: Path) -> list[Path]:
    """Two files, with a blank node of the same label, in a folder of their own."""
    (tmp_path / "in").mkdir()
    paths = [tmp_path / "in" / f"{number}.hdt" for number in range(2)]
    for number, path in enumerate(paths):
        path.write_bytes(canonical_file([(b"_:b", b"u:p", b"u:%d" % number), *THREE[number:]]))
    return paths


def merged(inputs: Any, out: Path, **options: Any) -> tuple[object, bytes]:
    """What a merge returns, and its file."""
    return hdt.merge(inputs, out, **options), out.read_bytes()


def refused(folder: Path, inputs: Any, **options: Any) -> tuple[object, ...]:
    """The exception of a merge, which leaves the output as it was, and nothing else behind."""
    out = folder / "out/out.hdt"
    out.parent.mkdir(exist_ok=True)
    out.write_bytes(b"before")
    before = children()
    with pytest.raises(Exception) as raised:
        hdt.merge(inputs, out, **options)
    assert (out.read_bytes(), os.listdir(out.parent), children() <= before) == (b"before", ["out.hdt"], True)
    return type(raised.value), str(raised.value), raised.value.args, vars(raised.value)


# ---- what is made

@examples(4)
@given(st.lists(st.lists(TRIPLES, min_size=1, max_size=9, unique=True), min_size=1, max_size=3), st.integers(0, 7),
       WORDS, st.integers(1, 20))
def test_any_files(tmp_path_factory: pytest.TempPathFactory, parts: list[list[Strings]], kinds: int,
                   word: Optional[str], size: int) -> None:
    """Merging in little memory gives the same bytes and counts; so does building, also of one of the files twice."""
    folder = tmp_path_factory.mktemp("merge")
    paths, out = [folder / f"{number}.hdt" for number in range(len(parts))], folder / "out.hdt"
    for number, (path, part) in enumerate(zip(paths, parts)):
        path.write_bytes(loose(part) if kinds >> number & 1 else canonical_file(part, b"u:some", 2))
    options: dict[str, Any] = {"base": "u:base", "block_size": size}
    for inputs in (paths, [*paths, paths[0]]):
        wanted = merged(inputs, out, **options, blank_nodes=word)
        assert merged(inputs, out, **options, blank_nodes=word, memory="4M") == wanted
        if len(inputs) > 1 or word != "apart":  # (a build renames nothing of a single input)
            for memory in (None, "4M"):
                out.unlink()
                counts = hdt.build(inputs, out, **options, blank_nodes=word or "one", memory=memory)
                assert (counts, out.read_bytes()) == wanted
    assert sorted(os.listdir(folder)) == sorted([*(path.name for path in paths), "out.hdt"])


def test_large_files(tmp_path: Path) -> None:
    """Files of 20,000 triples, one with a long literal, and of 100,000, in memory that they don't fit into."""
    more = [(b"u:%06d" % (n * 7919 % 100_000), b"u:p", b'"%d"' % n) for n in range(100_000)]
    for name, triples in (("a.hdt", many_triples()), ("b.hdt", more)):
        (tmp_path / name).write_bytes(canonical_file(triples))
    paths = [tmp_path / "a.hdt", tmp_path / "b.hdt"]
    wanted = merged(paths, tmp_path / "out.hdt")
    tracemalloc.start()
    assert merged(paths, tmp_path / "out.hdt", memory="4M") == wanted
    most = tracemalloc.get_traced_memory()[1]
    tracemalloc.stop()
    assert most < len(wanted[1]) + 4 * 1024 * 1024


def test_inputs_of_a_build(two: list[Path], tmp_path: Path) -> None:
    """An HDT file is named so, or `syntax` says it; it may be compressed or open. A single one keeps its labels."""
    wanted = canonical_file([(b"_:b", b"u:p", b"u:0"), *THREE])
    file = io.BytesIO(two[0].read_bytes())
    files: list[tuple[Any, Optional[str]]] = [(two[0], None), ([two[0]], "hdt"), (file, "hdt")]
    for suffix, compress in COMPRESS.items():
        if suffix != "zst":
            path = tmp_path / f"a.HDT.{suffix}"
            path.write_bytes(compress(two[0].read_bytes()))
            files.append((path, None))
    (tmp_path / "other").write_bytes(two[0].read_bytes())
    for it, syntax in [*files, (tmp_path / "other", "hdt"), (str(two[0]).encode(), None)]:
        assert hdt.build(it, tmp_path / "out.hdt", syntax=syntax).triples == 4
        assert (tmp_path / "out.hdt").read_bytes() == wanted
    with two[0].open("rb") as named:
        assert hdt.build(named, tmp_path / "out.hdt").triples == 4


def test_with_other_syntaxes(two: list[Path], tmp_path: Path) -> None:
    """HDT files are inputs among others, whose blank nodes are kept apart."""
    needs("serdi")
    (tmp_path / "new.ttl").write_text(TURTLE + "[] <u:p> 1 .")
    inputs = [two[0], tmp_path / "new.ttl", SAMPLES / "three.nt"]
    assert hdt.build(inputs, tmp_path / "out.hdt").triples == 9
    with hdt.open(tmp_path / "out.hdt") as graph:
        labels = {s.partition("_")[2].partition("_")[0] for s, _, _ in graph.find() if s.startswith("_:")}
    assert labels == {":f0", ":f1"}
    assert "labels" in fails(tmp_path, inputs, ValueError, blank_nodes="one")


def test_folders_have_none(two: list[Path], tmp_path: Path) -> None:
    """HDT files of a folder are no inputs, as they may have been built of it."""
    assert ".n3" in (said := fails(tmp_path, two[0].parent, ValueError)) and ".hdt" not in said
    (two[0].parent / "a.nt").write_text("<u:s> <u:p> <u:o> .\n")
    assert hdt.build(two[0].parent, tmp_path / "out.hdt").triples == 1


def test_output_over_an_input(two: list[Path], tmp_path: Path) -> None:
    """The output of a merge may be one of the files, that of a build may not."""
    before = [path.read_bytes() for path in two]
    wanted = merged(two, tmp_path / "out.hdt")
    for inputs in (two, [two[1]]):
        with pytest.raises(ValueError, match="one file"):
            hdt.build(inputs, two[1], memory="4M")
    assert [path.read_bytes() for path in two] == before
    assert merged(two, two[1], memory="4M") == wanted
    assert sorted(os.listdir(two[0].parent)) == ["0.hdt", "1.hdt"]


def test_progress(two: list[Path], tmp_path: Path) -> None:
    """A merge tells the bytes of the files."""
    told: list[tuple[int, Optional[int]]] = []
    size = sum(path.stat().st_size for path in two)
    hdt.merge(two, tmp_path / "out.hdt", progress=lambda *it: told.append((it[0], it[1])), memory="4M")
    assert told[-1] == (size, size) and told == sorted(told)


# ---- errors

def cut(data: bytes) -> bytes:
    """All but the last byte."""
    return data[:-1]


def damaged(data: bytes) -> bytes:
    """The same with another bit in the middle."""
    return data[:-20] + bytes([data[-20] ^ 1]) + data[-19:]


@pytest.mark.parametrize("place", [0, 1])
@pytest.mark.parametrize("wrong", [cut, damaged, lambda _: b"", lambda _: b"<u:a> <u:p> <u:b> .\n", None, "folder"])
def test_faulty_files(wrong: Any, place: int, two: list[Path], tmp_path: Path) -> None:
    """A file that isn't valid, or isn't there, is the error that it is of a merge in memory."""
    if callable(wrong):
        two[place].write_bytes(wrong(two[place].read_bytes()))
    else:
        two[place].unlink()
    if wrong == "folder":
        two[place].mkdir()
    told = refused(tmp_path, two)
    assert str(two[place]) in str(told[1]) and told[0] in (hdt.Fault, FileNotFoundError, IsADirectoryError)
    (tmp_path / "scratch").mkdir()
    for scratch in (None, tmp_path / "scratch"):
        assert refused(tmp_path, two, memory="4M", scratch=scratch) == told
    assert os.listdir(tmp_path / "scratch") == []
    assert not callable(wrong) or fails(tmp_path, two, hdt.Fault) == told[1]


def test_damaged_archive(two: list[Path], tmp_path: Path) -> None:
    """What is wrong with an archive is told of it, not of the file in it."""
    path = tmp_path / "a.hdt.gz"
    path.write_bytes(gzip.compress(two[0].read_bytes())[:-9])
    assert "not a whole gzip file" in fails(tmp_path, path, OSError)


@pytest.mark.parametrize("role", range(3))
def test_strings_that_are_no_terms(role: int, two: list[Path], tmp_path: Path) -> None:
    """A merge takes any string, in any memory; a build has an error with the file's name, role and ID."""
    triple = [b"u:a", b"u:p", b"u:o"]
    triple[role] = b"rel"
    two[1].write_bytes(loose([(triple[0], triple[1], triple[2])]))
    wanted = merged(two, tmp_path / "all.hdt")
    assert merged(two, tmp_path / "all.hdt", memory="4M") == wanted
    name = ("subject", "predicate", "object")[role]
    with pytest.raises(hdt.NotATerm, match=f"{two[1]}: {name} 1 is not a term") as told:
        hdt.build(two, tmp_path / "out.hdt")
    assert vars(told.value) == {"role": name, "number": 1, "path": str(two[1])}
    assert fails(tmp_path, two[1], hdt.NotATerm) == str(told.value)
    again = pickle.loads(pickle.dumps(hdt.NotATerm("object", 3, "a.hdt")))
    assert (str(again), again.path) == ("a.hdt: object 3 is not a term", "a.hdt")


def test_strings_that_ntriples_changes(two: list[Path], tmp_path: Path) -> None:
    """In a build an IRI that N-Triples excludes is a fault of its line, and xsd:string is dropped; a merge has both."""
    triples = [(b"u:a", b"u:p", b"u:o"), (b"u:a b", b"u:p", b"u:o")]
    two[1].write_bytes(loose(triples))
    assert f"{two[1]}: line 2 column 5: 5 IriCharacter" in fails(tmp_path, two, hdt.LineFault)
    assert merged(two[1:], tmp_path / "out.hdt", memory="4M")[1] == canonical_file(triples)
    triples = [(b"u:a", b"u:p", b'"x"^^<http://www.w3.org/2001/XMLSchema#string>')]
    two[1].write_bytes(loose(triples))
    assert merged(two[1:], tmp_path / "out.hdt", memory="4M")[1] == canonical_file(triples)
    hdt.build(two[1], tmp_path / "out.hdt")
    assert (tmp_path / "out.hdt").read_bytes() == canonical_file([(b"u:a", b"u:p", b'"x"')])


def test_limits(two: list[Path], tmp_path: Path) -> None:
    """The limits of a build are those of the lines that a file is dumped to."""
    assert "line 1 column 11: 9 TooLong" in fails(tmp_path, two, hdt.LineFault, longest_line=10)
    assert "larger" in fails(tmp_path, two, ValueError, largest_text=50)


OPTIONS: list[tuple[dict[str, Any], type[Exception]]] = [
    ({"memory": "3M"}, ValueError), ({"memory": 4.5}, TypeError), ({"scratch": "."}, ValueError),
    ({"memory": "4M", "scratch": "missing"}, FileNotFoundError), ({"memory": "4M", "base": "rel"}, ValueError),
    ({"memory": "4M", "block_size": 0}, ValueError), ({"memory": "4M", "blank_nodes": "two"}, ValueError)]


@pytest.mark.parametrize("options, error", OPTIONS, ids=str)
def test_options(options: dict[str, Any], error: type[Exception], two: list[Path], tmp_path: Path) -> None:
    """Options are those of a build and of a merge."""
    assert refused(tmp_path, two, **options)[0] == error


def test_not_paths(two: list[Path], tmp_path: Path) -> None:
    """With memory inputs are paths: neither graphs nor one path; and there must be some."""
    with hdt.open(two[0]) as graph:
        for inputs in ([graph], [two[0], graph], [3], [two[0], None], two[0], graph):
            assert refused(tmp_path, inputs, memory="4M")[0] == TypeError
    assert refused(tmp_path, [], memory="4M") == refused(tmp_path, [])


ERRORS = [
    ("hdt: out of memory", 4, MemoryError, ""), ("hdt: 1: fault 1 Truncated at 7", 1, hdt.Fault, "TWO: fault 1 Trunc"),
    ("hdt: 1: fault 4 NotHdt at 0\n  N-Triples: hdt build", 1, hdt.Fault, "TWO: fault 4 NotHdt at 0"),
    ("hdt: 1: reading failed\n  1: Permission denied", 3, PermissionError, "'TWO'"),
    ("hdt: writing failed\n  /x: y/0: No space left on device", 3, OSError, "No space left on device: 'OUT'"),
    ("hdt: scratch file damaged", 3, OSError, "scratch file damaged: 'OUT'"),
    ("error: no such option", 2, ValueError, "no such option"),
    ("hdt: 9: odd", 7, ChildProcessError, "status 7: 9: odd")]


@pytest.mark.parametrize("said, status, error, text", ERRORS, ids=[said for said, *_ in ERRORS])
def test_errors_of_the_program(said: str, status: int, error: type[Exception], text: str, two: list[Path],
                               tmp_path: Path, monkeypatch: pytest.MonkeyPatch) -> None:
    """Each end of the program is an exception, that of a file with its path; lines of progress say nothing else."""
    script = f"echo x > $out; printf 'hdt: read 5 of 6 bytes\n{said}\n' >&2; exit {status}"
    stand_in(tmp_path, monkeypatch, script.replace("\n", "\\n"))
    kind, told, *_ = refused(tmp_path, two, memory="4M")
    wanted = text.replace("TWO", str(two[1])).replace("OUT", f"{tmp_path}/out/out.hdt")
    assert kind == error and wanted in str(told)


@pytest.mark.parametrize("script, error, text", [
    ("echo hdt: out of memory >&2; exit 4", MemoryError, ""), ("kill -9 $$", ChildProcessError, "signal 9"),
    ("echo hdt: reading failed >&2; exit 3", ChildProcessError, "status 3: hdt: reading failed")])
def test_dumps_that_fail(script: str, error: type[Exception], text: str, two: list[Path], tmp_path: Path,
                         monkeypatch: pytest.MonkeyPatch) -> None:
    """A dump that fails otherwise is an error of a build."""
    stand_in(tmp_path, monkeypatch, f"echo '<u:a> <u:p> <u:b> .'\n{script}")
    assert text in fails(tmp_path, two, error)


def test_options_of_the_program(two: list[Path], tmp_path: Path, monkeypatch: pytest.MonkeyPatch) -> None:
    """The program is told all options, and has the files under names of its own: any number of any names."""
    names = [os.fsencode(two[0]), b"-", b"a: b\n\xff.hdt"]
    for name in names[1:]:
        (tmp_path / os.fsdecode(name)).write_bytes(two[1].read_bytes())
    monkeypatch.chdir(tmp_path)
    wanted = merged(names, tmp_path / "out.hdt", blank_nodes="apart", base="u:x", block_size=3)
    assert merged(names, tmp_path / "out.hdt", blank_nodes="apart", base="u:x", block_size=3, memory="4M") == wanted
    told = tmp_path / "told"
    script = f'echo "$*" > {told}; readlink 0 1 2 >> {told}; cat 0 > $out; echo merged 1 2 3 4 5'
    stand_in(tmp_path, monkeypatch, script)
    hdt.merge(names, tmp_path / "out.hdt", "u:x", 3, blank_nodes="apart", memory="5000K", scratch=tmp_path)
    line, *links = told.read_bytes().splitlines()
    options = r"merge --memory=5120000 --scratch=\S+ --progress --base=u:x --block-size=3 --blank-nodes=apart"
    assert re.fullmatch(rf"{options} 0 1 2 \S+/out.hdt", line.decode())
    assert b"\n".join(links) == b"\n".join(os.fsencode(tmp_path / os.fsdecode(name)) for name in names)


@pytest.mark.parametrize("lines, wanted", [
    ("", [300]), ("100 of 100, 200 of 200", [100, 300, 300]), ("40 of 100, 100 of 100, 10 of 200", [40, 100, 110, 300]),
    ("100 of 100, 90 of 100, 5 of 100", [100, 190, 195, 300])])
def test_progress_of_the_program(lines: str, wanted: list[int], two: list[Path], tmp_path: Path,
                                 monkeypatch: pytest.MonkeyPatch) -> None:
    """What it has read of each file is told in sum, and all at the end, before the output is replaced."""
    said = "".join(f"hdt: read {it} bytes\n" for it in lines.split(", ") if it).replace("\n", "\\n")
    stand_in(tmp_path, monkeypatch, f"printf '{said}' >&2; cp 0 $out; echo merged 1 2 3 4 5 6")
    for path in two:
        os.truncate(path, 150)
    told: list[int] = []
    hdt.merge(two, tmp_path / "out.hdt", progress=lambda read, _: told.append(read), memory="4M")
    assert told == wanted

    def raises(read: int, of: Optional[int]) -> None:
        if read == of:
            raise KeyError(read)

    assert refused(tmp_path, two, progress=raises, memory="4M")[0] == KeyError


def test_error_after_phases(tmp_path: Path, two: list[Path]) -> None:
    """An error that follows the lines of batches is that of its file, and the bytes read of both files are counted."""
    large, counts = tmp_path / "large.hdt", list[int]()
    lines = b"".join(b'<u:s> <u:p> "%05d%s" .\n' % (it, b"x" * 2_000) for it in range(10_000))
    hdt.build(io.BytesIO(lines), large)
    two[1].write_bytes(two[1].read_bytes()[:-1])
    with pytest.raises(hdt.Fault) as told:
        hdt.merge([large, two[1]], tmp_path / "out.hdt", memory="4M", progress=lambda read, _: counts.append(read))
    assert str(two[1]) in str(told.value) and not (tmp_path / "out.hdt").exists()
    assert counts[-1] == large.stat().st_size + two[1].stat().st_size > 1 << 24


# ---- the command

def test_command(two: list[Path], tmp_path: Path) -> None:
    """The command takes HDT files, too, and merges them."""
    wanted = merged(two, tmp_path / "wanted.hdt")
    done = command(tmp_path, "build", *two, "out.hdt", "--blank-nodes", "one", "--memory", "4M")
    assert (done.status, (tmp_path / "out.hdt").read_bytes()) == (0, wanted[1])
    (tmp_path / "new.nt").write_text("<u:n> <u:p> <u:o> .\n")
    assert command(tmp_path, "build", two[0], "new.nt", "out.hdt").out.startswith(b"built 5 ")
    done = command(tmp_path, "build", "-", "out.hdt", "--syntax", "hdt", stdin=two[0].read_bytes())
    assert done.out.startswith(b"built 4 ")
    assert b".hdt" in command(tmp_path, "build", "--help").out
    two[1].write_bytes(two[1].read_bytes()[:50])
    with pytest.raises(hdt.Fault) as told:
        hdt.verify(two[1])
    assert command(tmp_path, "build", *two, "out.hdt") == Result(1, b"", f"hdt: {told.value}\n".encode())
