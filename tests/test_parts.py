"""Graphs in parts: splitting by subject, inputs and their errors, and the folder that is built."""

from __future__ import annotations

import gzip
import json
import os
import random
import shutil
import subprocess
import sys
import threading
import time
import tracemalloc
import zlib
from collections.abc import Callable
from concurrent.futures import ThreadPoolExecutor
from pathlib import Path
from typing import Any, Optional
from unittest import mock

import pytest
from hypothesis import example, given
from hypothesis import strategies as st

from reference.ntriples import lines as reference_lines
from reference.ntriples import parse_line, read_document, triple_strings
from support.parts import builds, graph_of, hdt, inputs, named, parts, ranges, small, split, splits, text_of
from support.properties import examples
from support.python_package import ENVIRONMENT
from support.terms import document_texts, documents

TEXT = text_of(graph_of(60))
LINES = TEXT.splitlines()


def nothing_but(folder: Path, *names: str) -> bool:
    """Whether a folder has nothing but these files and what tests write as inputs."""
    return {path.name for path in folder.iterdir() if not path.name.startswith("in")} == set(names)


# ---- splitting

@given(documents(most=12), st.integers(1, 6))
@example((b"<u:\\u0061> <u:p> <u:o> .\n<u:a> <u:p> <u:o> .", []), 5)
@example((b"_:a <u:p> <u:o> .\n_:a.b <u:p> <u:o> .\n_:ab<u:p><u:o>.\r<u:a> <u:p> _:a.", []), 6)
@example((b"# <u:a> <u:p> <u:o> .\r\n\n \t#", []), 2)
def test_split(document: tuple[bytes, Any], count: int) -> None:
    """Each line with a triple is in the part of its subject's string, with its end, in the order of the text."""
    text = document[0]
    whole = [line if line.endswith((b"\n", b"\r")) else line + b"\n" for line in text.splitlines(keepends=True)]
    expected: list[list[bytes]] = [[] for _ in range(count)]
    blank, last = False, 0
    for last, line in reference_lines(text):
        triple = parse_line(line)
        if triple is not None:
            strings = triple_strings(triple)
            assert whole[last - 1].rstrip(b"\r\n") == line
            expected[zlib.crc32(strings[0]) % count].append(whole[last - 1])
            blank = blank or strings[0].startswith(b"_:") or strings[2].startswith(b"_:")
    found = split(text, count)
    assert (found.texts, found.has_blank_nodes) == ([b"".join(each) for each in expected], blank)
    assert found.lines == (last if text and not text.endswith((b"\n", b"\r")) else last - 1)


@given(documents(most=12), st.integers(1, 3))
@example((b"_:a<u:p>_:a.\n<u:a> <u:p> _:b.c. #_:d\n<u:_:a> <u:p> \"_:a <u:p> _:b\" .", []), 2)
def test_split_with_prefix(document: tuple[bytes, Any], count: int) -> None:
    """A prefix is before each label of a blank node, and nothing else is another."""
    text = document[0]
    with_prefix = split(text, count, b"f7_")
    found = {triple_strings(triple) for each in with_prefix.texts for triple in read_document(each)[0]}
    assert found == {
        tuple(b"_:f7_" + term[2:] if term.startswith(b"_:") else term for term in triple_strings(triple))
        for triple in read_document(text)[0]
    }
    for number, part in enumerate(with_prefix.texts):
        subjects = {triple_strings(triple)[0] for triple in read_document(part)[0]}
        assert {zlib.crc32(subject) % count for subject in subjects} <= {number}
    labels = [s[:2] for triple in read_document(text)[0] for s in triple_strings(triple)].count(b"_:")
    assert sum(map(len, with_prefix.texts)) - sum(map(len, split(text, count).texts)) == 3 * labels


@given(document_texts())
@example(b"<u:a> <u:p> <u:o> .\r\n# \xff\n<u:a>")
@example(b"_:-a <u:p> <u:o> .")
def test_split_errors(text: bytes) -> None:
    """The error of a text is its first one."""
    error = read_document(text)[1]
    if error is None:
        split(text, 3)
        return
    with pytest.raises(hdt.LineFault) as fault:
        split(text, 3, b"f0_")
    assert (fault.value.reason, fault.value.line, fault.value.column) == (int(error.reason), error.line, error.column)


@pytest.mark.parametrize("count", [0, 65_537])
def test_split_into_no_number_of_parts(count: int) -> None:
    """The number of parts is 1 to 65,536."""
    with pytest.raises(ValueError, match="number of parts"):
        split(b"", count)
    assert split(b"", 65_536) == ([b""] * 65_536, 0, False)


def test_lines_of_blocks(tmp_path: Path) -> None:
    """The lines of a part are those of each block, in pieces, and a file that was cut is an error."""
    path, texts = tmp_path / "blocks", [text_of(graph_of(60)[at::3]).encode() for at in range(3)]
    with path.open("wb") as out, mock.patch("hdt.parts._split._PIECE", 7):
        for text in texts:
            splits.split(text, 4, out)
        out.flush()
        found = [list(splits.lines_of(str(path), number, 4)) for number in range(4)]
        assert max(map(len, found[1])) == 7
        for number, pieces in enumerate(found):
            assert b"".join(pieces) == b"".join(split(text, 4).texts[number] for text in texts)
    os.truncate(path, path.stat().st_size - 1)
    with pytest.raises(OSError, match="blocks was cut"):
        list(splits.lines_of(str(path), 3, 4))


def resident(path: Path) -> int:
    """The bytes of a file, perhaps without its name, that are mapped and in memory as this process's."""
    maps = Path("/proc/self/smaps").read_text().split(str(path))[1:]
    return sum(1024 * int(each.partition("\nRss:")[2].split()[0]) for each in maps)


def test_memory_of_a_text(tmp_path: Path) -> None:
    """While a text is read, its pages are given back, and it has no name."""
    path, threads = tmp_path / "text", threading.active_count()
    path.write_bytes(bytes(2**24))
    with builds._Mapped(str(path)) as data:
        assert not path.exists() and os.listdir(tmp_path) == []
        for _ in range(2):
            assert sum(data[::4096]) == 0
            deadline = time.monotonic() + 20
            while resident(path) > 2**20:
                assert time.monotonic() < deadline
    assert threading.active_count() == threads and resident(path) == 0


def test_published_parts() -> None:
    """The hash can't change, as folders depend on it: values of RFC 1952's CRC-32, of which the first is its check."""
    crcs = {"123456789": 0xCBF43926, "": 0, "a": 0xE8B7BE43, "abc": 0x352441C2, "http://example.org/a": 0x60BD47FE,
            "_:b": 0x1EB46E92, "u:\u00e9": 0x1B847035}
    assert {string: zlib.crc32(string.encode()) for string in crcs} == crcs
    for string, crc in crcs.items():
        assert [parts.part_of(string, count) for count in (1, 7, 65_536)] == [0, crc % 7, crc % 65_536]


@given(st.lists(st.sampled_from([b"a", b"\n", b"\r", b"\r\n", b"bcd"]), max_size=30).map(b"".join),
       st.integers(1, 12), st.integers(1, 12))
def test_ranges(tmp_path_factory: pytest.TempPathFactory, text: bytes, size: int, block: int) -> None:
    """The blocks of all ranges are the lines of an input, and none ends within a line."""
    path = Path(tmp_path_factory.getbasetemp(), "ranges.nt")
    path.write_bytes(text)
    with small(size, block):
        found = [block for it in ranges.ranges([str(path)]) for block in ranges.blocks(it)]
    assert b"".join(found) == text and all(found)
    assert [line for block in found for line in block.splitlines()] == text.splitlines()


def test_long_lines(tmp_path: Path) -> None:
    """A line may be longer than a block, and a range."""
    line = f'<u:a> <u:p> "{"x" * 5_000}" .'
    paths = inputs(tmp_path, [line, LINES[0], line, LINES[1]], 2, packed=[1])
    with small(100, 64):
        assert parts.build(paths, tmp_path / "out", 2, blank_nodes="one").triples == 3


def first_fault(text: bytes, longest: int) -> Optional[tuple[int, int, int]]:
    """The first error of a text whose lines may have so many bytes: its reason, line and column."""
    for number, line in reference_lines(text):
        if len(line) > longest:
            return 9, number, longest + 1
        if error := read_document(line)[1]:
            return int(error.reason), number, error.column
    return None


LINE_PIECES = [b"a", b"\n", b"\r", b"\r\n", b"#", b"<x:a><x:a><x:a>.", b"# \xc3\xa9", b"\xff", b"   "]


@given(st.lists(st.sampled_from(LINE_PIECES), max_size=12).map(b"".join) | document_texts(), st.integers(0, 20),
       st.integers(1, 30), st.integers(1, 12), st.booleans())
@example(b"abc\rdefg", 5, 10**6, 4, False)
@example(b"#\n#bc\r#efg\r\n#x", 4, 3, 5, True)
@example(b"<x:a><x:a><x:a>.\nxxxx\n" + b"#" * 21, 20, 10**6, 10**6, False)
def test_longest_line(
    tmp_path_factory: pytest.TempPathFactory, text: bytes, longest: int, size: int, block: int, packed: bool,
) -> None:
    """The first line that is too long, or wrong, is the error, at its line; one of that length is none."""
    path = Path(tmp_path_factory.getbasetemp(), "longest.nt" + ".gz" * packed)
    path.write_bytes(gzip.compress(text) if packed else text)
    folder, wanted = tmp_path_factory.getbasetemp() / "longest", first_fault(text, longest)
    with small(size, block):
        if wanted is None:
            found = b"".join(block for it in ranges.ranges([str(path)]) for block in ranges.blocks(it, longest))
            assert found == text
            return
        with pytest.raises(parts.InputFault) as fault:
            parts.build([path], folder, 2, longest_line=longest)
    assert (fault.value.reason, fault.value.line, fault.value.column) == wanted and not folder.exists()


def test_longest_line_of_each_input(tmp_path: Path) -> None:
    """Lines up to it are built, by tasks too; the path of the input with a longer one is in the error."""
    longest = max(len(line.encode()) for line in LINES)
    paths = inputs(tmp_path, LINES, 3, packed=[1])
    with small(300, 64), ThreadPoolExecutor(2) as executor:
        made = parts.build(paths, tmp_path / "out", 2, executor, "one", longest_line=longest)
        assert named(made) == named(parts.build(paths, tmp_path / "all", 2, blank_nodes="one"))
        for given_executor in (executor, None):
            with pytest.raises(parts.InputFault, match=f"in.[.]nt.*: line .* column {longest}: 9 TooLong"):
                parts.build(paths, tmp_path / "none", 2, given_executor, "one", longest_line=longest - 1)
    assert nothing_but(tmp_path, "out", "all")


@pytest.mark.parametrize("packed", [True, False])
def test_memory_of_a_line_without_an_end(tmp_path: Path, packed: bool) -> None:
    """A line that is too long takes no memory; another one takes its length while it is read, with an eighth."""
    path, length = tmp_path / ("in.nt" + ".gz" * packed), 2**26
    with gzip.open(path, "wb", 1) if packed else path.open("wb") as file:
        file.write(LINES[0].encode() + b"\n")
        for _ in range(length // 2**20):
            file.write(b"x" * 2**20)
    tracemalloc.start()
    try:
        with pytest.raises(parts.InputFault, match="line 2 column 1000001: 9 TooLong"):
            parts.build([path], tmp_path / "out", 2, longest_line=1_000_000)
        assert tracemalloc.get_traced_memory()[1] < 6 * 2**20
        tracemalloc.reset_peak()
        read = sum(len(block) for it in ranges.ranges([str(path)]) for block in ranges.blocks(it))
        assert read == len(LINES[0].encode()) + 1 + length
        assert tracemalloc.get_traced_memory()[1] < 1.125 * length + 6 * 2**20
    finally:
        tracemalloc.stop()


# ---- the folder

def test_one_part_is_a_file(tmp_path: Path) -> None:
    """One part is the file that `build` makes with the part's base, and the manifest says what it is."""
    document = tmp_path / "in.nt"
    document.write_text(TEXT)
    manifest = parts.build([document], tmp_path / "out", 1, base="http://a/", block_size=3)
    counts = hdt.build(document, tmp_path / "in.hdt", base="http://a/#part-0-of-1", block_size=3)
    built = (tmp_path / "in.hdt").read_bytes()
    assert (tmp_path / "out/part-00000.hdt").read_bytes() == built
    assert sorted(path.name for path in (tmp_path / "out").iterdir()) == ["manifest.json", "part-00000.hdt"]
    values = json.loads((tmp_path / "out/manifest.json").read_text())
    digest = subprocess.run(["sha256sum", tmp_path / "in.hdt"], stdout=subprocess.PIPE, text=True, check=True).stdout
    assert values == {
        "kind": "hdt-parts", "version": 1,
        "hash": "CRC-32 (gzip) of the subject's dictionary string in UTF-8, modulo the number of parts",
        "base": "http://a/", "block_size": 3, "blank_nodes": "one",
        "triples": counts.triples, "subjects": counts.shared + counts.subjects,
        "inputs": [{"path": str(document), "bytes": len(TEXT.encode())}],
        "parts": [{"file": "part-00000.hdt", "bytes": len(built), "sha256": digest[:64], **counts._asdict()}],
    }
    assert manifest == parts.open(tmp_path / "out").manifest


@pytest.mark.parametrize("base", ["http://a/#b", "http://a/"])
def test_bases_of_parts(tmp_path: Path, base: str) -> None:
    """The header of a part names the part, and has its count."""
    manifest = parts.build(inputs(tmp_path, LINES, 1), tmp_path / "out", 2, base=base)
    for number, part in enumerate(manifest.parts):
        with hdt.open(tmp_path / "out" / part.file) as graph:
            about = f"<{base}{'-' if '#' in base else '#'}part-{number}-of-2>".encode()
            assert graph.header.startswith(about) and f'"{part.triples}"'.encode() in graph.header


def test_equal_graphs_have_equal_parts(tmp_path: Path) -> None:
    """Parts are the same, byte for byte, whatever the inputs, their order and the sizes of tasks."""
    expected = parts.build(inputs(tmp_path, LINES, 1), tmp_path / "expected", 3)
    rng = random.Random(1)
    for number in range(6):
        lines = rng.sample(LINES, len(LINES)) + rng.sample(LINES, 9)
        paths = inputs(tmp_path, lines, rng.randint(1, 4), packed=[0, 2])
        with small(rng.choice([50, 500, 10**6]), rng.choice([1, 90, 10**6])):
            found = parts.build(rng.sample(paths, len(paths)), tmp_path / f"out{number}", 3, blank_nodes="one")
        assert named(found) == named(expected)
        for part in expected.parts:
            one, other = (tmp_path / name / part.file for name in ("expected", f"out{number}"))
            assert one.read_bytes() == other.read_bytes()


def test_parts_without_triples(tmp_path: Path) -> None:
    """They have no file."""
    manifest = parts.build(inputs(tmp_path, ["<u:a> <u:p> <u:o> ."], 1), tmp_path / "out", 5)
    assert [part.file for part in manifest.parts].count("") == 4
    with parts.open(tmp_path / "out") as graph:
        graph.verify()
        assert list(graph) == [("u:a", "u:p", "u:o")] and [graph.matching(f"u:{c}") for c in "abcdef"] == [1] + 5 * [0]


def test_folder_that_is_there(tmp_path: Path) -> None:
    """It is left as it is."""
    (tmp_path / "out").mkdir()
    with pytest.raises(FileExistsError):
        parts.build(inputs(tmp_path, LINES, 1), tmp_path / "out", 2)
    assert nothing_but(tmp_path, "out") and not list((tmp_path / "out").iterdir())


def test_two_builds_into_one_folder(tmp_path: Path) -> None:
    """The one that is late finds it there, and leaves nothing; so it does if anything else is there by then."""
    paths = inputs(tmp_path, LINES, 1)

    def late(make: Callable[[], Any]) -> None:
        """Build, while the folder is made by another program."""
        before = os.rename

        def rename(old: str, new: str) -> None:
            if new == str(tmp_path / "out"):
                make()
            before(old, new)

        with mock.patch("os.rename", rename), pytest.raises(FileExistsError) as error:
            parts.build(paths, tmp_path / "out", 3)
        assert error.value.filename == str(tmp_path / "out")
        assert nothing_but(tmp_path, "out")

    def built() -> None:
        parts.build(paths, tmp_path / "other", 2)
        (tmp_path / "other").rename(tmp_path / "out")

    late(built)
    assert len(parts.open(tmp_path / "out").manifest.parts) == 2
    shutil.rmtree(tmp_path / "out")
    others: list[Callable[[], Any]] = [(tmp_path / "out").touch, lambda: (tmp_path / "out").symlink_to("none")]
    for make in others:
        late(make)
        (tmp_path / "out").unlink()


def test_link_in_place_of_the_folder(tmp_path: Path) -> None:
    """A link has the name of the folder, wherever it leads; no work is done before that is seen."""
    (tmp_path / "out").symlink_to("none")
    with pytest.raises(FileExistsError):
        parts.build([tmp_path / "in.nt"], tmp_path / "out", 2)
    assert nothing_but(tmp_path, "out")


@pytest.mark.parametrize("size", [20, 30_000])
def test_order_of_calls(tmp_path: Path, size: int) -> None:
    """What is named is on the disk before its name is: files, then their folder, then the name of that."""
    calls: list[tuple[str, ...]] = []
    rename = os.rename

    def noted_sync(descriptor: int) -> None:
        path = os.readlink(f"/proc/self/fd/{descriptor}")
        calls.append(("sync", path, str(os.fstat(descriptor).st_size)) if os.path.isfile(path) else ("sync", path))

    def noted_rename(old: str, new: str) -> None:
        calls.append(("rename", old, new))
        rename(old, new)

    paths = inputs(tmp_path, [f'<u:{n % 9}> <u:p> "{n:060}" .' for n in range(size)], 1)
    with mock.patch("os.fsync", noted_sync), mock.patch("os.rename", noted_rename):
        made = parts.build(paths, tmp_path / "out", 2)
    calls = [call for call in calls if "hdt-unfinished" not in call[1]]  # (by which the base is checked)
    beside = next(Path(call[1]).parent for call in calls if call[0] == "rename" and call[2] == str(tmp_path / "out"))
    assert beside.parent == tmp_path and not beside.exists()
    scratch = [call[1] for call in calls if call[0] == "sync"][:2]
    sizes = [str((tmp_path / "out" / name).stat().st_size) for name in ("part-00000.hdt", "part-00001.hdt",
                                                                        "manifest.json")]
    files = [str(beside / "made" / part.file) for part in made.parts]
    assert calls == [
        *(("sync", path, size_of) for path, size_of in zip(scratch, sizes)),
        *(("rename", path, file) for path, file in zip(scratch, files)),
        ("sync", str(beside / "made/manifest.json"), sizes[2]), ("sync", str(beside / "made")),
        ("rename", str(beside / "made"), str(tmp_path / "out")), ("sync", str(tmp_path)),
    ]


def test_builder_that_is_killed(tmp_path: Path) -> None:
    """There is no folder after that, and what is there instead is in no one's way."""
    paths = inputs(tmp_path, LINES, 1)
    for where in ("split", "built", "os.rename"):
        program = f"""
            import os, hdt.parts, hdt.parts._build as module
            def die(*_): os.kill(os.getpid(), 9)
            {where if "." in where else "module." + where} = die
            hdt.parts.build(['{paths[0]}'], '{tmp_path}/out', 3)
        """.replace("\n            ", "\n")
        done = subprocess.run([sys.executable, "-c", program], env={**os.environ, **ENVIRONMENT})
        assert done.returncode == -9 and not (tmp_path / "out").exists()
    assert parts.build(paths, tmp_path / "out", 2).triples == len(LINES)


# ---- errors

@examples(4)
@given(st.lists(document_texts(), min_size=1, max_size=3), st.integers(1, 4), st.integers(1, 40), st.integers(1, 40),
       st.sampled_from(["one", "apart"]))
def test_errors_are_those_of_one_build(
    tmp_path_factory: pytest.TempPathFactory, texts: list[bytes], count: int, size: int, block: int, how: str
) -> None:
    """The first error of the inputs, in their order, is that of a build of that input."""
    folder = tmp_path_factory.mktemp("errors")
    expected: Optional[tuple[str, int, int, int, str]] = None
    has_triples = False
    paths = []
    for number, text in enumerate(texts):
        paths.append(folder / f"in{number}.nt{'.gz' if number == 1 else ''}")
        paths[-1].write_bytes(gzip.compress(text) if number == 1 else text)
        (folder / "in.nt").write_bytes(text)
        try:
            hdt.build(folder / "in.nt", folder / "in.hdt")
            has_triples = True
        except hdt.LineFault as fault:
            expected = expected or (str(paths[-1]), fault.reason, fault.line, fault.column, str(fault))
        except hdt.NoTriples:
            pass
    with small(size, block):
        if expected is None and has_triples:
            parts.build(paths, folder / "out", count, blank_nodes=how)
            return
        with pytest.raises(parts.InputFault if expected else hdt.NoTriples) as found:
            parts.build(paths, folder / "out", count, blank_nodes=how)
    if expected:
        error: Any = found.value
        assert (error.path, error.reason, error.line, error.column) == expected[:4]
        assert str(error) == expected[4].replace(str(folder / "in.nt"), expected[0])
    assert nothing_but(folder)


def test_inputs_that_cannot_be_read(tmp_path: Path) -> None:
    """A missing input, a compressed one that is cut or is none, and a pipe."""
    whole = gzip.compress(TEXT.encode() * 100)
    for name, data, error, told in (
        ("in.nt", None, FileNotFoundError, "in.nt"),
        ("in.nt.gz", whole[:-9], OSError, "in.nt.gz: not a whole gzip file"),
        ("in.nt.gz", whole[:999] + b"\xff" + whole[1000:], OSError, "in.nt.gz: not a whole gzip file"),
        ("in.nt.gz", TEXT.encode(), OSError, "in.nt.gz: not a whole gzip file"),
    ):
        if data is not None:
            (tmp_path / name).write_bytes(data)
        with pytest.raises(error, match=told):
            parts.build([tmp_path / name], tmp_path / "out", 2)
    os.mkfifo(tmp_path / "in.pipe")
    for name in ("/dev/null", str(tmp_path / "in.pipe")):
        with pytest.raises(ValueError, match=f"{name} is no regular file"):
            parts.build([name], tmp_path / "out", 2)
    assert nothing_but(tmp_path)


def test_options(tmp_path: Path) -> None:
    """Options that cannot be used are errors, and leave nothing."""
    paths = inputs(tmp_path, LINES, 1)
    cases: list[tuple[dict[str, Any], type[Exception]]] = [
        ({"parts": 0}, ValueError), ({"parts": 65_537}, ValueError), ({"parts": "2"}, TypeError),
        ({"block_size": 0}, ValueError), ({"block_size": 65_536}, ValueError), ({"blank_nodes": "both"}, ValueError),
        ({"base": "relative"}, ValueError), ({"inputs": paths[0]}, TypeError), ({"inputs": str(paths[0])}, TypeError),
        ({"inputs": []}, hdt.NoTriples), ({"executor": ThreadPoolExecutor}, TypeError),
        ({"block_size": 65_536, "inputs": ["none.nt"]}, ValueError), ({"longest_line": -1}, ValueError),
        ({"longest_line": "9"}, TypeError), ({"longest_line": 1.0}, TypeError),
        ({"folder": tmp_path / "none/out", "block_size": 65_535, "longest_line": 0}, FileNotFoundError),
        ({"folder": tmp_path / "none/out", "parts": 65_536}, FileNotFoundError),
    ]
    for options, error in cases:
        with pytest.raises(error) as found:
            given_options: dict[str, Any] = {"inputs": paths, "folder": tmp_path / "out", "parts": 2, **options}
            parts.build(**given_options)
        assert nothing_but(tmp_path)
    assert getattr(found.value, "filename") == str(tmp_path / "none")
    (tmp_path / "in1.nt").write_text("x")
    with pytest.raises(ValueError) as found:  # (the base is looked at before the inputs)
        parts.build([tmp_path / "in1.nt"], tmp_path / "out", 2, base="relative")
    assert type(found.value) is ValueError


# ---- blank nodes

def test_blank_nodes(tmp_path: Path) -> None:
    """Two inputs with blank nodes are one document or two, and the caller says so."""
    texts = (
        '_:a <u:p> _:b .\n<u:s> <u:p> "_:a" .\n<u:_:a> <u:p> <u:o> .\n',
        "_:a<u:p>_:a.\n_:\u00e9 <u:p> <u:o> .\n",
        '<u:s> <u:p> "_:c <u:p> _:d .\\u00e9" . # _:e\n',
    )
    paths = [tmp_path / f"in{number}.nt" for number in range(3)]
    for path, text in zip(paths, texts):
        path.write_text(text, encoding="utf-8")
    for block in (1, 10**6):
        with small(10**6, block), pytest.raises(ValueError, match="in0.nt and .*in1.nt have blank nodes"):
            parts.build(paths, tmp_path / "out", 2)
    assert nothing_but(tmp_path)
    parts.build([paths[0], paths[2]], tmp_path / "out", 2)  # one of them has some
    others = {("u:s", "u:p", '"_:a"'), ("u:_:a", "u:p", "u:o"), ("u:s", "u:p", '"_:c <u:p> _:d .\u00e9"')}
    for how, expected in (
        ("one", {("_:a", "u:p", "_:b"), ("_:a", "u:p", "_:a"), ("_:\u00e9", "u:p", "u:o")}),
        ("apart", {("_:f0_a", "u:p", "_:f0_b"), ("_:f1_a", "u:p", "_:f1_a"), ("_:f1_\u00e9", "u:p", "u:o")}),
    ):
        with small(30, 10):  # (an input is more than one range)
            assert parts.build(paths, tmp_path / how, 3, blank_nodes=how).blank_nodes == how
        with parts.open(tmp_path / how) as graph:
            assert set(graph) == expected | others
            graph.verify()
