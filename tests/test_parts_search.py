"""Graphs in parts: they are searched as one file is, and parts that are wrong are named."""

from __future__ import annotations

import io
import json
import os
import pickle
import shutil
import signal
import threading
from collections.abc import Callable
from functools import partial
from pathlib import Path
from typing import Any
from unittest import mock

import pytest
from hypothesis import given
from hypothesis import strategies as st

from reference.ntriples import read_document, triple_strings
from support.parts import (check_same, files, graph_of, hdt, inputs, named, of_one, parts, patterns, ranges, small,
                           text_of)
from support.properties import examples
from support.terms import documents

GRAPH = graph_of(400)
TEXT = text_of(GRAPH)


@pytest.fixture
def folder(tmp_path: Path) -> Path:
    """A folder of four parts."""
    parts.build(inputs(tmp_path, TEXT.splitlines(), 1), tmp_path / "out", 4)
    return tmp_path / "out"


# ---- as one file

@examples(6)
@given(st.lists(documents(most=9), min_size=1, max_size=3), st.integers(1, 6), st.integers(1, 200), st.integers(1, 200),
       st.integers(1, 3))
def test_random_graphs(
    tmp_path_factory: pytest.TempPathFactory, texts: list[tuple[bytes, Any]], count: int, size: int, block: int,
    first: int,
) -> None:
    """The union of the parts is the graph that one build makes, by all eight patterns of its terms."""
    folder = tmp_path_factory.mktemp("random")
    lines = [line for text, _ in texts for line in text.splitlines()]
    triples = {triple_strings(triple) for line in lines for triple in read_document(line)[0]}
    paths = [folder / f"in{number}.nt" for number in range(len(texts))]
    for path, (text, _) in zip(paths, texts):
        path.write_bytes(text)
    with small(size, block, first, 2 * first):
        if not triples:
            with pytest.raises(hdt.NoTriples):
                parts.build(paths, folder / "out", count, blank_nodes="one")
            return
        manifest = parts.build(paths, folder / "out", count, blank_nodes="one")
        again = parts.build(paths[::-1], folder / "again", count, blank_nodes="one")
        assert named(manifest) == named(again)
        with of_one(folder, b"\n".join(lines)) as one, parts.open(folder / "out") as graph:
            strings = [(s.decode(), p.decode(), o.decode()) for s, p, o in triples]
            assert set(graph) == set(strings)
            check_same(one, graph, patterns(sorted(strings), 2))
            graph.verify()
    shutil.rmtree(folder)


@pytest.mark.parametrize("count", [1, 2, 7, 300])
def test_many_matches(tmp_path: Path, count: int) -> None:
    """More matches than a page has, by any number of parts."""
    with small(10**6, 10**6):
        parts.build(inputs(tmp_path, TEXT.splitlines(), 1), tmp_path / "out", count)
    with of_one(tmp_path, TEXT.encode()) as one, parts.open(tmp_path / "out") as graph:
        check_same(one, graph, patterns(GRAPH, 1) + [(None, "u:p1", None)])


def test_subject_asks_one_part(folder: Path) -> None:
    """The other parts aren't even opened: they may be missing by then."""
    with parts.open(folder) as graph:
        for number in (0, 1, 3):
            (folder / f"part-{number:05}.hdt").unlink()
        for subject in {s for s, _, _ in GRAPH}:
            if parts.part_of(subject, 4) == 2:
                expected = [triple for triple in GRAPH if triple[0] == subject]
                assert graph.matching(subject) == len(expected)
                assert list(graph.find(subject, order="strings")) == sorted(expected)
            else:
                with pytest.raises(parts.PartFault):
                    graph.matching(subject)


def test_write_text(folder: Path) -> None:
    """Text goes to files of both kinds."""
    with parts.open(folder) as graph:
        data, text = io.BytesIO(), io.StringIO()
        graph.write_text(data, p="u:p1")
        graph.write_text(text, p="u:p1")
        assert data.getvalue().decode() == text.getvalue() == graph.text(p="u:p1")


def test_wrong_calls(folder: Path) -> None:
    """Wrong terms, numbers, orders, and calls on a closed graph."""
    with parts.open(folder) as graph:
        calls: list[Callable[..., Any]] = [graph.matching, graph.find, graph.text, graph.text_pieces, graph.page,
                                           graph.position]
        for call in calls:
            for wrong in ((1, None, None), (None, b"x", None), (None, None, 1.0)):
                with pytest.raises(TypeError):
                    call(*wrong)
            with pytest.raises(ValueError, match=r"no brackets: write 'u:p' for '<u:p>'"):
                call(None, "<u:p>", None)
        for options in ({"start": -1}, {"limit": -1}, {"order": "numbers"}):
            with pytest.raises(ValueError):
                graph.find(**options)  # type: ignore[arg-type]
        with pytest.raises(ValueError):
            graph.page(start=-1)
        assert ("u:a", "u:p") not in graph and 7 not in graph
        started = graph.find()
        next(started)
        with pytest.raises(TypeError):
            pickle.dumps(graph)
    assert repr(graph) == "<hdt.parts.Graph, closed>"
    calls += [graph.verify, graph.__len__, graph.__iter__, graph.__enter__, graph.predicates, partial(list, started)]
    for call in calls:
        with pytest.raises(ValueError, match="closed"):
            call()
    graph.close()


def test_threads(folder: Path) -> None:
    """Threads may share a graph, also when its files are opened."""
    with parts.open(folder) as graph:
        found: list[int] = []
        threads = [threading.Thread(target=lambda: found.append(graph.matching(p="u:p1"))) for _ in range(8)]
        for thread in threads:
            thread.start()
        for thread in threads:
            thread.join()
        assert found == 8 * [sum(p == "u:p1" for _, p, _ in GRAPH)]


# ---- open files

def test_files_that_are_kept_open(tmp_path: Path, folder: Path) -> None:
    """A process keeps so many files open, those that were used last, and closes the others."""
    kept, rows = files.OpenFiles(2), parts.open(folder).manifest.parts
    graphs = [kept.graph(str(folder), rows[number]) for number in (0, 1)]
    assert kept.graph(str(folder), rows[0]) is graphs[0]
    third = kept.graph(str(folder), rows[2])
    assert kept.graph(str(folder), rows[0]) is graphs[0] and kept.graph(str(folder), rows[2]) is third
    assert kept.graph(str(folder), rows[1]) is not graphs[1]
    assert len(list(graphs[1])) == rows[1].triples  # (another thread may use it yet)
    kept.close()
    with pytest.raises(ValueError, match="closed"):
        len(third)


def test_folder_that_is_replaced(tmp_path: Path, folder: Path) -> None:
    """One that is open stays as it was; a new one at its path is another one, for the same process, too."""
    row = parts.open(folder).manifest.parts[1]
    before = files.run(str(folder), row, len)
    with parts.open(folder) as graph:
        assert len(list(graph)) == len(GRAPH)
        folder.rename(tmp_path / "old")
        manifest = parts.build(inputs(tmp_path, TEXT.splitlines()[:99], 1), folder, 4)
        assert len(list(graph)) == len(GRAPH)
    assert files.run(str(folder), manifest.parts[1], len) == manifest.parts[1].triples != before
    with parts.open(folder) as graph:
        assert len(list(graph)) == 99


def test_forked_process(folder: Path) -> None:
    """A process that was forked while a thread held the lock of the open files isn't stuck."""
    row = parts.open(folder).manifest.parts[0]
    files.run(str(folder), row, len)
    with files._kept._lock:
        child = os.fork()
        if not child:
            try:
                signal.alarm(20)  # (which ends it if it is stuck)
                os._exit(files.run(str(folder), row, len) != row.triples)
            finally:
                os._exit(2)
    assert os.waitpid(child, 0)[1] == 0


# ---- parts and manifests that are wrong

def fault_of(folder: Path) -> tuple[str, str]:
    """The file and the reason of the first error, by opening a folder and verifying it."""
    with pytest.raises(parts.PartFault) as fault:
        with parts.open(folder) as graph:
            graph.verify()
    assert str(fault.value) == f"{fault.value.file} {fault.value.what}"
    again = pickle.loads(pickle.dumps(fault.value))
    assert (again.file, again.what) == (fault.value.file, fault.value.what)
    return fault.value.file, fault.value.what


def test_parts_that_are_wrong(folder: Path) -> None:
    """One that is cut, longer, empty, damaged, another one, or missing is named, with what it is."""
    part, other = folder / "part-00002.hdt", folder / "part-00001.hdt"
    good, of_other = part.read_bytes(), other.read_bytes()
    damaged = bytearray(good)
    damaged[len(good) // 2] ^= 1
    hdt.rewrite(part, folder / "rewritten.hdt", block_size=3)
    rewritten = (folder / "rewritten.hdt").read_bytes()
    (folder / "rewritten.hdt").unlink()
    for data, what in (
        (good[:-1], f"has {len(good) - 1:,} bytes, not {len(good):,}"),
        (good + b"x", f"has {len(good) + 1:,} bytes, not {len(good):,}"),
        (b"", f"has 0 bytes, not {len(good):,}"),
        (of_other, f"has {len(of_other):,} bytes, not {len(good):,}"),
        (bytes(damaged), "is damaged: fault"),
        (b"x" * len(good), "is damaged: fault 4 NotHdt at 0"),
    ):
        part.write_bytes(data)
        file, told = fault_of(folder)
        assert file == "part-00002.hdt" and told.startswith(what)
    part.unlink()
    assert fault_of(folder) == ("part-00002.hdt", "is missing")
    with mock.patch.object(parts.Graph, "_check_size"):  # (it may change after that)
        for data in (of_other, rewritten, b"", good + b"x"):
            part.write_bytes(data)
            assert fault_of(folder) == ("part-00002.hdt", f"has {len(data):,} bytes, not {len(good):,}")
    part.write_bytes(good)
    with parts.open(folder) as graph:
        graph.verify()


def test_verify_looks_at_the_disk(folder: Path) -> None:
    """Also if the files are open, and were right when they were opened; searches go on with what is open."""
    with parts.open(folder) as graph:
        found = list(graph)
        data = (folder / "part-00003.hdt").read_bytes()
        (folder / "new").write_bytes(data[:-1] + bytes([data[-1] ^ 1]))
        (folder / "new").rename(folder / "part-00003.hdt")
        with pytest.raises(parts.PartFault, match="part-00003.hdt is damaged"):
            graph.verify()
        assert list(graph) == found


def test_search_in_a_part_that_is_wrong(folder: Path) -> None:
    """A part is looked at when it is opened."""
    data = bytearray((folder / "part-00003.hdt").read_bytes())
    data[len(data) // 2] ^= 1
    (folder / "part-00003.hdt").write_bytes(data)
    with parts.open(folder) as graph, pytest.raises(parts.PartFault, match="part-00003.hdt is damaged"):
        graph.matching(p="u:p1")


def test_other_files_of_the_same_size(tmp_path: Path) -> None:
    """They are told by their SHA-256, and the file of another part is named."""
    subjects = [next(f"u:{c}" for c in "abcdefgh" if parts.part_of(f"u:{c}", 2) == number) for number in (0, 1)]
    rows = parts.build(inputs(tmp_path, [f"<{s}> <u:p> <u:o> ." for s in subjects], 1), tmp_path / "out", 2).parts
    assert rows[0].bytes == rows[1].bytes
    one, other = (tmp_path / "out" / row.file for row in rows)
    good = one.read_bytes()
    one.write_bytes(other.read_bytes())
    assert fault_of(tmp_path / "out") == ("part-00000.hdt", "is the file of part 1")
    parts.build(inputs(tmp_path, [f"<{s}> <u:p> <u:r> ." for s in subjects], 1), tmp_path / "new", 2)
    one.write_bytes((tmp_path / "new" / one.name).read_bytes())
    assert fault_of(tmp_path / "out") == ("part-00000.hdt", "is another file")
    one.write_bytes(good)
    with parts.open(tmp_path / "out") as graph:
        graph.verify()


def changed(folder: Path, change: Callable[[Any], Any]) -> None:
    """Change the manifest of a folder."""
    values = json.loads((folder / "manifest.json").read_text())
    change(values)
    (folder / "manifest.json").write_text(json.dumps(values))


CHANGES: dict[str, Callable[[Any], Any]] = {
    "has another kind": lambda it: it.update(kind="x"),
    "has another version": lambda it: it.update(version=2),
    "has another hash": lambda it: it.update(hash="md5"),
    "has no parts": lambda it: it.pop("parts"),
    "has an unexpected parts\\[0\\].'more'": lambda it: it["parts"][0].update(more=1),
    "has 0 parts": lambda it: it.update(parts=[]),
    "has 65,537 parts": lambda it: it.update(parts=65_537 * [{}]),
    "has another file for part 3": lambda it: it["parts"][3].update(file="../out/part-00003.hdt"),
    "has another file for part 0": lambda it: it["parts"].reverse(),
    "has another file for part 1": lambda it: it["parts"][1].update(file=""),
    "has another file for part 2": lambda it: it["parts"][2].update(file="", triples=0),
    "has a wrong parts\\[2\\].bytes: 0": lambda it: it["parts"][2].update(bytes=0),
    "has a wrong parts\\[2\\].triples: 0": lambda it: it["parts"][2].update(triples=0),
    "has a wrong parts\\[2\\].sha256: 'F+'": lambda it: it["parts"][2].update(sha256="F" * 64),
    "has a wrong block_size: 0": lambda it: it.update(block_size=0),
    "has a wrong block_size: 65536": lambda it: it.update(block_size=65_536),
    "has a wrong blank_nodes: 'both'": lambda it: it.update(blank_nodes="both"),
    "has a wrong base: 'a> <b'": lambda it: it.update(base="a> <b"),
    "has a wrong base: 'relative'": lambda it: it.update(base="relative"),
    "has a wrong triples: 0": lambda it: it.update(triples=0),
    "has triples and subjects that are not the sums": lambda it: it.update(triples=7),
}


@pytest.mark.parametrize("told", CHANGES)
def test_manifests_that_are_wrong(folder: Path, told: str) -> None:
    """A manifest that is not one is named."""
    changed(folder, CHANGES[told])
    with pytest.raises(parts.PartFault, match=f"manifest.json {told}"):
        parts.open(folder)


def test_manifests_of_other_parts(folder: Path) -> None:
    """Rows that say something else than the files, parts at other places, and no manifest at all."""
    good = (folder / "manifest.json").read_text()

    def counts(it: Any) -> None:
        it["parts"][1]["triples"] += 1
        it["triples"] += 1

    changed(folder, counts)
    assert fault_of(folder) == ("part-00001.hdt", "has other counts than the manifest says")
    (folder / "manifest.json").write_text(good)

    def places(it: Any) -> None:
        rows = it["parts"]
        rows[0], rows[1] = {**rows[1], "file": rows[0]["file"]}, {**rows[0], "file": rows[1]["file"]}

    changed(folder, places)
    (folder / "part-00000.hdt").rename(folder / "x")
    (folder / "part-00001.hdt").rename(folder / "part-00000.hdt")
    (folder / "x").rename(folder / "part-00001.hdt")
    file, told = fault_of(folder)
    assert file == "part-00000.hdt" and told.startswith("has the subject") and told.endswith("of part 1")
    for text in ("", "[" * 100_000, "[]"):
        (folder / "manifest.json").write_text(text)
        with pytest.raises(parts.PartFault, match="manifest.json"):
            parts.open(folder)
    (folder / "manifest.json").unlink()
    with pytest.raises(FileNotFoundError):
        parts.open(folder)


def test_inputs_that_change_meanwhile(tmp_path: Path) -> None:
    """The text of a part is judged again when it is built, so a folder never has what isn't N-Triples."""
    def spoiled(*_: Any) -> Any:
        yield b"<u:a> <u:p> <u:o> .\n"
        raise OSError("gone")

    with mock.patch.object(ranges, "blocks", spoiled), pytest.raises(OSError, match="gone"):
        parts.build(inputs(tmp_path, ["<u:a> <u:p> <u:o> ."], 1), tmp_path / "out", 2)
    assert not (tmp_path / "out").exists() and len(list(tmp_path.iterdir())) == 1
