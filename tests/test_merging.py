"""Merging by the Python package: files and open graphs, folders of parts, errors, threads."""

from __future__ import annotations

import ctypes
import os
import random
import shutil
import sys
import threading
from collections.abc import Callable, Sequence
from concurrent.futures import ThreadPoolExecutor
from contextlib import ExitStack
from pathlib import Path
from typing import Any, Union
from unittest import mock

import pytest
from hypothesis import example, given
from hypothesis import strategies as st

from reference import hdt as reference
from support.built import PROGRAM, SAMPLES
from support.c_files import loose_files
from support import parts as of_parts
from support.parts import graph_of, inputs, parts, text_of
from support.program import run
from support.properties import examples
from support.python_package import hdt

from hdt._library import OUT_OF_MEMORY, library

THREE = SAMPLES / "three.hdt"
LINE = "<u:s> <u:p> _:b .\n"
NODES = ["u:a", "u:b", "_:b", "u:\u00e9", "http://a/"]
OBJECTS = [*NODES, '"x"', '"x"@en', '"1"^^<u:t>', '""', '"\U0001f600"']
TRIPLES = st.tuples(st.sampled_from(NODES), st.sampled_from(["u:p", "u:q", "u:a"]), st.sampled_from(OBJECTS))


def built(folder: Path, name: str, triples: Sequence[Any], **options: Any) -> Path:
    """A file that is built of triples of dictionary strings."""
    (folder / "text.nt").write_text(text_of(triples))
    hdt.build(folder / "text.nt", folder / name, **options)
    return folder / name


@pytest.fixture(name="scratch", scope="module")
def fixture_scratch(tmp_path_factory: pytest.TempPathFactory) -> Path:
    """A folder for the files of examples."""
    return tmp_path_factory.mktemp("merging")


@examples()
@given(st.lists(TRIPLES, min_size=1, max_size=40), st.integers(1, 12), st.integers(0, 2**32),
       st.sampled_from([1, 3, 16]))
@example([("u:a", "u:a", "u:a")], 12, 0, 1)
def test_merging_is_building_together(
    scratch: Path, triples: list[Any], count: int, seed: int, block_size: int
) -> None:
    """Files of triples in any number and order, some of foreign programs, merge to the file of all of them."""
    draw = random.Random(seed)
    files: list[Path] = []
    for number in range(count):
        some = draw.sample(triples, draw.randint(1, len(triples))) if number else triples
        name = f"{number}.hdt"
        if draw.random() < 0.3:
            strings = [(s.encode(), p.encode(), o.encode()) for s, p, o in some]
            (scratch / name).write_bytes(reference.graph(strings).data)
            files.append(scratch / name)
        else:
            files.append(built(scratch, name, some, block_size=draw.choice([1, 2, 16]), base="u:other"))
    draw.shuffle(files)
    wanted = built(scratch, "wanted", triples, block_size=block_size).read_bytes()
    counts = hdt.merge(files, scratch / "out", block_size=block_size)
    assert (scratch / "out").read_bytes() == wanted
    assert counts == hdt.verify(scratch / "out", tight=True)


# Strings of files of other tools: `_b` is no blank node, but `_:` without a label is taken as one, in any role.
STRANGE = st.tuples(st.sampled_from([*NODES, "_b", "_:", "_:f0_b"]), st.sampled_from(["u:p", "_:b", "_"]),
                    st.sampled_from([*OBJECTS, "_:c", '"_:b"']))


@examples()
@given(st.lists(st.lists(STRANGE, min_size=1, max_size=8, unique=True), min_size=1, max_size=12), st.integers(0, 2**32))
@example([[("_:b", "u:p", "_:c")]], 0)
def test_blank_nodes_are_those_of_the_command(scratch: Path, lists: list[list[Any]], seed: int) -> None:
    """Paths and open graphs, with a label as one node or with the nodes apart, merge to the bytes of the command."""
    draw, files = random.Random(seed), []
    for number, triples in enumerate(lists):
        files.append(scratch / f"{number}.hdt")
        strings = [(s.encode(), p.encode(), o.encode()) for s, p, o in triples]
        files[-1].write_bytes(reference.graph(strings).data)
    files += draw.sample(files, draw.randint(0, len(files)))
    for word in (None, "one", "apart"):
        options = [] if word is None else [f"--blank-nodes={word}"]
        done = run([PROGRAM, "merge", *files, scratch / "command", *options])
        with ExitStack() as kept:
            given_inputs: list[Any] = [it if draw.random() < 0.5 else kept.enter_context(hdt.open(it)) for it in files]
            counts = hdt.merge(given_inputs, scratch / "out", blank_nodes=word)
        assert done.out.split()[:6] == [b"merged", *(b"%d" % it for it in counts)]
        assert (scratch / "out").read_bytes() == (scratch / "command").read_bytes()


def test_blank_nodes_apart(tmp_path: Path) -> None:
    """No blank node of a file is one of another, or of itself if it comes twice; a single file's labels change, too."""
    old = built(tmp_path, "old.hdt", [("_:b", "u:p", "_:c"), ("u:a", "u:p", '"_:b"')])
    new = built(tmp_path, "new.hdt", [("_:b", "u:p", "_:b")])
    cases: list[tuple[list[Path], list[str]]] = [
        ([old], ["_:f0_b", "_:f0_c"]), ([old, new], ["_:f0_b", "_:f0_c", "_:f1_b"]),
        ([new, old, new], ["_:f0_b", "_:f1_b", "_:f1_c", "_:f2_b"]),
        ([new] * 12, [f"_:f{it}_b" for it in range(12)]),
    ]
    for files, nodes in cases:
        hdt.merge(files, tmp_path / "out", blank_nodes="apart")
        with hdt.open(tmp_path / "out") as graph:
            found = {term for s, _, o in graph for term in (s, o) if term.startswith("_:")}
            assert found == set(nodes) and graph.matching(o='"_:b"') == (old in files)
    by_place: Any = [[old], tmp_path / "out", "u:b", 16, False, "apart"]
    with pytest.raises(TypeError):
        hdt.merge(*by_place)


def test_unused_strings_are_left_out(tmp_path: Path) -> None:
    """A file whose strings are not all used is merged as its triples are."""
    for name, data in loose_files().items():
        path = tmp_path / name
        path.write_bytes(data)
        hdt.merge([path], tmp_path / "out")
        hdt.verify(tmp_path / "out", tight=True)
        with hdt.open(path) as one, hdt.open(tmp_path / "out") as other:
            assert sorted(one) == sorted(other)


def test_graphs_and_paths(tmp_path: Path) -> None:
    """Graphs, also the same one twice and one of bytes, merge with paths; they stay open, and a label is one node."""
    new = built(tmp_path, "new.hdt", [("_:b", "u:p", "u:a"), ("u:a", "u:p", "_:b")])
    wanted = built(tmp_path, "wanted", [*hdt.open(THREE), *hdt.open(new)]).read_bytes()
    with hdt.open(THREE) as graph:
        other = hdt.Graph(new.read_bytes())
        cases: list[list[Any]] = [[graph, new], [other, graph, graph, os.fsencode(THREE)], [str(new), other, THREE]]
        for given_inputs in cases:
            (tmp_path / "out").unlink(missing_ok=True)
            assert hdt.merge(iter(given_inputs), tmp_path / "out").triples == 5
            assert (tmp_path / "out").read_bytes() == wanted
        assert (len(graph), len(other), sum(1 for _ in graph)) == (3, 2, 3)


def test_output_may_be_an_input(tmp_path: Path) -> None:
    """The output takes the place of a file that was merged; a graph of that goes on with the old one."""
    old = tmp_path / "old.hdt"
    shutil.copy(THREE, old)
    old.chmod(0o640)
    os.link(old, tmp_path / "link")
    new = built(tmp_path, "new.hdt", [("u:n", "u:p", "u:a")])
    with hdt.open(old) as graph:
        for _ in range(2):
            assert hdt.merge([old, new], old).triples == 4
        assert len(list(graph)) == 3
    assert old.stat().st_mode & 0o777 == 0o640
    assert (tmp_path / "link").read_bytes() == THREE.read_bytes()  # (another file has the name)
    assert sorted(os.listdir(tmp_path)) == ["link", "new.hdt", "old.hdt", "text.nt"]


def error_of(error: type[BaseException], given_inputs: Any, out: Path, **options: Any) -> str:
    """The message of what a merge raises."""
    with pytest.raises(error) as raised:
        hdt.merge(given_inputs, out, **options)
    return str(raised.value)


def test_errors(tmp_path: Path) -> None:
    """An error names its file; the output is unchanged then, and nothing is left beside it."""
    out, cut = tmp_path / "out", tmp_path / "cut.hdt"
    out.write_bytes(b"before")
    cut.write_bytes(THREE.read_bytes()[:100])
    closed = hdt.open(THREE)
    closed.close()
    with pytest.raises(hdt.Fault) as fault:
        hdt.merge([THREE, cut], out)
    assert (fault.value.path, fault.value.name) == (str(cut), "Truncated")
    assert error_of(hdt.NoTriples, [], out) == "there are no inputs"
    assert error_of(ValueError, [THREE, closed], out) == "the graph is closed"
    for base in ("relative", "", "u:\ud800"):
        assert error_of(ValueError, [THREE], out, base=base) == "the base is not an absolute IRI"
    for size in (0, -1, 65_536, 2**32 + 16):
        assert error_of(ValueError, [THREE], out, block_size=size) == "the block size isn't 1 to 65535"
    assert error_of(ValueError, [tmp_path / "missing"], out, base="relative") == "the base is not an absolute IRI"
    assert error_of(FileNotFoundError, [THREE, tmp_path / "missing"], out).endswith("/missing'")
    words: list[Any] = ["two", "", "Apart", 0, 1, True, ["one"], b"apart"]
    for word in words:
        for of in ([THREE], []):
            assert error_of(ValueError, of, out, blank_nodes=word) == 'blank_nodes is "one", "apart" or None'
    for word in ("one", "apart"):
        assert error_of(hdt.NoTriples, [], out, blank_nodes=word) == "there are no inputs"
        assert error_of(ValueError, [THREE, closed], out, blank_nodes=word) == "the graph is closed"
    for wrong in ([3], [None], 7):
        error_of(TypeError, wrong, out)
    for one in (str(THREE), THREE, os.fsencode(THREE), hdt.open(THREE)):
        assert error_of(TypeError, one, out) == "inputs are paths and graphs, not one of them"
    error_of(TypeError, [THREE], out, block_size="16")
    for path in (tmp_path, tmp_path / "none/out"):
        error_of(OSError, [THREE], path)
    assert out.read_bytes() == b"before"
    assert sorted(os.listdir(tmp_path)) == ["cut.hdt", "out"]


def test_progress(tmp_path: Path, capfd: pytest.CaptureFixture[str]) -> None:
    """The bytes of the files that are open are told for each input; what the function raises ends the merge."""
    told: list[tuple[int, Any]] = []
    new, size = built(tmp_path, "new.hdt", graph_of(40)), THREE.stat().st_size
    of = new.stat().st_size + size
    with hdt.open(THREE) as graph:
        hdt.merge([new, graph, THREE], tmp_path / "out", progress=lambda read, of: told.append((read, of)))
        assert told == [(of - size, of), (of - size, of), (of, of)]
        (tmp_path / "out").unlink()

        def raises(read: int, _: Any) -> None:
            if read == of:
                raise KeyError(read)

        error_of(KeyError, [new, graph, THREE], tmp_path / "out", progress=raises)
    with mock.patch.dict(sys.modules, {"tqdm": None}):  # (so there are lines)
        hdt.merge([new, THREE], os.devnull, progress=True)
    assert capfd.readouterr() == ("", f"hdt: read {of} of {of} bytes\n")
    assert sorted(os.listdir(tmp_path)) == ["new.hdt", "text.nt"]


@pytest.mark.parametrize("call", ["hdt_share", "hdt_merge_with"])
def test_out_of_memory(call: str, tmp_path: Path) -> None:
    """Where the library has no memory for a handle or the file, nothing is written, and the graphs stay open."""
    def merge(*given_arguments: Any) -> None:
        given_arguments[-1].reason = OUT_OF_MEMORY

    with hdt.open(THREE) as graph:
        assert len(list(graph)) == 3  # (so it has a handle already)
        no_memory = (lambda *_: OUT_OF_MEMORY) if call == "hdt_share" else merge
        with mock.patch.object(library, call, no_memory):
            error_of(MemoryError, [graph], tmp_path / "out")
            error_of(MemoryError, [graph, graph], tmp_path / "out")
            error_of(MemoryError, [graph, graph], tmp_path / "out", blank_nodes="apart")
        assert os.listdir(tmp_path) == []
        assert hdt.merge([graph], tmp_path / "out") == graph.counts


class Handles:
    """The calls of the library that open and close handles, and the addresses of those that are shared."""

    def __init__(self) -> None:
        self.opened: set[int] = set()
        self.count = 0
        self._share, self._close = library.hdt_share, library.hdt_close

    def share(self, one: Any, other: Any) -> Any:
        """Share a handle."""
        self.opened.add(ctypes.addressof(other.contents))
        self.count += 1
        return self._share(one, other)

    def close(self, handle: Any) -> None:
        """Close a handle, which a pointer may lead to."""
        self.opened.discard(ctypes.addressof(getattr(handle, "contents", handle)))
        self._close(handle)


def test_handles_are_closed(tmp_path: Path) -> None:
    """Each handle of a merge is closed, and those of the graphs stay with them, also after an interrupt."""
    with hdt.open(THREE) as graph:
        hdt.merge([graph, graph], tmp_path / "out")
        for error in (None, KeyboardInterrupt):
            handles = Handles()
            with mock.patch.multiple(library, hdt_share=handles.share, hdt_close=handles.close):
                if error is None:
                    hdt.merge([graph, graph], tmp_path / "out")
                else:
                    with mock.patch.object(library, "hdt_merge_with", side_effect=error):
                        error_of(error, [graph, graph], tmp_path / "out")
                assert (handles.count, handles.opened, len(graph._free)) == (2, set(), 2)


def test_close_waits_for_a_merge(tmp_path: Path) -> None:
    """A graph that is closed in another thread meanwhile stays as long as it is merged."""
    begun, merge = threading.Event(), library.hdt_merge_with
    graph = hdt.Graph(THREE.read_bytes())

    def merging(*given_arguments: Any) -> None:
        begun.set()
        closing.join(0.3)
        assert closing.is_alive() and graph._is_closed
        merge(*given_arguments)

    def close() -> None:
        begun.wait()
        graph.close()

    closing = threading.Thread(target=close)
    closing.start()
    with mock.patch.object(library, "hdt_merge_with", merging):
        assert hdt.merge([graph, graph], tmp_path / "out").triples == 3
    closing.join()
    assert error_of(ValueError, [graph], tmp_path / "out") == "the graph is closed"


def test_threads(tmp_path: Path) -> None:
    """Threads that merge the same graphs in different orders neither wait for each other nor differ."""
    triples = graph_of(400)
    graphs = [hdt.open(built(tmp_path, f"{n}.hdt", triples[n::5])) for n in range(5)]
    wanted = built(tmp_path, "wanted", triples).read_bytes()

    def merged(seed: int) -> bool:
        order: list[Union[hdt.Graph, Path]] = [*graphs]
        random.Random(seed).shuffle(order)
        hdt.merge(order, tmp_path / f"out{seed}")
        return (tmp_path / f"out{seed}").read_bytes() == wanted

    with ThreadPoolExecutor(4) as executor:
        assert all(executor.map(merged, range(24)))


# ---- folders of parts


@pytest.mark.parametrize("count", [1, 3, 200])
def test_folder_of_parts(count: int, tmp_path: Path) -> None:
    """The file of a folder is the one built of its inputs as one text, by its options or others, in any memory."""
    triples = graph_of(300)
    texts = inputs(tmp_path, text_of(triples).splitlines(), 3)
    parts.build(texts, tmp_path / "parts", count, blank_nodes="one", base="u:base", block_size=7)
    cases: list[tuple[dict[str, Any], tuple[str, int]]] = [
        ({}, ("u:base", 7)), ({"base": "u:b"}, ("u:b", 7)), ({"block_size": 2}, ("u:base", 2)),
        ({"memory": "4M", "base": "u:m"}, ("u:m", 7)),
        ({"memory": 4 * 2**20, "scratch": tmp_path, "block_size": 3}, ("u:base", 3)),
    ]
    for options, wanted in cases:
        one = built(tmp_path, "wanted", triples, base=wanted[0], block_size=wanted[1]).read_bytes()
        out, link = tmp_path / "out", tmp_path / f"link-{wanted[0]}-{wanted[1]}"
        shutil.copy(THREE, out)
        os.link(out, link)
        counts = parts.merge(tmp_path / "parts", out, **options)
        assert link.read_bytes() == THREE.read_bytes()  # (another file has the name)
        assert out.read_bytes() == one
        assert counts == hdt.verify(out) and counts.triples == len(triples)
        assert [it for it in os.listdir(tmp_path) if "unfinished" in it] == []


def test_memory_of_a_folder(tmp_path: Path) -> None:
    """With `memory`, parts are open one at a time, and the library merges nothing."""
    parts.build(inputs(tmp_path, text_of(graph_of(50)).splitlines(), 1), tmp_path / "parts", 3)
    found: list[hdt.Graph] = []

    def opened(*row: Any) -> hdt.Graph:
        assert all(graph._is_closed for graph in found)
        found.append(of_parts.files.opened(*row))
        return found[-1]

    with mock.patch.multiple("hdt.parts._merging", opened=opened, merged=None):
        parts.merge(tmp_path / "parts", tmp_path / "out", memory="4M")
    assert len(found) == 3 and all(graph._is_closed for graph in found)


def test_errors_of_a_folder(tmp_path: Path) -> None:
    """A damaged part is named, in any memory, and neither the output nor the folder is changed."""
    texts = inputs(tmp_path, text_of(graph_of(50)).splitlines(), 1)
    parts.build(texts, tmp_path / "parts", 2)
    names = sorted(os.listdir(tmp_path / "parts"))
    for name in ("part-00000.hdt", "new.hdt"):
        for memory in (None, "4M"):
            with pytest.raises(ValueError, match="the output is in the folder"):
                parts.merge(tmp_path / "parts", tmp_path / "parts" / name, memory=memory)
    (tmp_path / "link").symlink_to("parts/manifest.json")
    with pytest.raises(ValueError, match="the output is in the folder"):
        parts.merge(tmp_path / "parts", tmp_path / "link")
    with pytest.raises(OSError):
        parts.merge(tmp_path / "parts", tmp_path / "parts")
    part = tmp_path / "parts/part-00001.hdt"
    good = part.read_bytes()
    spoilt: list[tuple[Callable[[], Any], str]] = [
        (lambda: part.write_bytes(good[:-1] + b"\0"), "is damaged"),
        (lambda: shutil.copy(tmp_path / "parts/part-00000.hdt", part), "has .* bytes"),
        (part.unlink, "is missing"),
    ]
    for spoil, told in spoilt:
        spoil()
        for memory in (None, "4M"):
            with pytest.raises(parts.PartFault, match=f"part-00001.hdt {told}"):
                parts.merge(tmp_path / "parts", tmp_path / "out", memory=memory)
    wrong: list[dict[str, Any]] = [{"base": "b"}, {"base": ""}, {"block_size": 0}, {"memory": "3M"}, {"scratch": "."},
                                   {"memory": "4M", "base": "b"}, {"memory": "4M", "block_size": 0}]
    for options in wrong:  # these come first
        with pytest.raises(ValueError, match="the base is|the block size is|memory"):
            parts.merge(tmp_path / "parts", tmp_path / "out", **options)
    with pytest.raises(FileNotFoundError):
        parts.merge(tmp_path / "parts", tmp_path / "out", memory="4M", scratch=tmp_path / "none")
    assert not (tmp_path / "out").exists() and names == sorted([*os.listdir(tmp_path / "parts"), "part-00001.hdt"])
