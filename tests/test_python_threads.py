"""Graphs of the Python package that threads share, and that a process has which was forked while threads used them."""

from __future__ import annotations

import io
import os
import pickle
import random
import signal
import sys
import threading
import time
from collections.abc import Callable, Iterator, Mapping
from contextlib import contextmanager
from itertools import islice
from pathlib import Path
from typing import Any, NamedTuple, Optional

import pytest
from hypothesis import settings

from support import program
from support.python_package import ENVIRONMENT, hdt
from test_python import THREE, built, run_threads

from hdt import _library

Calls = Mapping[str, Callable[[Any], object]]

SUBJECT, PREDICATE, OBJECT = "http://example.org/7", "u:p1", '"7 text"@en'


def written(graph: Any) -> bytes:
    """What a graph writes."""
    file = io.BytesIO()
    graph.write_text(file, SUBJECT)
    return file.getvalue()


# The calls that `hdt.Graph` and `hdt.parts.Graph` have,
SEARCHES: Calls = {
    "__contains__": lambda graph: (SUBJECT, "u:p8", OBJECT) in graph,
    "__enter__": lambda graph: graph.__enter__() is graph,
    "__iter__": lambda graph: list(islice(graph, 300)),
    "__len__": len,
    "__repr__": repr,
    "find": lambda graph: list(graph.find(p=PREDICATE, limit=1_000)),
    "header": lambda graph: graph.header,
    "matching": lambda graph: graph.matching(o=OBJECT),
    "page": lambda graph: graph.page(p=PREDICATE, start=20_000),
    "position": lambda graph: graph.position(o=OBJECT, skip=2),
    "predicates": lambda graph: list(graph.predicates()),
    "text": lambda graph: graph.text(o=OBJECT),
    "text_pieces": lambda graph: list(graph.text_pieces(SUBJECT)),
    "write_text": written,
}
# and those that only one of them has.
CALLS: Calls = {
    **SEARCHES,
    "__reduce__": pickle.dumps,
    "count": lambda graph: graph.count("object"),
    "counts": lambda graph: graph.counts,
    "find_ids": lambda graph: list(graph.find_ids(p=2, limit=500)),
    "find_numbers": lambda graph: list(graph.find_numbers(SUBJECT)),
    "id_array": lambda graph: graph.id_array(p=PREDICATE).array.tobytes(),
    "ids": lambda graph: [graph.ids.page(p=3, start=9_000), list(graph.ids.find(p=2, limit=500))],
    "ids_with_prefix": lambda graph: graph.ids_with_prefix('"7', "object"),
    "matching_ids": lambda graph: graph.matching_ids(p=3),
    "number": lambda graph: graph.number("object", OBJECT),
    "page_ids": lambda graph: graph.page_ids(p=3, start=9_000),
    "page_text": lambda graph: graph.page_text(p=PREDICATE, start=50),
    "string": lambda graph: graph.string("object", 20_000),
    "strings": lambda graph: graph.strings("object", range(1, 20_000, 90)),
    "terms": lambda graph: list(islice(graph.terms("subject"), 100)),
}
CALLS_OF_PARTS: Calls = {
    **SEARCHES,
    "manifest": lambda graph: graph.manifest,
    "matching_all": lambda graph: graph.matching_all([(SUBJECT, None, None), (None, PREDICATE, None)]),
    "subjects": lambda graph: graph.subjects,
}
CALLS_OF_RDFLIB: Calls = {
    "graph": lambda graph: len(graph),
    "store": lambda graph: len(graph.store),
    "triples": lambda graph: list(islice(graph, 50)),
}
BUSY: list[Callable[[Any], object]] = [
    lambda graph: graph.text(p=PREDICATE), lambda graph: list(graph.find(limit=20_000)), lambda graph: graph.text()]


class Files(NamedTuple):
    """One graph of 60,000 triples: its file, and a folder of parts."""

    path: Path
    folder: Path


@pytest.fixture(scope="module")
def files(tmp_path_factory: pytest.TempPathFactory) -> Files:
    """The file and the folder, built."""
    source, folder = random.Random(67), tmp_path_factory.mktemp("threads")
    triples = {
        (f"http://example.org/{source.randrange(9_000)}", f"u:p{n % 5}", f'"{source.randrange(30_000)} text"@en')
        for n in range(60_000)}
    path, _ = built(folder, sorted(triples | {(SUBJECT, "u:p8", OBJECT)}))
    import hdt.parts as parts
    parts.build([path.with_suffix(".nt")], folder / "parts", 3)
    return Files(path, folder / "parts")


def opened(kind: str, files: Files) -> Any:
    """A graph of a kind, open."""
    if kind == "hdt":
        return hdt.open(files.path)
    if kind == "hdt.parts":
        import hdt.parts as parts
        return parts.open(files.folder)
    rdflib = pytest.importorskip("rdflib")
    from hdt.rdflib import HDTStore
    return rdflib.Graph(HDTStore(files.path))


KINDS: dict[str, Calls] = {"hdt": CALLS, "hdt.parts": CALLS_OF_PARTS, "hdt.rdflib": CALLS_OF_RDFLIB}


def seconds() -> float:
    """How long threads call: 20 seconds with the profile `long`."""
    return 20 if settings.default is not None and settings.default.max_examples > 1_000 else 2


@pytest.fixture
def often() -> Iterator[None]:
    """Threads take turns often."""
    before = sys.getswitchinterval()
    sys.setswitchinterval(1e-4)
    yield
    sys.setswitchinterval(before)


def test_all_calls_are_there() -> None:
    """Each public call of a graph but `close` is among those that run in threads."""
    import hdt.parts as parts
    for kind, calls in ((hdt.Graph, CALLS), (parts.Graph, CALLS_OF_PARTS)):
        names = {name for name in vars(kind) if not name.startswith("_")} | {"__contains__", "__iter__", "__len__"}
        assert names - {"close", "verify"} <= set(calls)


@pytest.mark.parametrize("kind", KINDS)
def test_calls_in_threads(kind: str, files: Files, often: None) -> None:
    """Every call, in eight threads beside one with long calls, gives what it gives in one thread, and none fails."""
    graph, calls, wrong, made = opened(kind, files), list(KINDS[kind].items()), list[str](), [0] * 9
    wanted = {name: call(graph) for name, call in calls}
    busy = BUSY if kind != "hdt.rdflib" else [lambda graph: call(graph.store.hdt) for call in BUSY]
    end = time.monotonic() + seconds()

    def work(mine: int) -> None:
        source = random.Random(mine)
        while time.monotonic() < end:
            name, call = ("busy", busy[made[mine] % len(busy)]) if not mine else source.choice(calls)
            try:
                found = call(graph)
                if mine and found != wanted[name]:
                    wrong.append(f"{name} is {found!r:.200}")
            except Exception as error:
                wrong.append(f"{name} raises {error!r}")
            made[mine] += 1

    for thread in run_threads(len(made), work):
        thread.join()
    graph.close()
    assert wrong[:5] == [] and min(made) > 0 and sum(made) > 100


@pytest.mark.parametrize("kind, call", [("hdt", "hdt_pattern_text"), ("hdt.parts", "hdt_page_text")])
def test_closed_while_a_call_runs(kind: str, call: str, files: Files, monkeypatch: pytest.MonkeyPatch) -> None:
    """`close` waits for a call that runs, whose answer is whole; what begins meanwhile or later is a ValueError."""
    graph, ends, runs, may_end = opened(kind, files), list[str](), threading.Event(), threading.Event()
    wanted, right = graph.text(), getattr(_library.library, call)

    def slow(*parameters: Any) -> None:
        runs.set()
        assert may_end.wait(60)
        right(*parameters)

    def work(_: int) -> None:
        try:
            ends.append(graph.text())
        except ValueError as error:
            ends.append(str(error))

    monkeypatch.setattr(_library.library, call, slow)
    (thread,) = run_threads(1, work)
    assert runs.wait(60)
    closing = threading.Thread(target=graph.close)
    closing.start()
    closing.join(0.5)
    assert closing.is_alive() and repr(graph) == f"<{kind}.Graph, closed>"
    with pytest.raises(ValueError, match="the graph is closed"):
        len(graph)
    may_end.set()
    closing.join()
    thread.join()
    assert ends == [wanted if kind == "hdt" else "the graph is closed"]  # (the text of parts is that of many calls)


# ---- forked processes

FORKS = f"""
import collections, os, signal, sys, threading, time, hdt, hdt.parts

path, folder, forks = sys.argv[1], sys.argv[2], 60
graph, parts, other = hdt.open(path), hdt.parts.open(folder), hdt.open(path)
wanted, pages, begun = graph.text(o={OBJECT!r}), parts.page(o={OBJECT!r}), graph.find(p={PREDICATE!r})
rest = list(graph.find(p={PREDICATE!r}))[1:]
next(begun)
done = False

def work(call):
    while not done:
        call()

def child(number):
    signal.alarm(60)  # (which ends it if it is stuck)
    was_used = any(not it.handle.state for it in graph._shared)
    assert len(graph) == len(parts) == graph.counts.triples
    if number % 4 == 0:
        graph.close()
        assert hdt.open(path).text(o={OBJECT!r}) == wanted
    elif number % 4 == 1:
        assert list(begun) == rest
    assert other.text(o={OBJECT!r}) == wanted
    assert number % 4 == 0 or graph.text(o={OBJECT!r}) == wanted
    assert parts.page(o={OBJECT!r}) == pages
    parts.close()
    graph.close()
    return 10 if was_used else 11

threads = [threading.Thread(target=work, args=(call,)) for call in (graph.text, parts.text, parts.text)]
for thread in threads:
    thread.start()
children = []
for number in range(forks):
    time.sleep(0.003)
    children.append(os.fork())
    if not children[-1]:
        status = 1
        try:
            status = child(number)
        finally:
            os._exit(status)
ends = collections.Counter(os.waitpid(child, 0)[1] for child in children)
done = True
for thread in threads:
    thread.join()
used, free = ends.pop(10 << 8, 0), ends.pop(11 << 8, 0)
print(used + free, used > 10, dict(ends))
"""


def test_forks(files: Files) -> None:
    """Each of 60 processes that are forked while threads are in calls uses, closes and opens the graphs."""
    done = program.run([sys.executable, "-c", FORKS, files.path, files.folder], env=ENVIRONMENT, seconds=200)
    assert done == (0, b"60 True {}\n", b""), done.err.decode()


def in_child(check: Callable[[], bool]) -> bool:
    """Whether a check holds in a forked process, which ends by a signal if it is stuck."""
    child = os.fork()
    if not child:
        status = 2
        try:
            signal.alarm(20)
            status = int(not check())
        finally:
            os._exit(status)
    return os.waitpid(child, 0)[1] == 0


def test_forked_while_the_graph_is_free(files: Files) -> None:
    """A process that is forked between calls goes on with the indexes that are there."""
    with hdt.open(files.path) as graph:
        assert graph.matching(p=PREDICATE) > 0
        first, (shared,) = graph._first, graph._shared
        assert in_child(lambda: graph.matching(p=PREDICATE) > 0 and (graph._first, graph._shared) == (first, [shared]))


def test_graph_that_was_left_in_use_is_opened_again() -> None:
    """In a child that has to open the bytes again, an error of them is raised, and the next call tries again."""
    data = bytearray(THREE.read_bytes())
    graph = hdt.Graph(data)

    def check() -> bool:
        with pytest.raises(hdt.Fault):
            graph.matching()
        data[0] ^= 1
        return graph.matching() == 3

    data[0] ^= 1
    with graph._lock:
        assert in_child(check)


@contextmanager
def in_thread(work: Callable[[threading.Event], object]) -> Iterator[None]:
    """While another thread waits for an event in the middle of something; it calls `work` with the event."""
    begun, may_end = threading.Event(), threading.Event()

    class Waited(threading.Event):
        def wait(self, timeout: Optional[float] = None) -> bool:
            begun.set()
            return may_end.wait(timeout)

    thread = threading.Thread(target=work, args=(Waited(),))
    thread.start()
    try:
        assert begun.wait(60)
        yield
    finally:
        may_end.set()
        thread.join()


def holding(lock: Any) -> Callable[[threading.Event], object]:
    """What holds a lock until an event."""
    def hold(event: threading.Event) -> None:
        with lock:
            event.wait(120)
    return hold


def test_forked_while_the_server_keeps_an_answer() -> None:
    """A child can ask what `hdt.fragments` keeps if another thread had the lock of it at the fork."""
    from hdt.fragments._reader import Kept
    kept: Kept[str, int] = Kept(2)
    assert kept.ask("a", lambda: 1) == 1
    with in_thread(holding(kept._lock)):
        assert in_child(lambda: (kept.ask("a", lambda: 2), kept.ask("b", lambda: 3)) == (1, 3))


def test_forked_while_the_server_walks(files: Files) -> None:
    """A child finds the positions of far pages if another thread was walking to one at the fork."""
    from hdt.fragments._reader import Positions
    with hdt.open(files.path) as graph:
        positions = Positions(graph, (None, PREDICATE, None))
        wanted = [graph.position(p=PREDICATE, skip=skip) for skip in (1_500, 4_500)]
        assert positions.after(1_500) == wanted[0]
        with in_thread(holding(positions._lock)):
            assert in_child(lambda: [positions.after(skip) for skip in (1_500, 4_500)] == wanted)


def test_forked_while_the_server_opens_a_file(files: Files, tmp_path: Path) -> None:
    """A child opens a file that replaces another one if another thread was about to open it at the fork."""
    from hdt.fragments._config import Source
    from hdt.fragments._dataset import Dataset
    path = tmp_path / "served.hdt"
    path.write_bytes(THREE.read_bytes())
    dataset = Dataset("served", Source(str(path)), 10)

    def check() -> bool:
        new = tmp_path / "new.hdt"
        new.write_bytes(files.path.read_bytes())
        new.rename(path)
        dataset._checked = 0.0
        loaded = dataset.loaded()
        return loaded is not None and loaded.reader.counts.triples > 50_000

    with in_thread(holding(dataset._lock)):
        assert in_child(check)


def test_forked_while_a_query_is_read(files: Files) -> None:
    """A child can query a store of rdflib if another thread was reading a query at the fork; literals are as before."""
    rdflib = pytest.importorskip("rdflib")
    from hdt.rdflib import HDTStore, _store
    graph = rdflib.Graph(HDTStore(files.path))
    query = f"SELECT ?s {{ ?s <u:p8> {OBJECT} }}"
    assert len(graph.query(query)) == 1 and rdflib.NORMALIZE_LITERALS is True
    with in_thread(lambda event: _store.exact_literals.made_by(lambda: event.wait(60))):
        assert rdflib.NORMALIZE_LITERALS is False
        assert in_child(lambda: rdflib.NORMALIZE_LITERALS is True and len(graph.query(query)) == 1)
    assert rdflib.NORMALIZE_LITERALS is True


def test_known_pages_wait_for_no_walk(files: Files) -> None:
    """The position of a page that is known, or near one, is found while another thread walks to a far one."""
    from hdt.fragments._reader import Positions
    with hdt.open(files.path) as graph:
        positions = Positions(graph, (None, PREDICATE, None))
        wanted, found = [graph.position(p=PREDICATE, skip=skip) for skip in (2_500, 1_001, 7)], list[Optional[int]]()
        assert positions.after(2_500) == wanted[0]
        with in_thread(holding(positions._lock)):
            thread = threading.Thread(target=lambda: found.extend(map(positions.after, (2_500, 1_001, 7))))
            thread.start()
            thread.join(30)
            assert found == wanted
