"""Graphs in parts with Dask's executor over two local workers, which die in each kind of task of a build.

A worker that dies is started again, and its task is run by another one.
"""

from __future__ import annotations

import logging
import signal
import time
from collections.abc import Callable, Iterator
from contextlib import contextmanager
from pathlib import Path
from typing import Any

import pytest

from support.parts import (check_same, go_on, graph_of, inputs, interrupt, named, of_one, parts, patterns, small,
                           text_of)
from support.python_package import ENVIRONMENT, PACKAGE

dask: Any = pytest.importorskip("dask", reason="there is no Dask: Debian's python3-distributed")
distributed: Any = pytest.importorskip("distributed", reason="there is no Dask: Debian's python3-distributed")

pytestmark = [pytest.mark.filterwarnings("ignore"), pytest.mark.slow]

GRAPH = graph_of(300)
TEXT = text_of(GRAPH)


class Interrupt(distributed.WorkerPlugin):  # type: ignore[misc]
    """Prepares each worker, also one that is started again, to die or stop in a function: see `interrupt`."""

    def __init__(self, where: str, flag: str, how: int) -> None:
        self.parameters = where, flag, how

    def setup(self, worker: Any) -> None:
        """Prepare a worker."""
        interrupt(*self.parameters)


@contextmanager
def cluster(folder: Path, **options: Any) -> Iterator[Any]:
    """A client of two workers of their own, which find the package under test."""
    # (a worker that takes longer than this to come back never does: 15 seconds, unless it is set)
    settings = {"distributed.scheduler.worker-ttl": None, "distributed.deploy.lost-worker-timeout": "600s", **options}
    with pytest.MonkeyPatch.context() as patch, dask.config.set(settings):
        patch.setenv("HDT_LIBRARY", ENVIRONMENT["HDT_LIBRARY"])
        patch.syspath_prepend(str(PACKAGE))
        made = distributed.LocalCluster(n_workers=2, threads_per_worker=1, host="127.0.0.1", dashboard_address=None,
                                        memory_limit=0, local_directory=str(folder), silence_logs=logging.CRITICAL)
        with made, distributed.Client(made) as client:
            yield client


@pytest.fixture(scope="module")
def client(tmp_path_factory: pytest.TempPathFactory) -> Iterator[Any]:
    """A client that tests share."""
    with cluster(tmp_path_factory.mktemp("dask")) as it:
        yield it


@pytest.fixture
def own(tmp_path: Path) -> Iterator[Any]:
    """A client for one test."""
    with cluster(tmp_path / "in.dask") as it:
        yield it


@pytest.fixture(autouse=True)
def limited() -> Iterator[None]:
    """A test in which all workers are gone would wait for ever."""
    def stop(*_: object) -> None:
        raise TimeoutError("no end in 300 s")

    before = signal.signal(signal.SIGALRM, stop)
    signal.alarm(300)
    yield
    signal.alarm(0)
    signal.signal(signal.SIGALRM, before)


@pytest.fixture
def expected(tmp_path: Path) -> parts.Manifest:
    """What is built of in0.nt without an executor."""
    return parts.build(inputs(tmp_path, TEXT.splitlines(), 1), tmp_path / "expected", 3)


def both(client: Any) -> None:
    """Wait for two workers, of which one may be started again."""
    client.wait_for_workers(2, timeout=120)


def left(folder: Path) -> set[str]:
    """What a folder has besides inputs and what is expected."""
    return {path.name for path in folder.iterdir() if not path.name.startswith("in")} - {"expected"}


def check_equal(folder: Path, found: parts.Manifest, expected: parts.Manifest) -> None:
    """The folder `out` has the files that are expected, and nothing else is there."""
    assert named(found) == named(expected)
    assert len(list((folder / "out").iterdir())) == 1 + len(expected.parts)
    assert left(folder) == {"out"}
    parts.open(folder / "out").verify()


def test_same_answers(tmp_path: Path, client: Any, expected: parts.Manifest) -> None:
    """It builds the same files, and finds what one file has; an error is that of one build."""
    with pytest.raises(TypeError, match=r"not a Client; a Dask client has it as client.get_executor\(\)"):
        parts.open(tmp_path / "expected", client)
    executor = client.get_executor()
    with small(5_000, 5_000):
        check_equal(tmp_path, parts.build([tmp_path / "in0.nt"], tmp_path / "out", 3, executor), expected)
    with of_one(tmp_path / "out", TEXT.encode()) as one, parts.open(tmp_path / "out", executor) as graph:
        asked = patterns(GRAPH, 1)
        assert graph.matching_all(asked) == [one.matching(*pattern) for pattern in asked]
        check_same(one, graph, asked[:1])
        graph.verify()
    lines = TEXT.splitlines()
    lines[150] = "<u:a> x"
    with small(5_000, 5_000), pytest.raises(parts.InputFault) as fault:
        parts.build(inputs(tmp_path, lines, 1), tmp_path / "other", 3, executor)
    assert (fault.value.line, fault.value.column) == (151, 7)
    assert left(tmp_path) == {"out"}


def test_errors_are_not_remembered(tmp_path: Path, client: Any) -> None:
    """A call that failed is made again, though Dask remembers results of equal calls."""
    executor = client.get_executor()
    with pytest.raises(FileNotFoundError):
        with small(1, 1):
            parts.build([tmp_path / "in0.nt"], tmp_path / "out", 2, executor)
    manifest = parts.build(inputs(tmp_path, TEXT.splitlines(), 1), tmp_path / "out", 2, executor)
    with parts.open(tmp_path / "out", executor) as graph:
        (tmp_path / "out/part-00001.hdt").rename(tmp_path / "in.hdt")
        with pytest.raises(parts.PartFault, match="part-00001.hdt is missing") as fault:
            graph.verify()
        (tmp_path / "in.hdt").rename(tmp_path / "out/part-00001.hdt")
        graph.verify()
        assert fault.value.file == manifest.parts[1].file


@pytest.mark.parametrize("where", ["hdt.parts._build.split", "hdt.parts._build.built", "hdt.parts._build.Part"])
def test_worker_that_dies_in_a_build(tmp_path: Path, client: Any, expected: parts.Manifest, where: str) -> None:
    """In a split, before a part is built, and after that: its task is done by another one."""
    both(client)
    flag = tmp_path / "in.flag"
    client.register_worker_plugin(Interrupt(where, str(flag), signal.SIGKILL), name=where)
    flag.touch()
    found = parts.build([tmp_path / "in0.nt"], tmp_path / "out", 3, client.get_executor())
    assert Path(f"{flag}.pid").exists()
    client.unregister_worker_plugin(where)
    check_equal(tmp_path, found, expected)


SEARCHES: dict[str, Callable[[parts.Graph], Any]] = {
    "find": lambda graph: list(graph.find()),
    "find in the order of strings": lambda graph: list(graph.find(order="strings")),
    "text": lambda graph: graph.text(),
    "page": lambda graph: graph.page(limit=50),
    "matching": lambda graph: graph.matching(p="u:p1"),
}


def test_worker_that_dies_in_a_search(tmp_path: Path, own: Any, expected: parts.Manifest) -> None:
    """Its task is done by another one, and the answer is what it is without an executor."""
    with parts.open(tmp_path / "expected") as graph:
        wanted = {name: call(graph) for name, call in SEARCHES.items()}
    flag = tmp_path / "in.flag"
    own.register_worker_plugin(Interrupt("hdt.parts._files.run", str(flag), signal.SIGKILL))
    for name, call in SEARCHES.items():
        both(own)
        flag.touch()
        with parts.open(tmp_path / "expected", own.get_executor()) as graph, small(1, 1, 8, 16):
            assert call(graph) == wanted[name], name
        assert not flag.exists(), name
        assert Path(f"{flag}.pid").read_text()


def test_worker_that_is_believed_dead(tmp_path: Path, expected: parts.Manifest) -> None:
    """One that stops is given up, and its task is done elsewhere; when it goes on, it does no harm."""
    flag = tmp_path / "in.flag"
    # (a worker that is only slow may take some seconds to say that it lives)
    with cluster(tmp_path / "in.dask", **{"distributed.scheduler.worker-ttl": "20s"}) as client:
        client.register_worker_plugin(Interrupt("hdt.parts._build.built", str(flag), signal.SIGSTOP), name="stops")
        flag.touch()
        found = parts.build([tmp_path / "in0.nt"], tmp_path / "out", 3, client.get_executor())
        assert Path(f"{flag}.pid").exists()
        go_on(flag)
        time.sleep(1)
        check_equal(tmp_path, found, expected)


def test_work_that_kills_each_worker(tmp_path: Path, own: Any, expected: parts.Manifest) -> None:
    """It is an error that says so, and there is no folder."""
    client, flag = own, tmp_path / "in.always"
    client.register_worker_plugin(Interrupt("hdt.parts._build.built", str(flag), signal.SIGKILL), name="always")
    flag.touch()
    with pytest.raises(parts.WorkerDied, match=r"part-0000.\.hdt: the processes that ran it died \(KilledWorker\)"):
        parts.build([tmp_path / "in0.nt"], tmp_path / "out", 3, client.get_executor())
    assert left(tmp_path) == set()
