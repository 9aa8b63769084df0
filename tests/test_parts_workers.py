"""Graphs in parts with processes: the same answers, and processes that die or stop in each kind of task."""

from __future__ import annotations

import multiprocessing
import os
import signal
import subprocess
import sys
import threading
import time
from collections.abc import Callable
from concurrent.futures import Executor, Future, ProcessPoolExecutor, ThreadPoolExecutor
from functools import partial
from pathlib import Path
from typing import Any
from unittest import mock

import pytest

from support.parts import (check_same, go_on, graph_of, hdt, inputs, interrupt, named, of_one, parts, patterns, ranges,
                           small, splits, text_of)
from support.python_package import ENVIRONMENT, PACKAGE

GRAPH = graph_of(300)
TEXT = text_of(GRAPH)
SPAWN = multiprocessing.get_context("spawn")
# A function that is called in the middle of a task, by the kind of task.
MIDDLES = {"split": "hdt.parts._build.split", "build": "hdt.parts._build.built"}


def pool(where: str = "", flag: str = "", how: int = 0) -> ProcessPoolExecutor:
    """Two processes, of which one dies or stops in a function, if it is named."""
    if not where:
        return ProcessPoolExecutor(2, mp_context=SPAWN)
    return ProcessPoolExecutor(2, mp_context=SPAWN, initializer=interrupt, initargs=(where, flag, how))


@pytest.fixture(autouse=True)
def environment(monkeypatch: pytest.MonkeyPatch) -> None:
    """New processes find the package and the library. (They are not forked: a fork of pytest's threads may hang.)"""
    for name, value in ENVIRONMENT.items():
        monkeypatch.setenv(name, value)
    monkeypatch.syspath_prepend(PACKAGE)


@pytest.fixture
def expected(tmp_path: Path) -> parts.Manifest:
    """What is built of in0.nt without an executor, in a folder of another name."""
    return parts.build(inputs(tmp_path, TEXT.splitlines(), 1), tmp_path / "expected", 4)


def left(folder: Path) -> set[str]:
    """What a folder has besides that and the input."""
    return {path.name for path in folder.iterdir()} - {"in0.nt", "expected"}


@pytest.mark.parametrize("make", [pool, lambda: ThreadPoolExecutor(3)], ids=["processes", "threads"])
def test_same_answers(tmp_path: Path, make: Callable[[], Executor], expected: parts.Manifest) -> None:
    """Executors of both kinds build the same files, and find what one file has."""
    with make() as executor:
        with small(2_000, 300):
            found = parts.build([tmp_path / "in0.nt"], tmp_path / "out", 4, executor)
        assert named(found) == named(expected)
        for part in expected.parts:
            there, here = (tmp_path / name / part.file for name in ("expected", "out"))
            assert there.read_bytes() == here.read_bytes()
        with of_one(tmp_path, TEXT.encode()) as one, parts.open(tmp_path / "out", executor) as graph, small(1, 1):
            check_same(one, graph, patterns(GRAPH, 1))
            assert list(graph) == list(parts.open(tmp_path / "expected"))
            graph.verify()
        (tmp_path / "out/part-00001.hdt").unlink()
        (tmp_path / "out/part-00002.hdt").write_bytes(b"")
        with mock.patch.object(parts.Graph, "_check_size"):
            with parts.open(tmp_path / "out", executor) as graph, pytest.raises(parts.PartFault, match="part-00001"):
                graph.verify()


def test_errors(tmp_path: Path) -> None:
    """The first error is found whichever task ends first."""
    lines = TEXT.splitlines()
    lines[200], lines[250] = "<u:a> x", "y"
    with pool() as executor, small(700, 300):
        with pytest.raises(parts.InputFault) as fault:
            parts.build(inputs(tmp_path, lines, 1), tmp_path / "out", 4, executor)
        assert (fault.value.line, fault.value.column) == (201, 7)
    assert left(tmp_path) == set()


def test_hdt_files(tmp_path: Path, expected: parts.Manifest) -> None:
    """Processes build the same files of HDT inputs; an error of one comes back, with the path as it was given."""
    lines = TEXT.splitlines()
    for number in range(2):
        (tmp_path / "lines").write_text("\n".join(lines[number::2]))
        hdt.build(tmp_path / "lines", tmp_path / f"in{number + 1}.hdt")
    (tmp_path / "lines").unlink()
    paths = [tmp_path / "in0.nt", tmp_path / "in1.hdt", tmp_path / "in2.hdt"]
    with pool() as executor:
        for some in (paths, paths[1:]):
            assert named(parts.build(some, tmp_path / str(len(some)), 4, executor, "one")) == named(expected)
        paths[2].write_bytes(paths[2].read_bytes()[:-1])
        with pytest.raises(hdt.Fault) as fault:
            parts.build(paths, tmp_path / "out", 4, executor, "one")
    assert (fault.value.path, fault.value.name) == (str(paths[2]), "Truncated")
    assert left(tmp_path) == {"in1.hdt", "in2.hdt", "2", "3"}


class Reversed(Executor):
    """Runs the last of the calls that it has first, and each of them twice."""

    def __init__(self) -> None:
        self.calls: list[tuple[Future[Any], Any, tuple[Any, ...]]] = []
        self.runs = 0

    def submit(self, call: Any, /, *parameters: Any, **_: Any) -> Future[Any]:
        """Keep a call until a result is asked for."""
        future: Future[Any] = Future()
        self.calls.append((future, call, parameters))
        setattr(future, "result", partial(self._run, future.result))
        return future

    def _run(self, result: Callable[[], Any]) -> Any:
        while self.calls:
            future, call, parameters = self.calls.pop()
            self.runs += 2
            call(*parameters)
            future.set_result(call(*parameters))
        return result()


def test_tasks_that_run_twice(tmp_path: Path, expected: parts.Manifest) -> None:
    """In another order, and repeated, tasks give the same; nothing but the files of the graph is in the folder."""
    executor = Reversed()
    with small(2_000, 300):
        found = parts.build([tmp_path / "in0.nt"], tmp_path / "out", 4, executor)
        with parts.open(tmp_path / "out", executor) as graph:
            assert list(graph) == list(parts.open(tmp_path / "expected"))
    assert executor.runs > 20
    assert named(found) == named(expected)
    assert len(list((tmp_path / "out").iterdir())) == 5
    assert left(tmp_path) == {"out"}


@pytest.mark.parametrize("task", MIDDLES)
def test_process_that_dies_in_a_build(tmp_path: Path, task: str, expected: parts.Manifest) -> None:
    """It is an error that says so, and there is no folder."""
    flag = tmp_path / "in.flag"
    flag.touch()
    with pool(MIDDLES[task], str(flag), signal.SIGKILL) as executor, small(2_000, 300):
        with pytest.raises(parts.WorkerDied, match=r"(in0.nt|part-0000.\.hdt): the processes that ran it died"):
            parts.build([tmp_path / "in0.nt"], tmp_path / "out", 4, executor)
    assert left(tmp_path) == {"in.flag.pid"}


def test_process_that_dies_in_a_search(tmp_path: Path, expected: parts.Manifest) -> None:
    """It is an error, in each kind of search; another executor finds the rest."""
    calls: list[Callable[[parts.Graph], Any]] = [
        lambda graph: list(graph.find()), lambda graph: list(graph.find(order="strings")), lambda graph: graph.page(),
        lambda graph: graph.matching(), lambda graph: graph.text(), lambda graph: graph.verify(),
    ]
    for call in calls:
        flag = tmp_path / "in.flag"
        flag.touch()
        with pool("hdt.parts._files.opened", str(flag), signal.SIGKILL) as executor:
            with parts.open(tmp_path / "expected", executor) as graph, pytest.raises(parts.WorkerDied):
                call(graph)
            with parts.open(tmp_path / "expected", executor) as graph, pytest.raises(parts.WorkerDied):
                call(graph)
    with pool() as executor, parts.open(tmp_path / "expected", executor) as graph:
        assert sorted(graph) == GRAPH


@pytest.mark.parametrize("task", MIDDLES)
def test_process_that_stops(tmp_path: Path, task: str, expected: parts.Manifest) -> None:
    """A process that stops for a while, and then goes on, does no harm."""
    flag = tmp_path / "in.flag"
    flag.touch()
    with pool(MIDDLES[task], str(flag), signal.SIGSTOP) as executor, small(2_000, 300):
        found: list[parts.Manifest] = []
        thread = threading.Thread(
            target=lambda: found.append(parts.build([tmp_path / "in0.nt"], tmp_path / "out", 4, executor)))
        thread.start()
        while not Path(f"{flag}.pid").exists() or not Path(f"{flag}.pid").read_text():
            time.sleep(0.01)
        time.sleep(0.2)
        assert thread.is_alive() and not (tmp_path / "out").exists()
        go_on(flag)
        thread.join()
    assert named(found[0]) == named(expected)
    assert left(tmp_path) == {"in.flag.pid", "out"}


def test_task_that_goes_on_after_an_error(tmp_path: Path) -> None:
    """It isn't waited for for ever, finds its folder gone, and leaves nothing."""
    lines = TEXT.splitlines()[:99]
    paths = inputs(tmp_path, lines + ["x"], 2)
    begun, ended, wait = threading.Event(), threading.Event(), threading.Event()

    def slow(text: bytes, *more: Any) -> Any:
        if text.startswith(lines[0].encode()):
            begun.set()
            assert wait.wait(20)
            ended.set()
        else:
            assert begun.wait(20)
        return splits.split(text, *more)

    with ThreadPoolExecutor(2) as executor:
        with mock.patch("hdt.parts._executor._SECONDS", 0.1), mock.patch("hdt.parts._build.split", slow):
            with pytest.raises(parts.InputFault, match="in1.nt: line 50"):
                parts.build(paths[::-1], tmp_path / "out", 4, executor)
        assert not ended.is_set()
        wait.set()
    assert ended.is_set() and left(tmp_path) == {"in1.nt"}


PROGRAM = """
from concurrent.futures import ProcessPoolExecutor
import multiprocessing
import hdt.parts

if __name__ == "__main__":
    with ProcessPoolExecutor(2, mp_context=multiprocessing.get_context("spawn")) as executor:
        hdt.parts.build(["in0.nt"], "out", 3, executor)
        with hdt.parts.open("out", executor) as graph:
            print(len(graph), graph.matching(p="u:p1"))
"""


def test_program(tmp_path: Path) -> None:
    """A program of a user, whose processes begin anew, in an empty folder with relative paths."""
    inputs(tmp_path, TEXT.splitlines(), 1)
    (tmp_path / "program.py").write_text(PROGRAM)
    done = subprocess.run([sys.executable, "program.py"], cwd=tmp_path, env={**os.environ, **ENVIRONMENT},
                          stdout=subprocess.PIPE, text=True, check=True)
    assert done.stdout == f"{len(GRAPH)} {sum(p == 'u:p1' for _, p, _ in GRAPH)}\n"


def test_ranges_are_for_tasks() -> None:
    """The sizes that documents name."""
    assert (ranges.RANGE, ranges.BLOCK) == (64 * 2**20, 2**20)
