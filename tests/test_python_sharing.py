"""Calls of several threads on one graph of the Python package, which run at the same time, and the end of a graph."""

from __future__ import annotations

import ctypes
import random
import sys
import threading
import time
from collections.abc import Callable, Iterator
from contextlib import contextmanager
from pathlib import Path
from typing import Any, NamedTuple

import pytest

from support import program
from support.fragments import Site, fragments, url
from support.python_package import ENVIRONMENT, hdt
from test_python import THREE, run_threads
from test_python_threads import CALLS, KINDS, OBJECT, PREDICATE, Calls, Files, files, in_child, often, opened, seconds

from hdt import _brief, _library

__all__ = ["files", "often"]  # fixtures


class Call(NamedTuple):
    """A call of the library that has begun in another thread: it ends once it may, and gives what it gives."""

    may_end: threading.Event
    thread: threading.Thread
    given: list[object]

    def end(self) -> object:
        """Let it end. Returns the answer of the thread, or its error."""
        self.may_end.set()
        self.thread.join(60)
        (answer,) = self.given
        return answer


@contextmanager
def running(name: str, ask: Callable[[], object], count: int = 1) -> Iterator[list[Call]]:
    """Threads that ask for something, each in the call of the library with a name. It is patched for them alone."""
    right, begun, calls = getattr(_library.library, name), threading.Semaphore(0), dict[int, Call]()

    def slow(*parameters: Any) -> Any:
        answer, mine = right(*parameters), calls.get(threading.get_ident())
        if mine is not None and not mine.may_end.is_set():
            begun.release()
            assert mine.may_end.wait(60)
        return answer

    def work(number: int) -> None:
        mine = calls[threading.get_ident()] = made[number]
        try:
            mine.given.append(ask())
        except Exception as error:
            mine.given.append(error)

    with pytest.MonkeyPatch.context() as patch:
        patch.setattr(_library.library, name, slow)
        made = [Call(threading.Event(), threading.Thread(target=work, args=(n,)), []) for n in range(count)]
        for call in made:
            call.thread.start()
        try:
            for _ in made:
                assert begun.acquire(timeout=60)
            yield made
        finally:
            for call in made:
                call.may_end.set()
                call.thread.join()


def in_time(ask: Callable[[], object]) -> object:
    """The answer of a thread that has 60 seconds for it."""
    given: list[object] = []
    thread = threading.Thread(target=lambda: given.append(ask()), daemon=True)
    thread.start()
    thread.join(60)
    assert given, "it waits for another call"
    return given[0]


# ---- calls at the same time


@pytest.mark.parametrize("kind, name", [("hdt", "hdt_pattern_text"), ("hdt.parts", "hdt_page_text"),
                                        ("hdt.rdflib", "hdt_pattern_text")])
def test_each_call_runs_beside_a_long_one(kind: str, name: str, files: Files) -> None:
    """While a thread is in a call of the library, every call of other threads has its answer."""
    graph, calls = opened(kind, files), KINDS[kind]
    wanted = {each: call(graph) for each, call in calls.items()}
    text = graph.store.hdt.text if kind == "hdt.rdflib" else graph.text
    whole = text()
    with running(name, text) as (long,):
        for each, call in calls.items():
            assert in_time(lambda: call(graph)) == wanted[each], each
        assert not long.given
    assert long.end() == whole
    graph.close()


PAGES = {"text/turtle": "hdt_page_text", "application/ld+json": "hdt_strings", "text/html": "hdt_strings"}


@pytest.mark.parametrize("media, name", PAGES.items(), ids=list(PAGES))
def test_pages_are_made_at_the_same_time(media: str, name: str, files: Files) -> None:
    """While a thread of a fragment server is in the call for its page, other threads make theirs."""
    site = Site(fragments.Application({"datasets": {"served": str(files.path)}}))
    targets = [url("served", predicate=f"u:p{n}", page=n + 1) for n in range(4)]
    wanted = [site.ask(target, Accept=media).text for target in targets]
    assert len(set(wanted)) == 4
    with running(name, lambda: site.ask(targets[0], Accept=media).text, 2) as calls:
        assert [in_time(lambda: site.ask(target, Accept=media).text) for target in targets] == wanted
        assert [call.end() for call in calls] == [wanted[0]] * 2


def test_short_calls_end_during_a_long_one(files: Files) -> None:
    """The library itself runs calls at the same time: many of them begin and end while one makes a long text."""
    right, times, most = _library.library.hdt_pattern_text, list[float](), 0

    def timed(*parameters: Any) -> None:
        times.append(time.monotonic())
        right(*parameters)
        times.append(time.monotonic())

    with hdt.open(files.path) as graph, pytest.MonkeyPatch.context() as patch:
        patch.setattr(_library.library, "hdt_pattern_text", timed)
        for _ in range(50):
            times.clear()
            thread = threading.Thread(target=graph.text)
            thread.start()
            spans = list[tuple[float, float]]()
            while thread.is_alive():
                begin = time.monotonic()
                assert graph.matching(p=PREDICATE) > 0
                spans.append((begin, time.monotonic()))
            most = max(most, sum(times[0] < begin and end < times[1] for begin, end in spans))
            if most >= 5:
                break
    assert most >= 5


def test_calls_have_handles_of_their_own(files: Files) -> None:
    """Eight calls at a time have eight handles, in different lines of the cache; the next ones take the same."""
    with hdt.open(files.path) as graph:
        whole = graph.text()
        with running("hdt_pattern_text", graph.text, 8) as calls:
            assert len(graph._shared) >= 8 and graph._free == []
            assert [call.end() for call in calls] == 8 * [whole]
        handles = [shared.handle for shared in graph._shared]
        places = sorted(map(ctypes.addressof, handles))
        assert len(handles) == len(graph._free) == 8
        assert ctypes.sizeof(_library.Handle) >= 64  # (so wherever ctypes puts them)
        assert all(there - here >= 64 for here, there in zip(places, places[1:]))
        assert all(here // 64 == (here + 15) // 64 for here in places)
        for call in CALLS.values():
            call(graph)
        assert [shared.handle for shared in graph._shared] == handles


def test_one_thread_has_one_handle(files: Files) -> None:
    """Calls one after another take one handle, also those of several threads and of iterators in turn."""
    with hdt.open(files.path) as graph:
        begun = [iter(graph), graph.text_pieces(), graph.find_ids(), graph.terms("object")]
        for _ in range(3):
            assert all(next(it) for it in begun)
            for call in CALLS.values():
                in_time(lambda: call(graph))
        assert len(graph._shared) == len(graph._free) == 1


def test_long_strings_have_room_of_their_own(tmp_path: Path) -> None:
    """Threads get strings of different lengths whole; room for a long string isn't kept."""
    strings = {n: '"' + chr(97 + n % 26) * n * 211 + '"' for n in range(1, 400)}
    text = tmp_path / "long.nt"
    text.write_text("".join(f"<u:{n:03}> <u:p> {it} .\n" for n, it in strings.items()))
    hdt.build(text, tmp_path / "long.hdt")
    wrong = list[int]()
    with hdt.open(tmp_path / "long.hdt") as graph:
        ids = {n: graph.number("object", it) or 0 for n, it in strings.items()}

        def work(mine: int) -> None:
            order = random.Random(mine).choices(list(ids), k=400)
            wrong.extend(n for n in order if graph.string("object", ids[n]) != strings[n])

        for thread in run_threads(6, work):
            thread.join()
        assert wrong == [] and 1 <= len(graph._shared) <= 7
        assert max(len(shared.room[0]) for shared in graph._shared) <= 65_536


# ---- calls that keep Python's lock


class Waiting(NamedTuple):
    """A thread that waits for Python's lock, and what it notes once it has it."""

    thread: threading.Thread
    had: list[bool]


@contextmanager
def waiting() -> Iterator[Waiting]:
    """While another thread waits for Python's lock, which it gets if a call gives it up, and else after a minute."""
    may_run, had, before = threading.Lock(), list[bool](), sys.getswitchinterval()

    def work() -> None:
        with may_run:
            had.append(True)

    may_run.acquire()
    thread = threading.Thread(target=work)
    thread.start()
    time.sleep(0.1)  # (so it waits for the other lock)
    sys.setswitchinterval(60)
    try:
        may_run.release()
        yield Waiting(thread, had)
    finally:
        sys.setswitchinterval(before)
        thread.join()


BRIEF: Calls = {
    "count": lambda graph: graph.count("object"),
    "number": lambda graph: graph.number("object", OBJECT),
    "string": lambda graph: graph.string("object", 7),
}


@pytest.mark.parametrize("name", BRIEF)
def test_brief_calls_keep_the_lock(name: str, files: Files, monkeypatch: pytest.MonkeyPatch) -> None:
    """No other thread runs during calls that take microseconds."""
    monkeypatch.setattr(_brief, "_LONG", 60)  # (on a busy machine any call may take longer)
    with hdt.open(files.path) as graph:
        answers = {BRIEF[name](graph) for _ in range(101)}  # (one before may have taken long)
        with waiting() as other:
            answers |= {BRIEF[name](graph) for _ in range(20_000)}
            assert other.had == []
        assert other.had == [True] and len(answers) == 1


def test_small_texts_are_freed_with_the_lock(files: Files, monkeypatch: pytest.MonkeyPatch) -> None:
    """Python's lock is given up to free bytes if there are more than a MiB, which takes long."""
    freed, right = list[int](), _library.library.hdt_free

    def free(made: _library.Made) -> None:
        freed.append(made.len)
        right(made)

    monkeypatch.setattr(_library.library, "hdt_free", free)
    with hdt.open(files.path) as graph:
        assert len(graph.page_text(limit=2_000)[0]) < 2**20 and freed == []
        assert freed == [len(graph.text())] and freed[0] > 2**20


@pytest.mark.parametrize("name", ["number", "string"])
def test_brief_calls_that_take_long_give_up_the_lock(name: str, files: Files, monkeypatch: pytest.MonkeyPatch) -> None:
    """If calls take long, others run meanwhile, and the answers are the same."""
    monkeypatch.setattr(_brief, "_LONG", -1)
    with hdt.open(files.path) as graph:
        wanted, end = BRIEF[name](graph), time.monotonic() + 50
        with waiting() as other:
            while not other.had and time.monotonic() < end:
                assert BRIEF[name](graph) == wanted
            assert other.had == [True]


def test_long_calls_among_brief_ones() -> None:
    """After a call that takes longer than a millisecond, which keeps the lock, the next hundred give it up."""
    made, now, took = "", 0.0, 0.0

    def keeps(number: int) -> int:
        nonlocal made, now
        made, now = made + "k", now + took
        return number

    def gives_up(number: int) -> int:
        nonlocal made
        made += "g"
        return number

    brief = _brief.Brief(keeps, gives_up)
    with pytest.MonkeyPatch.context() as patch:
        patch.setattr(_brief, "perf_counter", lambda: now)
        for took in (0.0005, 0.0015, 0.0005):
            made = ""
            assert [brief.call(n) for n in range(203)] == list(range(203))
            assert made == (2 * ("k" + 100 * "g") + "k" if took > 0.001 else 203 * "k")
            brief._left = 0


def test_answers_are_the_same_if_calls_take_long(files: Files, monkeypatch: pytest.MonkeyPatch) -> None:
    """Every call gives the same, and raises the same once the graph is closed, if brief calls give up the lock."""
    with hdt.open(files.path) as graph:
        wanted = {name: call(graph) for name, call in CALLS.items()}
        monkeypatch.setattr(_brief, "_LONG", -1)
        for _ in range(2):
            assert {name: call(graph) for name, call in CALLS.items()} == wanted
            assert graph.number("object", "u:none") is None is graph._string(2, 2**64 - 1)
    with pytest.raises(ValueError, match="the graph is closed"):
        graph.string("object", 1)


# ---- memory


def test_no_memory_for_another_handle() -> None:
    """A call that needs another handle raises MemoryError; calls that find a free one, and later ones, have answers."""
    with hdt.open(THREE) as graph, pytest.MonkeyPatch.context() as patch:
        for made in (0, 1):
            with patch.context() as refused:
                refused.setattr(_library.library, "hdt_share", lambda *_: _library.OUT_OF_MEMORY)
                if not made:
                    with pytest.raises(MemoryError):
                        graph.matching()
                    with pytest.raises(MemoryError):
                        graph.string("object", 1)
                else:
                    assert graph.matching() == 3
                    with running("hdt_pattern_text", graph.text), pytest.raises(MemoryError):
                        graph.matching()
            assert len(graph._shared) == made
            assert graph.matching() == 3 and graph.string("object", 3) == '"x"'
            assert len(graph._shared) == 1


# ---- close


def test_close_waits_for_all_calls(files: Files) -> None:
    """`close`, also a second one, waits for each call that runs, and only then gives the bytes back."""
    data = bytearray(files.path.read_bytes())
    graph = hdt.Graph(data)
    whole = graph.text()
    with running("hdt_pattern_text", graph.text, 2) as (first, second):
        closing = run_threads(2, lambda _: graph.close())
        for last in (False, True):
            for thread in closing:
                thread.join(0.2)
                assert thread.is_alive()
            with pytest.raises(ValueError, match="the graph is closed"):
                graph.matching()
            with pytest.raises(BufferError):
                data.append(0)
            assert (second if last else first).end() == whole
        for thread in closing:
            thread.join(60)
            assert not thread.is_alive()
    data.append(0)
    assert [shared.handle.state for shared in graph._shared] == [0, 0]
    graph.close()


def test_all_handles_are_closed(files: Files) -> None:
    """`close`, and the end of a graph that isn't closed, close each handle that was opened: memory is free then."""
    handles: list[_library.Handle] = []

    def recorded(name: str, at: int) -> Callable[..., Any]:
        right = getattr(_library.library, name)

        def call(*parameters: Any) -> Any:
            handles.append(parameters[at])
            return right(*parameters)

        return call

    for is_closed in (True, False):
        handles.clear()
        with pytest.MonkeyPatch.context() as patch:
            for name, at in (("hdt_open", 2), ("hdt_share", 1)):
                patch.setattr(_library.library, name, recorded(name, at))
            graph = hdt.open(files.path)
            with running("hdt_pattern_matching", graph.matching, 3):
                graph.matching(p=PREDICATE)
        assert [it.state for it in handles] == [1] * 5
        if is_closed:
            graph.close()
        del graph
        assert [it.state for it in handles] == [0] * 5


def test_closed_between_pages(files: Files) -> None:
    """Iterators of a graph that another thread closes go on to the end of what they have, and then raise ValueError."""
    graph = hdt.open(files.path)
    begun = [iter(graph), graph.text_pieces(), graph.find_ids(), graph.terms("object")]
    assert all(next(it) for it in begun)
    in_time(graph.close)
    for it in begun:
        with pytest.raises(ValueError, match="the graph is closed"):
            list(it)
    for call in CALLS.values():
        if call is not repr:
            with pytest.raises(ValueError, match="the graph is closed"):
                call(graph)


def test_graphs_that_are_closed_meanwhile(files: Files, often: None) -> None:
    """Eight threads call, open and close graphs at random: each answer is right, or the graph is closed."""
    graphs, wrong, made = [hdt.open(files.path) for _ in range(3)], list[str](), [0] * 8
    calls = [(name, call) for name, call in CALLS.items() if call is not repr]
    wanted, end = {name: call(graphs[0]) for name, call in calls}, time.monotonic() + seconds()

    def work(mine: int) -> None:
        source = random.Random(mine)
        while time.monotonic() < end:
            place, (name, call) = source.randrange(len(graphs)), source.choice(calls)
            graph = graphs[place]
            try:
                if not source.randrange(30):
                    graph.close()
                    graphs[place] = hdt.open(files.path)
                elif call(graph) != wanted[name]:
                    wrong.append(f"{name} is wrong")
                made[mine] += 1
            except ValueError as error:
                if str(error) != "the graph is closed":
                    wrong.append(f"{name} raises {error!r}")
            except Exception as error:
                wrong.append(f"{name} raises {error!r}")

    for thread in run_threads(len(made), work):
        thread.join()
    assert wrong[:5] == [] and min(made) > 0


INTERRUPTS = """
import random, signal, sys, hdt

class Interrupt(Exception):
    pass

def interrupt(*_):
    raise Interrupt

data, source = bytearray(open(sys.argv[1], "rb").read()), random.Random(69)
graph, seen, most = hdt.Graph(data), 0, int(sys.argv[2])
wanted = graph.string("object", 1), graph.matching(), graph.number("subject", "u:a")
signal.signal(signal.SIGALRM, interrupt)
while seen < most:
    try:
        signal.setitimer(signal.ITIMER_REAL, source.uniform(2e-5, 4e-4))
        while True:
            assert (graph.string("object", 1), graph.matching(), graph.number("subject", "u:a")) == wanted
            if not source.randrange(50):
                graph._free.clear()  # (so that others are made)
    except Interrupt:
        seen += 1
signal.signal(signal.SIGALRM, signal.SIG_DFL)
signal.alarm(60)
assert graph.matching() == 3
graph.close()
data.append(0)
print(seen, {it.handle.state for it in graph._shared})
"""


def test_interrupts() -> None:
    """Exceptions of a signal handler, between any two steps of calls, leave a graph that answers and can be closed."""
    done = program.run([sys.executable, "-c", INTERRUPTS, THREE, "2000"], env=ENVIRONMENT, seconds=200)
    assert done == (0, b"2000 {0}\n", b""), done.err.decode()


# ---- forked processes


def test_forked_while_calls_run(files: Files) -> None:
    """A process that is forked while others are in calls opens nothing again: it shares the indexes that are there."""
    with hdt.open(files.path) as graph:
        wanted = {name: call(graph) for name, call in CALLS.items()}

        def check() -> bool:
            assert len(graph._free) == sum(shared.handle.state for shared in graph._shared)
            with pytest.MonkeyPatch.context() as patch:
                patch.setattr(_library.library, "hdt_open", lambda *_: pytest.fail("it opens a file"))
                answers = {name: call(graph) for name, call in CALLS.items()}
                (thread,) = run_threads(1, lambda _: graph.close())
                thread.join()
            return answers == wanted and repr(graph) == "<hdt.Graph, closed>"

        with running("hdt_pattern_text", graph.text, 3):
            assert in_child(check)
        assert graph.matching() == wanted["__len__"]


def test_forked_while_a_handle_is_made() -> None:
    """A handle that another thread was making at the fork is never closed in the child, nor is it used."""
    with hdt.open(THREE) as graph:
        def check() -> bool:
            assert graph._first is None and [it.handle.state for it in graph._shared] == [0]
            assert graph.matching() == 3
            graph.close()
            return True

        with running("hdt_share", graph.matching):
            assert in_child(check)
        assert graph.matching() == 3
