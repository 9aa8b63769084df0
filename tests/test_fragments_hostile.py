"""The fragment server beside what goes wrong with one dataset: drawn manifests, what is no file, any error."""

from __future__ import annotations

import errno
import importlib
import itertools
import json
import os
import random
import shutil
import signal
import threading
import urllib.error
import urllib.request
from collections.abc import Iterator
from contextlib import contextmanager
from pathlib import Path
from typing import Any
from wsgiref.simple_server import make_server

import pytest
from hypothesis import settings

from support.fragments import ODD, PATIENCE, Handler, Server, Site, build, fragments, hdt, url
from support.parts import SPECIAL, parts, spoiled

N = "http://odd.example/n"
DRAWN = min(5 * settings.default.max_examples // 2, 5_000)


@pytest.fixture(autouse=True)
def in_time(monkeypatch: pytest.MonkeyPatch) -> Iterator[None]:
    """Files are looked at for each request; this process ends if a test is stuck."""
    monkeypatch.setattr("hdt.fragments._dataset._SECONDS", -1)
    signal.alarm(600 + DRAWN)  # (the machine may have other work)
    yield
    signal.alarm(0)


@pytest.fixture
def folder(tmp_path: Path) -> Path:
    """A folder of parts of the odd graph, beside its file."""
    build(tmp_path, ODD)
    parts.build([tmp_path / "odd.nt"], tmp_path / "parts", 3)
    return tmp_path / "parts"


@contextmanager
def running(application: Any) -> Iterator[str]:
    """A server, and its URL."""
    with make_server("127.0.0.1", 0, application, server_class=Server, handler_class=Handler) as server:
        thread = threading.Thread(target=server.serve_forever, args=(0.05,))
        thread.start()
        try:
            yield f"http://127.0.0.1:{server.server_port}"
        finally:
            server.shutdown()
            thread.join()


def asked(target: str, accept: str = "application/n-triples") -> tuple[int, bytes]:
    """The status and the body of the answer of a server."""
    try:
        request = urllib.request.Request(target, headers={"Accept": accept})
        with urllib.request.urlopen(request, timeout=PATIENCE) as answer:
            return answer.status, answer.read()
    except urllib.error.HTTPError as error:
        with error:
            return error.code, error.read()


def data(page: bytes) -> list[bytes]:
    """The lines of a page but for its title and its controls, with names of blank nodes as of the folder `parts`."""
    lines = page.replace(b"/bad", b"/parts").splitlines()
    return [line for line in lines if b"/hydra/" not in line and b"/title>" not in line]


def test_drawn_manifests(folder: Path) -> None:
    """While one folder gets a drawn manifest after another, a server gives the others, and their list, as before."""
    good = (folder / "manifest.json").read_text()
    bad = folder.parent / "bad"
    shutil.copytree(folder, bad)
    (bad / "manifest.json").write_text("{}")
    datasets = {"bad": str(bad), "parts": str(folder), "odd": str(folder.parent / "odd.hdt")}
    application = fragments.Application({"datasets": datasets, "log": False})
    draw, refused = random.Random(5), 0
    with running(application) as address:
        wanted = {target: asked(address + target) for target in ("/odd", "/parts", url("parts", predicate=N, page=2))}
        assert {status for status, _ in wanted.values()} == {200}
        assert asked(address + "/bad")[0] == 503
        for number in range(DRAWN):
            (bad / "new").write_text(spoiled(draw, good), encoding="utf-8")
            (bad / "new").rename(bad / "manifest.json")
            status, page = asked(address + "/bad")
            dataset = application.datasets["bad"]
            try:
                parts.open_any(bad).close()
                assert dataset.error == "" and status == 200
            except parts.PartFault as fault:
                refused += 1
                assert dataset.error.replace("\\\\", "\\") == str(fault)
            assert status == (200 if dataset._loaded else 503)
            if status == 200:
                assert data(page) == data(wanted["/parts"][1])
            target = random.Random(number).choice(list(wanted))
            assert asked(address + target) == wanted[target]
            status, page = asked(address + "/", "text/html" if number % 2 else "application/n-triples")
            assert status == 200 and f"{address}/parts".encode() in page and f"{address}/odd".encode() in page
    assert refused > 0.9 * DRAWN


@pytest.mark.parametrize("kind", SPECIAL)
@pytest.mark.parametrize("place", ["odd.hdt", "parts/manifest.json", "parts/part-00001.hdt", "parts"])
def test_what_is_no_regular_file(folder: Path, place: str, kind: str, caplog: pytest.LogCaptureFixture) -> None:
    """In place of a file, a folder, its manifest or a part it is refused: 503 at first, later the file of before."""
    (folder.parent / "healthy.hdt").write_bytes((folder.parent / "odd.hdt").read_bytes())
    name = place.partition(".")[0].partition("/")[0]
    about = {"file": str(folder.parent / place.partition("/")[0]), "download": True}
    config = {"datasets": {name: about, "healthy": str(folder.parent / "healthy.hdt")}}
    before = Site(fragments.Application(config))
    wanted = before.nquads(f"/{name}").body
    path = folder.parent / place
    path.rename(folder.parent / "moved")
    SPECIAL[kind](path)
    if place.startswith("parts/"):
        os.utime(folder, (10**9, 10**9))  # (as files have the same time for some milliseconds)
    after = Site(fragments.Application(config))
    assert [site.ask(f"/{name}").status for site in (before, after)] == [200, 503]
    assert before.nquads(f"/{name}").body == wanted
    for site in (before, after):
        assert site.ask(f"/{name}/data.hdt").status in (503, 404)
        assert (site.ask("/").status, site.ask("/healthy").status) == (200, 200)
    assert len([line for line in caplog.messages if line.startswith(f"{name}: ") and "can't be opened" in line]) == 2
    if path.is_dir() and not path.is_symlink():
        path.rmdir()
    else:
        path.unlink()
    (folder.parent / "moved").rename(path)
    assert (before.ask(f"/{name}").status, after.ask(f"/{name}").status) == (200, 200)


class Odd(Exception):
    """An error that nobody knows, whose text can't be made."""

    def __str__(self) -> str:
        return "\x1b[31m\n" + "x" * 10**6


ERRORS = [MemoryError(), RecursionError("deep"), OSError(errno.EIO, "\x1b]0;title\x07"), OSError(), KeyError("\n"),
          OverflowError("cannot convert float infinity to integer"), ValueError("\u202e"), ZeroDivisionError(),
          AssertionError(), StopIteration(), UnicodeError("\x9b\u2028"), Odd(), TypeError("a\nb")]


@pytest.mark.parametrize("error", ERRORS, ids=lambda error: type(error).__name__)
@pytest.mark.parametrize("name", ["odd", "parts"])
def test_any_error(
    folder: Path, error: Exception, name: str, monkeypatch: pytest.MonkeyPatch, caplog: pytest.LogCaptureFixture,
) -> None:
    """Whatever opening a dataset raises, at the start or later: others are served, and one line of the log says it."""
    module = importlib.import_module("hdt.fragments._dataset")
    whole, raising = module.Reader, True

    def reader(graph: Any, most: int) -> Any:
        if raising and (name == "odd") == isinstance(graph, hdt.Graph):
            raise error
        return whole(graph, most)

    monkeypatch.setattr(module, "Reader", reader)
    other = "parts" if name == "odd" else "odd"
    site = Site(fragments.Application({"datasets": {
        "odd": str(folder.parent / "odd.hdt"), "parts": str(folder)}, "log": False}))

    def statuses() -> list[int]:
        return [site.ask(target).status for target in (f"/{name}", f"/{other}", "/", f"/{name}/void")]

    assert statuses() == statuses() == [503, 200, 200, 503]
    assert len(caplog.messages) == 1 and caplog.messages[0].isprintable() and len(caplog.messages[0]) < 3_000
    raising, times = False, itertools.count(10**9)  # (as files have the same time for some milliseconds)
    file = folder / "manifest.json" if name == "parts" else folder.parent / "odd.hdt"
    may_pass = isinstance(error, (OSError, MemoryError))
    assert statuses() == ([200] * 4 if may_pass else [503, 200, 200, 503])
    os.utime(file, (next(times), next(times)))
    assert statuses() == [200] * 4
    raising = True
    os.utime(file, (next(times), next(times)))
    assert statuses() == [200] * 4 and "the previous file stays in use" in caplog.messages[-1]
    raising = False
    os.utime(file, (next(times), next(times)))
    assert statuses() == [200] * 4 and site.application.datasets[name].error == ""


def test_names_that_no_file_has(tmp_path: Path) -> None:
    """A configuration may name what can't be a path."""
    file = build(tmp_path, ODD)
    names = ["\0", "a\0b", "\ud800", "x" * 500, "/" * 5_000, "\n", "\x1b[31m", str(tmp_path), "/", "/dev/stdin"]
    datasets = {f"d{n}": {"file": name, "download": True} for n, name in enumerate(names)}
    (tmp_path / "c.json").write_text(json.dumps({"datasets": {**datasets, "odd": str(file)}}))
    site = Site(fragments.Application(fragments.Config.read(tmp_path / "c.json")))
    assert {site.ask(f"/{name}{end}").status for name in datasets for end in ("", "/void", "/data.hdt")} <= {503, 404}
    assert (site.ask("/odd").status, site.ask("/").status) == (200, 200)
    assert site.ask("/", Accept="text/html").text.count("can't be opened") == len(datasets)
