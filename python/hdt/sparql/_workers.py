"""The processes that answer queries."""

from __future__ import annotations

import json
import os
import queue
import selectors
import subprocess
import sys
import time
from pathlib import Path
from typing import Any, NamedTuple, Optional

import hdt
from hdt._library import library

_PIECE = 65_536
_SECONDS_TO_START = 60


class Late(Exception):
    """A query took too long."""


class Busy(Exception):
    """All processes have a query."""


class Ended(Exception):
    """A process ended while it had a query, as for want of memory."""


class Gone(Ended):
    """A process ended before it read the query, as an idle one that was killed."""


class Reply(NamedTuple):
    """What a process says of a query."""

    status: str
    media: str
    is_cut: bool
    headers: list[tuple[str, str]]
    body: bytes


class Worker:
    """A process, which answers one query at a time."""

    def __init__(self, memory: int) -> None:
        folder = str(Path(hdt.__file__).resolve().parents[1])
        # It finds this package, and what this process finds, and takes the same library.
        environment = {**os.environ, "PYTHONPATH": os.pathsep.join([folder, *filter(None, sys.path)]),
                       "PYTHONWARNINGS": "ignore", "HDT_LIBRARY": library._name}
        self._process = subprocess.Popen([sys.executable, "-m", "hdt.sparql._worker", str(memory)], env=environment,
                                         stdin=subprocess.PIPE, stdout=subprocess.PIPE)
        self._left, self._is_ready = b"", False

    def ask(self, request: dict[str, Any], seconds: float) -> Reply:
        """The reply to a request. Raises Late, Ended or Gone, after which the process is of no use."""
        assert self._process.stdin and self._process.stdout
        with selectors.DefaultSelector() as selector:
            selector.register(self._process.stdout, selectors.EVENT_READ)
            if not self._is_ready:  # (which takes its time from no query)
                self._line(selector, time.monotonic() + _SECONDS_TO_START)
                self._is_ready = True
            end = time.monotonic() + seconds
            try:
                self._process.stdin.write(json.dumps(request).encode() + b"\n")
                self._process.stdin.flush()
                self._line(selector, end)  # (it has the query)
            except (OSError, Ended):
                raise Gone from None
            head = json.loads(self._line(selector, end))
            pieces, length = [self._left], len(self._left)
            while length < head["length"]:
                self._left = b""
                self._read(selector, end)
                pieces.append(self._left)
                length += len(self._left)
        self._left = b""
        headers = [(str(name), str(value)) for name, value in head["headers"]]
        return Reply(head["status"], head["media"], head["cut"], headers, b"".join(pieces))

    def _line(self, selector: selectors.BaseSelector, end: float) -> bytes:
        while b"\n" not in self._left:
            self._read(selector, end)
        line, self._left = self._left.split(b"\n", 1)
        return line

    def _read(self, selector: selectors.BaseSelector, end: float) -> None:
        left = end - time.monotonic()
        if left <= 0 or not selector.select(left):
            raise Late
        assert self._process.stdout
        found = os.read(self._process.stdout.fileno(), _PIECE)
        if not found:
            raise Ended
        self._left += found

    def end(self) -> None:
        """Kill the process."""
        self._process.kill()
        self._process.wait()
        for pipe in (self._process.stdin, self._process.stdout):
            if pipe:
                try:
                    pipe.close()
                except OSError:
                    pass


class Workers:
    """Processes, which are started when they are needed. Threads may share them."""

    def __init__(self, count: int, memory: int) -> None:
        self._memory = memory
        self._free: queue.LifoQueue[Optional[Worker]] = queue.LifoQueue()
        for _ in range(count):
            self._free.put(None)

    def ask(self, request: dict[str, Any], seconds: float) -> Reply:
        """The reply to a request. Raises Busy, Late or Ended. A process that was killed while idle is replaced."""
        try:
            worker = self._free.get_nowait()
        except queue.Empty:
            raise Busy from None
        try:
            worker = worker or Worker(self._memory)
            try:
                reply = worker.ask(request, seconds)
            except Gone:
                worker.end()
                worker = Worker(self._memory)
                reply = worker.ask(request, seconds)
        except BaseException:
            if worker:
                worker.end()
            self._free.put(None)
            raise
        self._free.put(worker)
        return reply

    def close(self) -> None:
        """End the processes that have no query."""
        while True:
            try:
                worker = self._free.get_nowait()
            except queue.Empty:
                return
            if worker:
                worker.end()
