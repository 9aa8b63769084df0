"""The probe programs: calls of the libraries' functions from a test.

A request is a word and its arguments; an answer is a line, split at its spaces:

    probe.on(b"\x80", "read_vbyte", 0) == ("ok", "0", "1")

Arguments are spelled by `spelled`: bytes in hexadecimal, numbers in decimal, `None` as `-`, text as it is. The bytes
of the last `on` (or of a request `file`) are the input of later requests. Each program lists its words by the request
`help`, and a request goes to the program that has its word.
"""

from __future__ import annotations

import os
import subprocess
import threading
from collections.abc import Iterator, Mapping, Sequence
from enum import IntEnum
from itertools import groupby
from pathlib import Path
from typing import Union

from support.built import BUILT

PROGRAMS = ("hdt_probe_parts", "hdt_probe_terms", "hdt_probe_graph")

# So many bytes of requests fit into an empty pipe: the program may answer none of them before all are written.
PIPE = 60_000

# How much of a request an error shows.
SHOWN = 500

Argument = Union[bytes, bytearray, str, int, None]
Request = Sequence[Argument]
Answer = tuple[str, ...]


class ProbeError(Exception):
    """A probe program is missing, or ended while a request was open."""


def spelled(argument: Argument) -> str:
    """An argument as the programs read it."""
    if isinstance(argument, (bytes, bytearray)):
        return argument.hex()
    if isinstance(argument, bool):
        return str(int(argument))
    return "-" if argument is None else str(argument)


def line_of(request: Request) -> str:
    """A request as a line, without its end."""
    return " ".join(map(spelled, request))


def ok(*values: Argument) -> Answer:
    """The answer of a call that gives these values: `true` and `false`, `none`, bytes in hexadecimal."""
    def value(it: Argument) -> str:
        if isinstance(it, bool):
            return "true" if it else "false"
        return "none" if it is None else spelled(it)
    return ("ok", *map(value, values))


def fault(reason: IntEnum, *places: int) -> Answer:
    """The answer of a call that finds an error: its number and name, and where it is, as a line and a column."""
    return ("fault", str(int(reason)), reason.name, *map(str, places))


class Program:
    """One probe program as a child process."""

    def __init__(self, path: Path, env: Mapping[str, str] | None = None) -> None:
        self.path = path
        self.input: bytes | None = None
        self.child = subprocess.Popen([os.fspath(path)], stdin=subprocess.PIPE, stdout=subprocess.PIPE,
                                      env={**os.environ, **(env or {})})
        assert self.child.stdin is not None and self.child.stdout is not None
        self.requests, self.answers = self.child.stdin, self.child.stdout

    def send(self, lines: Sequence[str]) -> list[str]:
        """Send requests in one write and return their answers."""
        data = "".join(line + "\n" for line in lines).encode()

        def write() -> None:
            try:
                self.requests.write(data)
                self.requests.flush()
            except BrokenPipeError:
                pass  # The reader below says which request was open.

        if len(data) <= PIPE:
            write()
            return [self.answer(line) for line in lines]
        writer = threading.Thread(target=write, daemon=True)
        writer.start()
        try:
            return [self.answer(line) for line in lines]
        finally:
            writer.join()

    def answer(self, line: str) -> str:
        """Read the answer of a request."""
        answer = self.answers.readline()
        if not answer.endswith(b"\n"):
            shown = line if len(line) <= SHOWN else f"{line[:SHOWN]}.. ({len(line)} characters)"
            raise ProbeError(f"{self.path.name} ended with status {self.child.wait()} at the request: {shown}")
        return answer[:-1].decode()

    def close(self) -> int:
        """End the program and return its exit status."""
        try:
            self.requests.close()
        except BrokenPipeError:
            pass
        status = self.child.wait()
        self.answers.close()
        return status


class Probe:
    """All probe programs, each started at the first request that needs it."""

    def __init__(self, folder: Path = BUILT) -> None:
        self.folder = folder
        self.paths = {name: folder / name for name in PROGRAMS if (folder / name).exists()}
        self.running: dict[str, Program] = {}
        self.counts: dict[str, dict[str, str]] = {}
        self.input = b""
        self.last = next(iter(self.paths), PROGRAMS[0])

    def program(self, name: str) -> Program:
        """The running program of this name."""
        if name not in self.paths:
            raise ProbeError(f"{name} is not built: there is none in {self.folder}")
        if name not in self.running:
            self.running[name] = Program(self.paths[name])
        return self.running[name]

    def words(self, name: str) -> dict[str, str]:
        """The words of a program, each with its count of arguments: `2`, or `2+` where more may follow."""
        if name not in self.counts:
            listed = self.program(name).send(["help"])[0].split(" ")[1:]
            self.counts[name] = dict(zip(listed[::2], listed[1::2]))
        return self.counts[name]

    def name_of(self, word: str) -> str:
        """The program that a request with this word goes to: the last one for `reads`, `writes` and unknown words."""
        if word in ("help", "reads", "writes"):
            return self.last
        return next((name for name in self.paths if word in self.words(name)), self.last)

    def routed(self, requests: Sequence[Request]) -> Iterator[tuple[str, bytes | None, str]]:
        """The program and the line of each request, with the input that it reads; no program for a request `file`."""
        for request in requests:
            word = str(request[0])
            if word == "file" and len(request) == 2 and isinstance(request[1], (bytes, bytearray)):
                self.input = bytes(request[1])
                yield "", None, ""
            else:
                self.last = self.name_of(word)
                yield self.last, self.input, line_of(request)

    def send(self, *requests: Request) -> list[Answer]:
        """Send many requests at once and return their answers."""
        answers: list[Answer] = []
        for name, group in groupby(self.routed(requests), key=lambda routed: routed[0]):
            routed = list(group)
            if not name:
                answers += [("ok",)] * len(routed)
            else:
                answers += self.send_to(name, routed)
        return answers

    def send_to(self, name: str, routed: Sequence[tuple[str, bytes | None, str]]) -> list[Answer]:
        """Send requests to a program, each behind its input where the program keeps another one."""
        program = self.program(name)
        lines: list[str] = []
        wanted: list[int] = []
        for _, data, line in routed:
            if data is not None and data != program.input and not (program.input is None and data == b""):
                lines.append(line_of(("file", data)))
                program.input = data
            wanted.append(len(lines))
            lines.append(line)
        try:
            answers = program.send(lines)
        except ProbeError:
            self.running.pop(name).close()
            raise
        kept = set(wanted)
        for at, answer in enumerate(answers):
            if at not in kept and answer != "ok":
                raise ProbeError(f"{name} does not keep its input: {answer}")
        return [tuple(answers[at].split(" ")) for at in wanted]

    def ask(self, *request: Argument) -> Answer:
        """The answer of one request."""
        return self.send(request)[0]

    def on(self, data: bytes, *request: Argument) -> Answer:
        """The answer of a request about these bytes, which stay the input of later requests."""
        return self.send(("file", data), request)[1]

    def close(self) -> dict[str, int]:
        """End all programs and return their exit statuses."""
        statuses = {name: program.close() for name, program in self.running.items()}
        self.running.clear()
        return statuses
