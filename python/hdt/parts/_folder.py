"""Open folders of parts: which parts a pattern asks, tasks on them, and streams of their matches."""

from __future__ import annotations

import heapq
import os
from collections import deque
from collections.abc import Callable, Iterable, Iterator, Sequence
from concurrent.futures import Executor
from itertools import accumulate, groupby, islice
from operator import itemgetter
from typing import Any, Optional, TypeVar

import hdt
from hdt._calls import Path, StringTriple, bracketed, closed, is_bracketed, matched
from hdt.parts import _files
from hdt.parts._errors import PartFault
from hdt.parts._executor import Task, check, results
from hdt.parts._files import OpenFiles, Page, Pattern
from hdt.parts._manifest import Manifest, part_of

T = TypeVar("T")

MOST = 16_384  # triples of a message,
_FIRST = 1_024  # and of the first one of a part
_AHEAD = 16  # parts that are asked before their answers are needed


class OpenFolder:
    """A folder with its manifest, and the files that this process has open."""

    def __init__(self, folder: Path, executor: Optional[Executor]) -> None:
        check(executor)
        self._folder, self._executor = os.path.abspath(os.fsdecode(folder)), executor
        self.manifest = Manifest.read(self._folder)
        self._parts = self.manifest.parts
        self._there = [number for number, part in enumerate(self._parts) if part.file]
        self._begins = [0, *accumulate(part.triples for part in self._parts)]
        for number in self._there:
            self._check_size(number)
        self._files: Optional[OpenFiles] = OpenFiles(len(self._parts))

    def _check_size(self, number: int) -> None:
        part = self._parts[number]
        try:
            size = os.stat(os.path.join(self._folder, part.file)).st_size
        except FileNotFoundError:
            raise PartFault(part.file, "is missing") from None
        except OSError as error:
            raise PartFault(part.file, f"can't be read: {error.strerror}") from None
        if size != part.bytes:
            raise PartFault(part.file, f"has {size:,} bytes, not {part.bytes:,}")

    def _end(self) -> None:
        """Close the files of this process. A second call does nothing."""
        files, self._files = self._files, None
        if files is not None:
            files.close()

    def _check_open(self) -> OpenFiles:
        if self._files is None:
            raise closed()
        return self._files

    def _here(self, number: int) -> hdt.Graph:
        """The open file of a part in this process."""
        return self._check_open().graph(self._folder, self._parts[number])

    def _task(self, number: int, call: Callable[..., T], *parameters: Any) -> Task[T]:
        """A call on a part, which its executor runs, or this process."""
        files, part = self._check_open(), self._parts[number]
        if self._executor is None:
            return Task(None, part.file, lambda: call(files.graph(self._folder, part), *parameters))
        return Task(self._executor, part.file, _files.run, self._folder, part, call, *parameters)

    def _asked(self, pattern: Pattern) -> list[int]:
        """The parts that may have matches. Raises TypeError, and ValueError for what `hdt.Graph` refuses."""
        self._check_open()
        terms = matched(*pattern).parts
        for term in terms:
            if isinstance(term, str) and is_bracketed(term):  # (`build` puts terms alone into a folder)
                raise bracketed(term)
        if not isinstance(terms[0], str):
            return self._there
        home = part_of(terms[0], len(self._parts))
        return [home] if self._parts[home].file else []

    def _each(self, numbers: Iterable[int], task: Callable[[int], Task[T]]) -> Iterator[tuple[int, Task[T]]]:
        """Tasks for parts, some of which are given to the executor before their results are needed."""
        waiting, ahead = iter(numbers), deque[tuple[int, Task[T]]]()
        most = 1 if self._executor is None else _AHEAD
        while True:
            ahead.extend((number, task(number)) for number in islice(waiting, most - len(ahead)))
            if not ahead:
                return
            yield ahead.popleft()

    # ---- streams of matches

    def _by_parts(
        self, numbers: Sequence[int], pattern: Pattern, skip: int, limit: Optional[int]
    ) -> Iterator[StringTriple]:
        """The matches after the first `skip` ones."""
        if skip:
            numbers, skip = self._after(numbers, pattern, skip)
        if self._executor is None:
            for number in numbers:
                yield from self._here(number).find(*pattern, start=skip)
                skip = 0
            return
        begin = self._task(numbers[0], _files.position, pattern, skip).result() if skip else 0
        room = _FIRST if limit is None else min(limit, _FIRST)

        def first(number: int) -> Task[Page]:
            return self._task(number, _files.page, pattern, begin if number == numbers[0] else 0, room)

        for number, task in self._each(numbers, first):
            yield from self._rest(number, pattern, task, room)

    def _after(self, numbers: Sequence[int], pattern: Pattern, skip: int) -> tuple[Sequence[int], int]:
        """The parts that have the matches after the first `skip` ones, and how many of the first one are left out."""
        counts = results(self._task(number, _files.matching, [pattern]) for number in numbers)
        for at, (count,) in enumerate(counts):
            if skip < count:
                return numbers[at:], skip
            skip -= count
        return [], 0

    def _rest(
        self,
        number: int,
        pattern: Pattern,
        task: Task[Page],
        room: int,
        stop: Optional[int] = None,
    ) -> Iterator[StringTriple]:
        """The matches of a part from a page on. The next page is asked for while one is taken."""
        following: Optional[int] = 0
        while following is not None:
            text, following = task.result()
            if following is not None:
                room = min(4 * room, MOST)
                task = self._task(number, _files.page, pattern, following, room, stop)
            yield from triples_of(text)

    def _by_strings(self, numbers: Sequence[int], pattern: Pattern) -> Iterator[StringTriple]:
        """The matches in the order of their strings.

        A file has subjects that are objects, then others, both in the order of strings: so they are two streams. The
        objects of a subject and a predicate are sorted here.
        """
        streams = []
        if pattern[0] is not None:
            middles: list[Optional[int]] = [None for _ in numbers]
        else:
            middles = list(results(self._task(number, _files.only_subjects) for number in numbers))
        for number, middle in zip(numbers, middles):
            ends: list[tuple[int, Optional[int]]] = [(0, None)] if middle is None else [(0, middle), (middle, None)]
            for begin, stop in ends:
                task = self._task(number, _files.page, pattern, begin, _FIRST, stop)
                streams.append(self._rest(number, pattern, task, _FIRST, stop))
        return iter(heapq.merge(*map(_sorted, streams)))


def triples_of(text: str) -> Iterator[StringTriple]:
    """The triples of a page."""
    strings = iter(text.split("\0") if text else ())
    return zip(strings, strings, strings)


def _sorted(triples: Iterator[StringTriple]) -> Iterator[StringTriple]:
    """Triples that ascend by subject and predicate, in order."""
    for _, group in groupby(triples, itemgetter(0, 1)):
        yield from sorted(group)
