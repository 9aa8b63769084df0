"""Graphs in parts that are open for searches."""

from __future__ import annotations

import io
import os
from collections.abc import Iterable, Iterator
from concurrent.futures import Executor
from functools import lru_cache
from itertools import chain, islice
from operator import index
from typing import IO, Any, Literal, Optional

import hdt
from hdt._calls import Given, Path, StringTriple, triple_of, window
from hdt.parts import _files
from hdt.parts._executor import Task, results
from hdt.parts._files import Page, Pattern
from hdt.parts._folder import MOST, OpenFolder, triples_of

Order = Literal["parts", "strings"]

_TYPE = "<http://www.w3.org/1999/02/22-rdf-syntax-ns#type>"
_DATASET = "<http://purl.org/HDT/hdt#Dataset>"
_TRIPLES = "<http://rdfs.org/ns/void#triples>"


def open(folder: Path, executor: Optional[Executor] = None) -> Graph:
    """Open a folder that `build` made for searches: use it in a `with` statement, or call `close`.

    `executor` runs the calls on parts, as in `build`. Each of its processes keeps up to 256 files open until it ends.
    Without one this process has the files open. A process validates a file, and compares it with its SHA-256, when it
    is first asked; here only its size is checked.

    Errors: `PartFault` for a manifest or a part that is missing or has another size, TypeError, OSError. Later calls
    raise `PartFault`, too, for a part that is damaged or another one.

    >>> with hdt.parts.open("graph.parts") as graph:
    ...     print(graph)
    <hdt.parts.Graph of 3 triples in 3 parts: graph.parts>
    """
    return Graph(folder, executor)


class Graph(OpenFolder):
    """A graph in parts, which is searched as one. Threads may share it: their calls run at the same time.

    Its length is the number of its triples; iterating gives them as `find` does. `(s, p, o) in graph` looks for one.
    Terms and patterns are those of `hdt.Graph`. A pattern with a subject asks one part, another one all of them. IDs of
    strings mean nothing across parts, so there are none. Once it is closed, calls raise ValueError. Calls raise
    `PartFault` if a part is not what it was when the folder was made, and `WorkerDied`.

    >>> with hdt.parts.open("graph.parts") as graph:
    ...     len(graph), ("u:a", "u:p", "u:b") in graph, sorted(graph)[0]
    (3, True, ('u:a', 'u:p', 'u:b'))
    """

    def __init__(self, folder: Path, executor: Optional[Executor] = None) -> None:
        """Open a folder. It raises what `open` raises."""
        super().__init__(folder, executor)

    def close(self) -> None:
        """Close the files of this process, each after the calls on it that run. A second call does nothing.

        >>> graph = hdt.parts.open("graph.parts")
        >>> graph.close()
        >>> graph
        <hdt.parts.Graph, closed>
        """
        self._end()

    def __enter__(self) -> Graph:
        self._check_open()
        return self

    def __exit__(self, *_: object) -> None:
        self.close()

    def __repr__(self) -> str:
        if self._files is None:
            return "<hdt.parts.Graph, closed>"
        of = f"{len(self):,} triples in {len(self._parts)} parts"
        return f"<hdt.parts.Graph of {of}: {os.path.basename(self._folder)}>"

    # ---- counts and the header

    def __len__(self) -> int:
        self._check_open()
        return self._begins[-1]

    @property
    def subjects(self) -> int:
        """How many subjects there are. Constant time.

        >>> with hdt.parts.open("graph.parts") as graph:
        ...     graph.subjects
        2
        """
        self._check_open()
        return self.manifest.subjects

    @property
    def header(self) -> bytes:
        """The header that the file of the whole graph would have.

        >>> with hdt.parts.open("graph.parts") as graph:
        ...     graph.header.splitlines()[-1]
        b'<http://example.org/dataset> <http://rdfs.org/ns/void#triples> "3" .'
        """
        base = self.manifest.base
        return f'<{base}> {_TYPE} {_DATASET} .\n<{base}> {_TRIPLES} "{len(self)}" .\n'.encode()

    def predicates(self) -> Iterator[tuple[str, int]]:
        """Iterate over the predicates in the order of their strings, each with the number of its triples.

        All parts are asked, and all predicates are in memory.

        >>> with hdt.parts.open("graph.parts") as graph:
        ...     dict(graph.predicates())
        {'u:p': 2, 'u:q': 1}
        """
        counts: dict[str, int] = {}
        for text in results(self._task(number, _files.predicates) for number in self._there):
            words = iter(text.split("\0"))
            for name, count in zip(words, words):
                counts[name] = counts.get(name, 0) + int(count)
        return iter(sorted(counts.items()))

    # ---- searches

    def matching(self, s: Given = None, p: Given = None, o: Given = None) -> int:
        """How many triples `find` gives. Raises TypeError.

        >>> with hdt.parts.open("graph.parts") as graph:
        ...     graph.matching(), graph.matching(p="u:p")
        (3, 2)
        """
        numbers = self._asked((s, p, o))
        if self._executor is None:
            return sum(self._here(number).matching(s, p, o) for number in numbers)
        return self.matching_all([(s, p, o)])[0]

    def matching_all(self, patterns: Iterable[Pattern]) -> list[int]:
        """How many triples match each pattern, by one task for each part. Raises TypeError.

        >>> with hdt.parts.open("graph.parts") as graph:
        ...     graph.matching_all([("u:a", None, None), (None, "u:q", None)])
        [2, 1]
        """
        asked: dict[int, list[tuple[int, Pattern]]] = {}
        count = 0
        for count, pattern in enumerate(patterns, 1):
            for number in self._asked(pattern):
                asked.setdefault(number, []).append((count - 1, pattern))
        tasks = [self._task(number, _files.matching, [it for _, it in of_it]) for number, of_it in asked.items()]
        sums = [0] * count
        for of_it, found in zip(asked.values(), results(tasks)):
            for (at, _), matching in zip(of_it, found):
                sums[at] += matching
        return sums

    def __contains__(self, triple: object) -> bool:
        terms = triple_of(triple)
        return terms is not None and self.matching(*terms) > 0

    def find(
        self,
        s: Given = None,
        p: Given = None,
        o: Given = None,
        *,
        limit: Optional[int] = None,
        start: int = 0,
        order: Order = "parts",
    ) -> Iterator[StringTriple]:
        """Iterate over the triples that have each given term, each once: at most `limit`, without the first `start`.

        They come part by part, in the order of each file, or, with `order="strings"`, in that of their strings, which
        is one order whatever the number of parts. Errors: TypeError, ValueError for a negative number or another order.

        The time is linear in the triples, times the logarithm of the parts for an order of strings, and `start` of them
        are passed over there. A page of the triples of each of some parts is in memory, of up to 16,384; for an order
        of strings two of each part, and the triples of a subject with a predicate.

        >>> with hdt.parts.open("graph.parts") as graph:
        ...     list(graph.find("u:a")), list(graph.find(order="strings", start=2))
        ([('u:a', 'u:p', 'u:b'), ('u:a', 'u:q', '"x"')], [('u:b', 'u:p', 'u:a')])
        """
        if order not in ("parts", "strings"):
            raise ValueError('order is "parts" or "strings"')
        (first, most), pattern = window(start, limit), (s, p, o)
        numbers = self._asked(pattern)
        if order == "strings":
            return islice(self._by_strings(numbers, pattern), first, None if most is None else first + most)
        return islice(self._by_parts(numbers, pattern, first, most), most)

    def __iter__(self) -> Iterator[StringTriple]:
        return self.find()

    def position(self, s: Given = None, p: Given = None, o: Given = None, *, skip: int = 0) -> Optional[int]:
        """The position of the match after `skip` others, for `page`, or None if there are no more.

        Errors: TypeError, ValueError for a negative number. The parts before it are asked for their counts.

        >>> with hdt.parts.open("graph.parts") as graph:
        ...     graph.position("u:a"), graph.position("u:a", skip=2)
        (1, None)
        """
        (first, _), pattern = window(skip, None), (s, p, o)
        numbers, left = self._after(self._asked(pattern), pattern, first)
        if not numbers:
            return None
        found = self._task(numbers[0], _files.position, pattern, left).result()
        return None if found is None else self._begins[numbers[0]] + found

    def page(
        self, s: Given = None, p: Given = None, o: Given = None, *, start: int = 0, limit: int = 100
    ) -> tuple[list[StringTriple], Optional[int]]:
        """The triples of `find` from position `start` on, at most `limit`, and where the next page begins.

        The position of a triple is its index among those of all parts, in their order, from 0. The second value is the
        position of the next match, or None if there are no more. A page takes the same time wherever it is, but parts
        without a match are asked, too. Errors: those of `find`.

        >>> with hdt.parts.open("graph.parts") as graph:
        ...     page, following = graph.page(p="u:p", limit=1)
        ...     page + graph.page(p="u:p", start=following)[0] == list(graph.find(p="u:p"))
        True
        """
        (first, most), pattern = window(start, index(limit)), (s, p, o)
        room, found = most or 0, list[StringTriple]()
        numbers = [number for number in self._asked(pattern) if first < self._begins[number + 1]]

        def task(number: int, at: Optional[int] = None) -> Task[Page]:
            begin = max(first - self._begins[number], 0) if at is None else at
            return self._task(number, _files.page, pattern, begin, min(room - len(found), MOST))

        for number, asked in self._each(numbers, task):
            text, following = asked.result()
            triples = list(triples_of(text))
            if len(triples) > room - len(found):  # (it was asked before others had been found)
                text, following = task(number).result()
                triples = list(triples_of(text))
            found += triples
            while following is not None:
                if len(found) == room:
                    return found, self._begins[number] + following
                text, following = task(number, following).result()
                found += triples_of(text)
        return found, None

    # ---- text

    def text(self, s: Given = None, p: Given = None, o: Given = None, *, order: Order = "parts") -> str:
        """Return the triples of `find` as N-Triples, one a line.

        Errors: those of `find`; `hdt.NotATerm`, or ValueError in an order of strings, for a string that has no form in
        N-Triples, which only files of other programs have.

        >>> with hdt.parts.open("graph.parts") as graph:
        ...     print(graph.text("u:a"), end="")
        <u:a> <u:p> <u:b> .
        <u:a> <u:q> "x" .
        """
        if order == "parts":
            return "".join(self.text_pieces(s, p, o))
        spelled = lru_cache(MOST)(_spelled)
        return "".join(f"{spelled(a)} {spelled(b)} {spelled(c)} .\n" for a, b, c in self.find(s, p, o, order=order))

    def text_pieces(self, s: Given = None, p: Given = None, o: Given = None) -> Iterator[str]:
        """Iterate over the text of `text` in pieces of whole lines, none of them empty.

        With an executor a piece is the text of a part, some of which are in memory; else it is one of
        `hdt.Graph.text_pieces`. Errors: those of `text`.

        >>> with hdt.parts.open("graph.parts") as graph:
        ...     sum(map(len, graph.text_pieces()))
        58
        """
        pattern = (s, p, o)
        numbers = self._asked(pattern)
        if self._executor is None:
            return chain.from_iterable(self._here(number).text_pieces(*pattern) for number in numbers)
        texts = self._each(numbers, lambda number: self._task(number, _files.text, pattern))
        return filter(None, (task.result() for _, task in texts))

    def write_text(self, file: IO[Any], s: Given = None, p: Given = None, o: Given = None) -> None:
        """Write the text of `text` to a file that is open for bytes, as UTF-8, or for text, piece by piece.

        Errors: those of `text`, and what the file raises.

        >>> import io
        >>> written = io.BytesIO()
        >>> with hdt.parts.open("graph.parts") as graph:
        ...     graph.write_text(written, o='"x"')
        >>> written.getvalue()
        b'<u:a> <u:q> "x" .\\n'
        """
        is_text = isinstance(file, io.TextIOBase)
        for piece in self.text_pieces(s, p, o):
            file.write(piece if is_text else piece.encode())

    # ---- checks

    def verify(self) -> None:
        """Check the files as they are on the disk now, and that each subject is in its part.

        Raises `PartFault` for the first part that is missing, damaged, or another one. The time is linear in the files.

        >>> with hdt.parts.open("graph.parts") as graph:
        ...     graph.verify()
        """
        self._check_open()
        checks = (
            Task(self._executor, self._parts[n].file, _files.verify, self._folder, self._parts[n], n, len(self._parts))
            for n in self._there
        )
        for _ in results(checks):
            pass


def _spelled(string: str) -> str:
    return hdt.Term.parse(string).format_ntriples()
