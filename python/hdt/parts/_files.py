"""The open files of parts in a process, and the calls on one of them.

Tasks name a file by its folder and its row of the manifest, and give numbers and text, so that they may run anywhere.
"""

from __future__ import annotations

import hashlib
import os
import re
from collections import OrderedDict
from collections.abc import Callable, Iterator, Sequence
from typing import Any, Optional, TypeVar

import hdt
from hdt import _regular as regular
from hdt._calls import Given
from hdt._forks import Locked
from hdt.parts._errors import PartFault
from hdt.parts._manifest import Part, part_of

Pattern = tuple[Given, Given, Given]
Page = tuple[str, Optional[int]]  # see `page`
T = TypeVar("T")

_MOST_OPEN = 256  # files that a process of an executor keeps open
_IN_HEADER = re.compile(rb"[#-]part-(\d{1,5})-of-\d{1,5}>")


def read(folder: str, part: Part) -> Any:
    """The bytes of the file of a part, of which there are as many as its row says. Raises PartFault."""
    try:
        with regular.opened(os.path.join(folder, part.file)) as file:
            size = os.fstat(file.fileno()).st_size
            if size == part.bytes:
                return regular.data_of(file)
    except FileNotFoundError:
        raise PartFault(part.file, "is missing") from None
    except OSError as error:
        raise PartFault(part.file, f"can't be read: {error.strerror}") from None
    raise PartFault(part.file, f"has {size:,} bytes, not {part.bytes:,}")


def opened(folder: str, part: Part) -> hdt.Graph:
    """The file of a part, newly opened and checked against its row. Raises PartFault, MemoryError."""
    data = read(folder, part)
    try:
        graph = hdt.Graph(data)
    except hdt.Fault as fault:
        raise PartFault(part.file, f"is damaged: {fault}") from None
    if hashlib.sha256(data).hexdigest() != part.sha256:
        found = _IN_HEADER.search(graph.header)
        number, here = found and int(found[1]), int(part.file[5:10])
        raise PartFault(part.file, f"is the file of part {number}" if number not in (None, here) else "is another file")
    if graph.counts != part.counts:
        raise PartFault(part.file, "has other counts than the manifest says")
    return graph


class OpenFiles(Locked):
    """Files that are open, by their paths and SHA-256, at most so many: those that were used last.

    Threads may share it. A file that is replaced in its folder stays open here as it was.
    """

    def __init__(self, most: int) -> None:
        super().__init__()
        self._most = most
        self._graphs: OrderedDict[tuple[str, str, str], hdt.Graph] = OrderedDict()

    def graph(self, folder: str, part: Part) -> hdt.Graph:
        """The open file of a part. Raises what `opened` raises."""
        key = folder, part.file, part.sha256
        with self._lock:
            graph = self._graphs.get(key)
            if graph is not None:
                self._graphs.move_to_end(key)
                return graph
        graph = opened(folder, part)
        with self._lock:
            graph = self._graphs.setdefault(key, graph)
            while len(self._graphs) > self._most:
                self._graphs.popitem(last=False)  # (closed once no call uses it)
        return graph

    def close(self) -> None:
        """Close all files."""
        with self._lock:
            graphs, self._graphs = list(self._graphs.values()), OrderedDict()
        for graph in graphs:
            graph.close()


_kept = OpenFiles(_MOST_OPEN)


def run(folder: str, part: Part, call: Callable[..., T], *parameters: Any) -> T:
    """A task: a call on the open file of a part, whose parameters come after it."""
    return call(_kept.graph(folder, part), *parameters)


# ---- calls


def matching(graph: hdt.Graph, patterns: Sequence[Pattern]) -> list[int]:
    """How many triples match each pattern."""
    return [graph.matching(*pattern) for pattern in patterns]


def page(
    graph: hdt.Graph, pattern: Pattern, start: int, limit: int, stop: Optional[int] = None
) -> Page:
    """A page of matches from a position on, and where the next one begins; None after the last one.

    With `stop`, which is what `only_subjects` gives, matches from there on are left out. Their strings are one text,
    with U+0000, which no string has, between them: lists of tuples take long to send.
    """
    triples, following = graph.page(*pattern, start=start, limit=limit)
    if stop is not None and (following is None or following >= stop):
        last = graph.counts.shared
        shared = {s for s in {triple[0] for triple in triples} if (graph.number("subject", s) or 0) <= last}
        triples, following = [triple for triple in triples if triple[0] in shared], None
    return "\0".join(string for triple in triples for string in triple), following


def position(graph: hdt.Graph, pattern: Pattern, skip: int) -> Optional[int]:
    """The position of the match after `skip` others, or None if there are no more."""
    return graph.position(*pattern, skip=skip)


def only_subjects(graph: hdt.Graph) -> Optional[int]:
    """The position of the first triple whose subject isn't an object, or None if each is."""
    shared = graph.counts.shared
    return graph.position(s=shared + 1) if shared < graph.count("subject") else None


def has(graph: hdt.Graph, role: hdt.Role, term: str) -> bool:
    """Whether a role has a term."""
    return graph.number(role, term) is not None


def text(graph: hdt.Graph, pattern: Pattern) -> str:
    """The matches as N-Triples."""
    return graph.text(*pattern)


def predicates(graph: hdt.Graph) -> str:
    """The predicates, each with the number of its triples after it, as `page` has strings."""
    return "\0".join(f"{string}\0{count}" for string, count in graph.predicates())


def strings_with_prefix(graph: hdt.Graph, prefix: str, role: hdt.Role) -> str:
    """The strings of a role that begin with a prefix, as `page` has them."""
    return "\0".join(each for ids in graph.ids_with_prefix(prefix, role) for each in graph.strings(role, ids))


def verify(folder: str, part: Part, number: int, parts: int) -> None:
    """A task: check the file of a part as it is on the disk, and that its subjects belong there. Raises PartFault."""
    with opened(folder, part) as graph:
        for subject in _subjects(graph):
            if part_of(subject, parts) != number:
                raise PartFault(part.file, f"has the subject {subject!r} of part {part_of(subject, parts)}")


def _subjects(graph: hdt.Graph) -> Iterator[str]:
    return graph.terms("subject")
