"""An open file and its calls."""

from __future__ import annotations

import io
import operator
import os
from collections.abc import Iterable, Iterator
from itertools import chain
from typing import IO, Any, Optional, Union

from ._calls import Counts, Given, IdTriple, Part, Path, Role, StringTriple
from ._calls import encoded, matched, pattern_of, role_number, triple_of, window
from ._columns import Columns
from ._documented import Documented
from ._faults import Fault
from ._files import Identity, data_of
from ._handle import OpenHandle
from ._id_searches import Ids
from ._ids import IdArray
from ._library import library
from ._terms import Term, string_of


class Graph(OpenHandle, metaclass=Documented):
    """An open file: `open` opens a path, `Graph(data)` the bytes of any object with the buffer protocol.

    These bytes are borrowed: they must not change while the graph is open. Errors: those of `open`, TypeError. The
    length of a graph is the number of its triples; iterating gives them as `find` does; `(s, p, o) in graph` looks for
    one. Once it is closed, every call but `close` raises ValueError.

    A pattern is three terms, of which None is any; calls of `ids` take IDs, too. `""`, `"?"`, and a string in brackets
    that the file lacks raise ValueError. (If a file of another program has `""` or `"?"`, `number` gives its ID.)

    Threads may share a graph, but not an iterator: their calls run at the same time. A call beside others may take
    another kilobyte, which later calls use, too, or raise MemoryError. A forked process shares its parent's graphs. A
    graph can't be copied. One that `open` made is pickled as its path and options: unpickling opens the file again, and
    raises ValueError if it is another one by then.

    >>> graph = hdt.open("graph.hdt")  # the graph of all examples below
    >>> print(graph, ("u:a", "u:p", "u:b") in graph, next(iter(graph)))
    <hdt.Graph of 3 triples: graph.hdt> True ('u:a', 'u:p', 'u:b')
    >>> with open("graph.hdt", "rb") as file: len(hdt.Graph(file.read()))
    3
    """

    _origin: Optional[tuple[str, Optional[bool], Optional[Identity]]] = None

    @classmethod
    def _of_file(cls, path: Path, copy: Optional[bool], wanted: Optional[Identity] = None) -> Graph:
        """Open a file. Raises what `open` raises, and ValueError if another one is wanted, which was pickled."""
        name, (data, identity) = os.fsdecode(path), data_of(path, copy)
        if wanted not in (None, identity):
            raise ValueError(f"{name} isn't the file that it was when the graph was pickled")
        try:
            graph = cls(data)
        except Fault as fault:
            raise Fault(fault.reason, fault.place, name) from None
        graph._origin = os.path.abspath(name), copy, identity
        return graph

    def close(self) -> None:
        """Close it and free its memory, once no other thread is in a call.

        >>> other = hdt.open("graph.hdt"); other.close(); other
        <hdt.Graph, closed>
        """
        self._end()

    def __enter__(self) -> Graph:
        self._check_open()
        return self

    def __exit__(self, *_: object) -> None:
        self.close()

    def __repr__(self) -> str:
        if self._is_closed:
            return "<hdt.Graph, closed>"
        name = f": {os.path.basename(self._origin[0])}" if self._origin else ""
        return f"<hdt.Graph of {self._counts.triples:,} triples{name}>"

    def __copy__(self, memo: object = None) -> Graph:
        raise TypeError("a Graph can't be copied: threads may share it, or the file be opened again")

    __deepcopy__ = __copy__

    def __reduce__(self) -> tuple[Any, ...]:
        self._check_open()
        if self._origin is None or self._origin[2] is None:
            raise TypeError("a Graph can't be pickled unless `open` opened it from a file that can be opened again")
        return self._of_file, self._origin

    # ---- counts and the header

    def __len__(self) -> int:
        self._check_open()
        return self._counts.triples

    @property
    def counts(self) -> Counts:
        """The counts of the file, as `verify` gives them. Constant time.

        >>> graph.counts.predicates
        2
        """
        self._check_open()
        return self._counts

    @property
    def header(self) -> bytes:
        """The header of the file, as bytes: N-Triples as a rule, but nothing checks it. Linear time.

        >>> graph.header.splitlines()[-1]
        b'<http://a/> <http://rdfs.org/ns/void#triples> "3" .'
        """
        return self._put(library.hdt_header) or b""

    def count(self, role: Role) -> int:
        """The number of a role's strings, which is their greatest ID. Constant time. Raises ValueError.

        >>> graph.count("object")
        3
        """
        return self._count(role_number(role))

    # ---- strings and their IDs

    def number(self, role: Role, term: Union[str, Term]) -> Optional[int]:
        """The ID of a term in a role, or None if it has none. It takes a binary search. Raises ValueError, TypeError.

        >>> graph.number("object", '"x"'), graph.number("object", "u:none")
        (3, None)
        """
        string = encoded(string_of(term))
        return self._number(role_number(role), string)

    def string(self, role: Role, n: int) -> str:
        """The string with an ID in a role. It decodes a block. Raises IndexError for another ID, ValueError, TypeError.

        >>> graph.string("object", 3)
        '"x"'
        """
        string = self._string(role_number(role), operator.index(n))
        if string is None:
            raise IndexError(f"there is no {role} {n}")
        return string.decode()

    def strings(self, role: Role, ids: Iterable[int]) -> list[str]:
        """The strings with these IDs in a role. It decodes a block once if the IDs ascend. Errors: those of `string`.

        >>> graph.strings("object", [1, 3]), graph.strings("subject", range(1, 3))
        (['u:a', '"x"'], ['u:a', 'u:b'])
        """
        place = role_number(role)
        numbers = ids if isinstance(ids, (list, range)) else list(ids)
        strings = self._strings(place, numbers)
        if strings is None:
            last = self.count(role)
            raise IndexError(f"there is no {role} {next(n for n in numbers if not 1 <= n <= last)}")
        return strings

    def terms(self, role: Role) -> Iterator[str]:
        """Iterate over all strings of a role, in the order of their IDs, in linear time. Raises ValueError.

        >>> list(graph.terms("object"))
        ['u:a', 'u:b', '"x"']
        """
        return chain.from_iterable(self._portions_of_all(role_number(role), self.count(role)))

    def ids_with_prefix(self, prefix: str, role: Role) -> list[range]:
        """The IDs of the strings of a role that begin with a prefix, as up to two ranges, none of them empty.

        Strings ascend within those that are a subject and an object, and within the others, which follow. Errors:
        ValueError for the role, TypeError. It takes about as long as `number`.

        >>> graph.ids_with_prefix("u:", "object"), graph.ids_with_prefix('"', "object")
        ([range(1, 3)], [range(3, 4)])
        """
        return self._with_prefix(role_number(role), encoded(prefix))

    def predicates(self) -> Iterator[tuple[str, int]]:
        """Iterate over the predicates by ID, each with the number of its triples, in at most the time of sorting them.

        >>> dict(graph.predicates())
        {'u:p': 2, 'u:q': 1}
        """
        return zip(self.terms("predicate"), self._by_predicate())

    # ---- searches

    @property
    def ids(self) -> Ids:
        """The searches by IDs: `find`, `matching`, `page` and `array`, which take and give IDs. Constant time.

        >>> graph.ids.matching(s=1), list(graph.ids.find(s=1, p="u:p"))
        (2, [(1, 1, 2)])
        """
        return Ids(self)

    def matching(self, s: Given = None, p: Given = None, o: Given = None) -> int:
        """The number of triples that `find` gives, in the time of a scan of them or less. Raises TypeError.

        >>> graph.matching(), graph.matching(p="u:p")
        (3, 2)
        """
        return self._matching(self._checked(matched(s, p, o)))

    def matching_ids(self, s: Part = None, p: Part = None, o: Part = None) -> int:
        """The older name of `ids.matching`, deprecated. Arguments and time are the same. Errors: as there.

        >>> graph.matching_ids(1, "u:q")
        1
        """
        return self.ids.matching(s, p, o)

    def __contains__(self, triple: object) -> bool:
        terms = triple_of(triple)
        return terms is not None and self.matching(*terms) > 0

    def find(
        self, s: Given = None, p: Given = None, o: Given = None, *, limit: Optional[int] = None, start: int = 0
    ) -> Iterator[StringTriple]:
        """Iterate over the triples that have each given term, in the order of the file, each once.

        They are tuples of dictionary strings, at most `limit` after `start` others. The time is linear in the triples,
        those left out and the graph's strings; the first ones come at once. It keeps up to 65,536 triples, or a 64th of
        the number of strings, with strings, and those of roles that have few (64 MiB). Errors: TypeError, ValueError.

        >>> list(graph.find("u:a")), list(graph.find(limit=1, start=2))
        ([('u:a', 'u:p', 'u:b'), ('u:a', 'u:q', '"x"')], [('u:b', 'u:p', 'u:a')])
        """
        self._check_open()
        pattern, (first, most) = self._checked(matched(s, p, o)), window(start, limit)
        return Columns(self, pattern).triples(first, most)

    def __iter__(self) -> Iterator[StringTriple]:
        return self.find()

    def find_ids(
        self, s: Part = None, p: Part = None, o: Part = None, *, limit: Optional[int] = None, start: int = 0
    ) -> Iterator[IdTriple]:
        """The older name of `ids.find`, deprecated. Arguments and time are the same. Errors: as there.

        >>> list(graph.find_ids(s=2, p=1))
        [(2, 1, 1)]
        """
        return self.ids.find(s, p, o, limit=limit, start=start)

    find_numbers = find_ids

    def id_array(
        self, s: Part = None, p: Part = None, o: Part = None, *, limit: Optional[int] = None, start: int = 0
    ) -> IdArray:
        """The older name of `ids.array`, deprecated. Arguments and time are the same. Errors: as there.

        >>> graph.id_array()
        <hdt.IdArray of 3 triples>
        """
        return self.ids.array(s, p, o, limit=limit, start=start)

    def page(
        self, s: Given = None, p: Given = None, o: Given = None, *, start: int = 0, limit: int = 100
    ) -> tuple[list[StringTriple], Optional[int]]:
        """The triples of `find` from position `start` on, at most `limit`, and where the next page begins.

        The position of a triple is its index in the file, from 0. The second value is that of the next match, or None
        if there are no more; `limit=0` gives that of the first. A page takes the same time anywhere. Errors: as `find`.

        >>> graph.page(p="u:p", limit=1), graph.page(p="u:p", limit=1, start=2)
        (([('u:a', 'u:p', 'u:b')], 2), ([('u:b', 'u:p', 'u:a')], None))
        """
        pattern, (first, most) = self._checked(matched(s, p, o)), window(start, operator.index(limit))
        ids, following = self._page(pattern, first, most or 0)
        return Columns(self, pattern).page(ids), following

    def page_ids(
        self, s: Part = None, p: Part = None, o: Part = None, *, start: int = 0, limit: int = 100
    ) -> tuple[list[IdTriple], Optional[int]]:
        """The older name of `ids.page`, deprecated. Arguments and time are the same. Errors: as there.

        >>> graph.page_ids(limit=2)
        ([(1, 1, 2), (1, 2, 3)], 2)
        """
        return self.ids.page(s, p, o, start=start, limit=limit)

    def position(
        self, s: Part = None, p: Part = None, o: Part = None, *, skip: int = 0, start: int = 0
    ) -> Optional[int]:
        """The position of the match after `skip` others from position `start` on, or None if there are no more.

        The time is linear in `skip`, but that of a page if no part follows a None. Errors: those of `find`.

        >>> graph.position(p="u:p", skip=1), graph.position("u:a", skip=2), graph.position(p="u:p", start=1)
        (2, None, 2)
        """
        return self._position(self._checked(pattern_of(s, p, o)), window(skip, None)[0], window(start, None)[0])

    def text(self, s: Given = None, p: Given = None, o: Given = None) -> str:
        """The triples of `find` as N-Triples, in memory. Errors: `NotATerm` if a string has no such form, TypeError.

        >>> graph.text("u:b")
        '<u:b> <u:p> <u:a> .\\n'
        """
        return self._text(self._checked(matched(s, p, o)))

    def page_text(
        self, s: Part = None, p: Part = None, o: Part = None, *, start: int = 0, limit: int = 100
    ) -> tuple[str, Optional[int]]:
        """The triples of `ids.page` as N-Triples, and the next start. It takes the time of `page`. Errors: as `text`.

        >>> graph.page_text(p="u:p", limit=1)
        ('<u:a> <u:p> <u:b> .\\n', 2)
        """
        first, most = window(start, operator.index(limit))
        return self._page_text(self._checked(pattern_of(s, p, o)), first, most or 0)

    def text_pieces(self, s: Given = None, p: Given = None, o: Given = None) -> Iterator[str]:
        """Iterate over the text of `text` in pieces of up to 1,024 lines, each in the time of `page`. Errors: as there.

        >>> sum(map(len, graph.text_pieces()))
        58
        """
        self._check_open()
        return self._pieces(self._checked(matched(s, p, o)))

    def write_text(self, file: IO[Any], s: Given = None, p: Given = None, o: Given = None) -> None:
        """Write the pieces of `text_pieces` to an open binary or text file, in that time. Errors: as there; the file's.

        >>> with open("some.nt", "wb") as file: graph.write_text(file, o='"x"')
        """
        is_text = isinstance(file, io.TextIOBase)
        for piece in self.text_pieces(s, p, o):
            file.write(piece if is_text else piece.encode())
