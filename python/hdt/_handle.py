"""An open graph as the library has it: the calls on one."""

from __future__ import annotations

import array
from ctypes import c_size_t, c_uint64
from collections.abc import Iterable, Iterator
from typing import Any, Optional

from . import _library
from ._calls import ROLES, IdTriple, Pattern, bracketed, encoded, is_bracketed, packed_ids, pattern_of
from ._faults import NotATerm
from ._handles import Handles
from ._ids import rows
from ._library import Made, Ranges, TextResult, library

_PORTION = 4_096  # strings of a role that are looked up at once at most,
_FIRST_PORTION = 64  # at first,
_PORTION_BYTES = 1024 * 1024  # and as long as they take no more than this
_FIRST_MATCHES = 64  # matches of the first page of a search; each page has four times as many as the one before,
_MOST_MATCHES = 4_096  # up to this (more take new memory of the system each time, in a fifth more time for each)
_LARGEST = 2**64 - 1
_LINES = 1_024  # of a piece of text
_ZERO = array.array("Q", [0])


def _cut(text: str, ends: list[int]) -> list[str]:
    """The strings of bytes of UTF-8, of which each is a character here, that end there, one after another."""
    strings = [text[start:end] for start, end in zip([0, *ends], ends)]
    if text.isascii():
        return strings
    return [it if it.isascii() else it.encode("latin-1").decode() for it in strings]


def _answer(answer: int) -> Optional[int]:
    """The result of a call of the library, or None if it found nothing. Raises MemoryError."""
    if answer < _library.CLOSED:
        return answer
    if answer == _library.NO_MEMORY:
        raise MemoryError
    return None


class OpenHandle(Handles):
    """The calls of the library on an open graph, with Python's values. Threads may make them at the same time."""

    def _asked(self, call: Any, *parameters: Any) -> Optional[int]:
        """The result of a call on this graph, or None if it found nothing. Raises MemoryError."""
        return _answer(self._call(call, parameters))

    def _text_made(self, made: Made, call: Any, *parameters: Any) -> str:
        """The text that a call makes. Raises NotATerm, MemoryError."""
        outcome = TextResult()
        self._call(call, (*parameters, outcome))
        if outcome.reason == _library.OUT_OF_MEMORY:
            raise MemoryError
        if outcome.reason == _library.NOT_A_TERM:
            raise NotATerm(ROLES[outcome.role], outcome.number)
        return str(made.view(), "utf-8")

    # ---- strings

    def _count(self, role: int) -> int:
        """How many strings a role has. Raises ValueError once the graph is closed."""
        self._check_open()
        counts = self._counts
        return (counts.shared + counts.subjects, counts.predicates, counts.shared + counts.objects)[role]

    def _string(self, role: int, number: int) -> Optional[bytes]:
        """The bytes of the string with an ID, or None if no string has it."""
        return self._put(library.hdt_string, role, c_uint64(number if 0 <= number < 2**64 else 0))

    def _number(self, role: int, string: bytes) -> Optional[int]:
        """The ID of a string in a role, or None if the role doesn't have it."""
        return _answer(self._call(library.hdt_number, (role, string, c_size_t(len(string))), is_brief=True))

    def _strings(self, role: int, numbers: Iterable[int]) -> Optional[list[str]]:
        """The strings of these IDs, in their order, or None if one of the IDs has no string."""
        try:
            ids = array.array("Q", numbers)
        except OverflowError:
            ids = array.array("Q", [0])
        count = len(ids)
        ids.append(0)  # (one more than there are, as an empty array has no address)
        ends = array.array("Q", bytes(8 * len(ids)))
        with Made() as made:
            given, places = ids.buffer_info()[0], ends.buffer_info()[0]
            if self._asked(library.hdt_strings, role, given, count, made, places, count) is None:
                return None
            text = str(made.view(), "latin-1")  # (a character a byte, as the ends are those of bytes)
        ends.pop()
        return _cut(text, ends.tolist())

    def _portions_of_all(self, role: int, count: int) -> Iterator[list[str]]:
        """All strings of a role, which are so many, in portions."""
        first, size = 1, _FIRST_PORTION
        while first <= count:
            strings = self._strings(role, range(first, min(first + size, count + 1))) or []
            yield strings
            first += size
            size = min(4 * size, _PORTION) if sum(map(len, strings)) < _PORTION_BYTES else max(size // 4, 1)

    def _with_prefix(self, role: int, prefix: bytes) -> list[range]:
        """The IDs of the strings that begin with a prefix, as ranges, of which none is empty."""
        ranges = Ranges()
        self._asked(library.hdt_prefix, role, prefix, len(prefix), ranges)
        return [ids for ids in (range(*ranges.first), range(*ranges.second)) if ids]

    def _by_predicate(self) -> array.array[int]:
        """The number of triples of each predicate, by ID."""
        counts = _ZERO * self._counts.predicates
        self._asked(library.hdt_predicates, counts.buffer_info()[0], len(counts))
        return counts

    # ---- searches

    def _checked(self, pattern: Pattern) -> Pattern:
        """The same pattern. Raises ValueError if a string of it has brackets, and its role doesn't have the string."""
        for role, part in enumerate(pattern.parts):
            if isinstance(part, str) and is_bracketed(part) and self._number(role, encoded(part)) is None:
                raise bracketed(part)
        return pattern

    def _matching(self, pattern: Pattern) -> int:
        """How many triples match."""
        return self._asked(library.hdt_pattern_matching, pattern.packed) or 0

    def _matches(self, pattern: Pattern, skip: int, room: int) -> array.array[int]:
        """The matches after the first `skip` ones, at most `room`: three IDs each, one after another."""
        found = _ZERO * (3 * room or 1)
        at = min(skip, _LARGEST)
        got = self._asked(library.hdt_pattern_find, pattern.packed, at, found.buffer_info()[0], room) or 0
        del found[3 * got :]
        return found

    def _page(self, pattern: Pattern, start: int, room: int) -> tuple[array.array[int], Optional[int]]:
        """At most `room` matches from a position on, and the position of the next one, or None if there are no more."""
        room = min(room, max(self._counts.triples - start, 0))
        page, following = _ZERO * (3 * room or 1), _ZERO[:]
        places = page.buffer_info()[0], room, following.buffer_info()[0]
        got = self._asked(library.hdt_page, pattern.packed, min(start, _LARGEST), *places) or 0
        del page[3 * got :]
        return page, None if following[0] == _library.ABSENT else following[0]

    def _first_ids(
        self, s: Optional[int], p: Optional[int], o: Optional[int], room: int
    ) -> tuple[list[IdTriple], bool]:
        """The first matches of IDs that this graph gave, at most `room`, and whether there are more.

        It is for callers that make thousands of small searches: `page_ids`, which checks, takes half as long again.
        """
        page = _ZERO * (3 * room + 1)  # (the position of the next match is behind them)
        at = page.buffer_info()[0]
        got = self._asked(library.hdt_page, packed_ids(s, p, o), 0, at, room, at + 24 * room) or 0
        return list(rows(page[: 3 * got])), page[-1] != _library.ABSENT

    def _position(self, pattern: Pattern, skip: int, start: int = 0) -> Optional[int]:
        """The position of the match after `skip` others from a position on, or None if there are no more.

        If the matches follow one another in the file, it is `skip` positions after the first one. Else so many are
        walked over.
        """
        first = self._page(pattern, start, 0)[1]
        if first is None or not skip:
            return first
        s, p, o = (part is not None for part in pattern.parts)
        if s >= p >= o:
            return first + skip if self._page(pattern, first + skip, 0)[1] == first + skip else None
        if not start:
            match = self._matches(pattern, skip, 1)
            return self._page(pattern_of(*match), 0, 0)[1] if match else None
        while skip and first is not None:
            page, first = self._page(pattern, first, min(skip, _MOST_MATCHES))
            skip -= len(page) // 3
        return first

    def _pages(
        self, pattern: Pattern, skip: int, limit: Optional[int], most: int = _MOST_MATCHES
    ) -> Iterator[array.array[int]]:
        """The matches after the first `skip` ones, at most `limit`, in pages of at most `most`, none of them empty."""
        left = self._counts.triples if limit is None else limit
        start = self._position(pattern, skip) if skip else 0
        room = _FIRST_MATCHES
        while left > 0 and start is not None:
            page, start = self._page(pattern, start, min(room, left))
            if page:
                yield page
            left, room = left - len(page) // 3, min(4 * room, most)

    def _page_of_all(self, pattern: Pattern, skip: int, limit: Optional[int]) -> array.array[int]:
        """The matches after the first `skip` ones, at most `limit`, as one page."""
        count = max(self._matching(pattern) - skip, 0)
        return self._matches(pattern, skip, count if limit is None else min(limit, count))

    def _text(self, pattern: Pattern) -> str:
        """The matches as N-Triples. Raises NotATerm."""
        with Made() as made:
            return self._text_made(made, library.hdt_pattern_text, pattern.packed, made)

    def _page_text(self, pattern: Pattern, start: int, most: int) -> tuple[str, Optional[int]]:
        """The text of the matches from a position on, at most so many, and the position of the next one."""
        following, window = _ZERO[:], (min(start, _LARGEST), min(most, _LARGEST))
        with Made() as made:
            places = made, following.buffer_info()[0]
            text = self._text_made(made, library.hdt_page_text, pattern.packed, *window, *places)
        return text, None if following[0] == _library.ABSENT else following[0]

    def _pieces(self, pattern: Pattern) -> Iterator[str]:
        """The text of the matches, in pieces of `_LINES` lines."""
        start: Optional[int] = 0
        while start is not None:
            piece, start = self._page_text(pattern, start, _LINES)
            if piece:
                yield piece
