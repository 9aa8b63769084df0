"""What calls of the library take and give, as Python's values: roles, terms, patterns, counts and errors."""

from __future__ import annotations

import array
import operator
import os
import struct
from typing import Any, Literal, NamedTuple, Optional, Union

from . import _library
from ._documented import DocumentedABC
from ._faults import Fault, LineFault, NoTriples
from ._library import Report
from ._terms import Term, string_of

Path = Union[str, bytes, "os.PathLike[str]", "os.PathLike[bytes]"]
Role = Literal["subject", "predicate", "object"]
IdTriple = tuple[int, int, int]
StringTriple = tuple[str, str, str]
# A place of a pattern: a dictionary string, a term that has one, or any.
Given = Union[str, Term, None]
# The same, or the ID of a string in the role of the place.
Part = Union[str, Term, int, None]

ROLES: tuple[Role, Role, Role] = ("subject", "predicate", "object")
_PARTS = struct.Struct("IQQQ" * 3)  # an hdt_pattern
_NOTHING = array.array("B", [0])  # where a part that is no string points to
_ADDRESS = _NOTHING.buffer_info()[0]
_ANY = (_library.ANY, 0, _ADDRESS, 0)
_ANY_OR_ID = (_library.ANY, _library.ID)


class _Fields(NamedTuple):
    triples: int
    shared: int
    subjects: int
    predicates: int
    objects: int


class Counts(_Fields, metaclass=DocumentedABC):
    """The counts of a file: triples, strings that are subjects and objects, subjects only, predicates, objects only.

    >>> hdt.verify("graph.hdt")
    Counts(triples=3, shared=2, subjects=0, predicates=2, objects=1)
    """

    __slots__ = ()


def role_number(role: Role) -> int:
    """A role as the library takes it. Raises ValueError for another word."""
    try:
        return ROLES.index(role)
    except ValueError:
        raise ValueError(f"no such role: {role!r}") from None


def encoded(text: str) -> bytes:
    """A text's bytes. One that isn't Unicode, as half of a pair, gets bytes that no string of a file has."""
    if not isinstance(text, str):
        raise TypeError(f"a str is wanted, not {type(text).__name__}")
    return text.encode("utf-8", "surrogatepass")


def triple_of(it: object) -> Optional[tuple[Given, Given, Given]]:
    """Three terms; None for anything else."""
    is_triple = isinstance(it, tuple) and len(it) == 3 and all(isinstance(term, (str, Term)) for term in it)
    return it if is_triple else None  # type: ignore[return-value]


def is_bracketed(term: str) -> bool:
    """Whether a term looks like an IRI of N-Triples, with brackets: no string of a dictionary that has terms only."""
    return term[:1] == "<" and term[-1:] == ">"


def bracketed(term: str) -> ValueError:
    """What a search for such a term raises."""
    return ValueError(f"a dictionary string has no brackets: write {term[1:-1]!r} for {term!r}")


class Pattern(NamedTuple):
    """A pattern as calls take it: the bytes of an hdt_pattern, which point to the strings, and its parts."""

    packed: bytes
    parts: list[Union[str, int, None]]
    strings: list[array.array[int]]


def pattern_of(*given: Part) -> Pattern:
    """The pattern of three parts: terms, IDs or any. An ID of no string matches nothing.

    Raises TypeError, and ValueError for what is no term, but looks like any.
    """
    fields: list[int] = []
    parts: list[Union[str, int, None]] = []
    strings = []
    for part in given:
        if part is None:
            fields += _ANY
            parts.append(None)
        elif isinstance(part, (str, Term)):
            term = string_of(part)
            if term in ("", "?"):
                raise ValueError(f"{term!r} is not a term: None matches any")
            string = array.array("B", encoded(term) + b"\0")  # (an empty array has no address)
            fields += (_library.STRING, 0, string.buffer_info()[0], len(string) - 1)
            parts.append(term)
            strings.append(string)
        else:
            number = operator.index(part)
            fields += (_library.ID, number if 0 <= number < 2**64 else 0, _ADDRESS, 0)
            parts.append(number)
    return Pattern(_PARTS.pack(*fields), parts, strings)


def packed_ids(s: Optional[int], p: Optional[int], o: Optional[int]) -> bytes:
    """The bytes of an hdt_pattern of IDs that a graph gave, or any: without checks, in a third of the time."""
    return _PARTS.pack(
        _ANY_OR_ID[s is not None], s or 0, _ADDRESS, 0,
        _ANY_OR_ID[p is not None], p or 0, _ADDRESS, 0,
        _ANY_OR_ID[o is not None], o or 0, _ADDRESS, 0,
    )


def matched(*given: Given) -> Pattern:
    """The pattern of three terms, of which None is any. It raises what `pattern_of` raises."""
    return pattern_of(*(None if term is None else string_of(term) for term in given))


def window(start: int, limit: Optional[int]) -> tuple[int, Optional[int]]:
    """Where a search begins, and how much it gives at most; None is all.

    Raises ValueError for a negative number, or TypeError for no integer.
    """
    first, most = operator.index(start), None if limit is None else operator.index(limit)
    if first < 0 or (most is not None and most < 0):
        raise ValueError("start or limit is negative")
    return first, most


def closed() -> ValueError:
    """What calls on a closed graph raise."""
    return ValueError("the graph is closed")


def counts_of(answer: Any, path: Optional[Path] = None) -> Counts:
    """The counts of a verdict or report that is done; else what its reason is, as an exception, with the path."""
    if answer.reason == _library.DONE:
        return Counts(*answer.counts)
    if answer.reason == _library.OUT_OF_MEMORY:
        raise MemoryError
    if answer.reason == _library.BAD_OPTIONS:
        raise ValueError(
            "the base is not an absolute IRI" if isinstance(answer, Report) else "the block size isn't 1 to 65535"
        )
    name = None if path is None else os.fsdecode(path)
    if answer.reason == _library.NO_TRIPLES:
        raise NoTriples(path=name)
    if isinstance(answer, Report):
        raise LineFault(answer.reason, answer.line, answer.column, name)
    raise Fault(answer.reason, answer.place, name)
