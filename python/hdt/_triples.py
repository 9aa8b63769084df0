"""Triples in memory, as text: of dictionary strings, of terms, of N-Triples."""

from __future__ import annotations

from collections.abc import Iterable, Iterator
from functools import lru_cache
from typing import Any, Optional

from ._quads import Graphs
from ._terms import Term, string_of

_SIZE = 64 * 1024  # characters of a piece of text
_SHORT = 200  # characters: the text of a longer term isn't kept
_DEFAULT_GRAPH = "urn:x-rdflib:default"


def is_statement(it: object) -> bool:
    """Whether a string looks like a line of N-Triples with a triple, and so not like a path."""
    if type(it) is not str:
        return False
    text = it.strip()
    return text.startswith(("<", "_:")) and text.endswith(".")


def is_triple(it: object) -> bool:
    """Whether it looks like a triple: a line of N-Triples, or three or four terms in a tuple."""
    return is_statement(it) or isinstance(it, tuple) and len(it) in (3, 4)


def text_of(triples: Iterable[Any], graphs: Graphs) -> Iterator[bytes]:
    """The N-Triples of triples, in pieces of some 64 KiB. Named graphs of fours are noted in `graphs`.

    Raises TypeError and ValueError for what is no triple, with its number, and what the iterable raises. Each takes the
    time of its text.
    """
    lines: list[str] = []
    size = 0
    for number, it in enumerate(triples, 1):
        try:
            line = _line(it, graphs)
            line.encode()
        except (TypeError, ValueError) as error:
            raise type(error)(f"triple {number}: {error}") if type(error) in (TypeError, ValueError) else ValueError(
                f"triple {number}: {error}") from error
        lines.append(line)
        size += len(line)
        if size >= _SIZE:
            yield "".join(lines).encode()
            lines, size = [], 0
    yield "".join(lines).encode()


def _line(it: Any, graphs: Graphs) -> str:
    if type(it) is str:
        return it if it.endswith("\n") else it + "\n"
    if not isinstance(it, tuple) or len(it) not in (3, 4):
        raise TypeError(f"a triple is a tuple of three terms or a line of N-Triples, not {type(it).__name__}")
    if len(it) == 4:
        _note(it[3], graphs)
    s, p, o = it[:3]
    spelled = _is_bracketed(p)
    return f"{_term(s, spelled)} {_term(p, spelled)} {_term(o, spelled)} .\n"


def _is_bracketed(predicate: object) -> bool:
    """Whether a predicate is N-Triples, with brackets, which no dictionary string has: so are the strings beside it."""
    return type(predicate) is str and predicate.startswith("<")


def _note(graph: Any, graphs: Graphs) -> None:
    """Note the graph of a quad of rdflib; None and its default graph are none."""
    name: Any = getattr(graph, "identifier", graph)
    if name is not None and str(name) != _DEFAULT_GRAPH:
        graphs.add(str(name))


def _term(term: Any, spelled: bool) -> str:
    if spelled and type(term) is str:
        return _checked(term) if len(term) < _SHORT else _checked.__wrapped__(term)
    string = string_of(term)
    return _formatted(string) if len(string) < _SHORT else _formatted.__wrapped__(string)


@lru_cache(maxsize=32_768)
def _checked(text: str) -> str:
    return Term.parse_ntriples(text).format_ntriples()


@lru_cache(maxsize=32_768)
def _formatted(string: str) -> str:
    return Term.parse(string).format_ntriples()


def first_of(given: Iterable[Any]) -> tuple[Optional[Any], Iterator[Any]]:
    """The first item of an iterable, or None if it is empty, and all items."""
    items = iter(given)
    for first in items:
        return first, _with(first, items)
    return None, items


def _with(first: Any, items: Iterator[Any]) -> Iterator[Any]:
    yield first
    yield from items
