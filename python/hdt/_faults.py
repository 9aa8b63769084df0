"""Errors in a file, a text or a string, as exceptions; the names are those of docs/FORMAT.md and docs/NTRIPLES.md."""

from __future__ import annotations

import ctypes
from typing import Any, Optional

from ._documented import Documented
from ._library import library

_NAME_ROOM = 32  # HDT_NAME_ROOM of c/hdt.h


def _name(call: Any, reason: int) -> str:
    """The name of a reason by a call of the library; "Unknown" for a number that it has no name for."""
    room = ctypes.create_string_buffer(_NAME_ROOM)
    call(reason if 0 <= reason < 2**32 else 0, room, _NAME_ROOM - 1)
    return room.value.decode() or "Unknown"


def _of(path: Optional[str], what: str) -> str:
    return what if path is None else f"{path}: {what}"


class Fault(ValueError, metaclass=Documented):
    """The input is not a valid HDT file.

    `reason` is the number of its first error in docs/FORMAT.md, `name` that reason's name, and `place` its byte offset.
    `path` is that of the file, None for bytes.

    >>> hdt.verify("graph.nt")
    Traceback (most recent call last):
    hdt.Fault: graph.nt: fault 4 NotHdt at 0
    """

    def __init__(self, reason: int, place: int, path: Optional[str] = None) -> None:
        self.reason = reason
        self.name = _name(library.hdt_reason_name, reason)
        self.place = place
        self.path = path
        super().__init__(_of(path, f"fault {reason} {self.name} at {place}"))

    def __reduce__(self) -> tuple[type, tuple[Any, ...]]:
        return type(self), (self.reason, self.place, self.path)


class LineFault(ValueError, metaclass=Documented):
    """The input is not valid N-Triples.

    `reason` is the number of its first error in docs/NTRIPLES.md, `name` that reason's name; `line` and `column` say
    where it is, both from 1. Columns count bytes. `path` is that of the text, None for bytes.

    >>> hdt.build("graph.hdt", "other.hdt", syntax="nt")
    Traceback (most recent call last):
    hdt.LineFault: graph.hdt: line 1 column 1: 1 Syntax
    """

    def __init__(self, reason: int, line: int, column: int, path: Optional[str] = None) -> None:
        self.reason = reason
        self.name = _name(library.hdt_text_reason_name, reason)
        self.line = line
        self.column = column
        self.path = path
        super().__init__(_of(path, f"line {line} column {column}: {reason} {self.name}"))

    def __reduce__(self) -> tuple[type, tuple[Any, ...]]:
        return type(self), (self.reason, self.line, self.column, self.path)


class NoTriples(ValueError, metaclass=Documented):
    """A text without triples, of which no file is made. `path` is that of the text, None for several texts.

    >>> hdt.build("/dev/null", "other.hdt")
    Traceback (most recent call last):
    hdt.NoTriples: /dev/null: no triples
    """

    def __init__(self, what: str = "no triples", path: Optional[str] = None) -> None:
        self.path = path
        super().__init__(_of(path, what))


class NotATerm(ValueError, metaclass=Documented):
    """A string of a graph that has no form in N-Triples: the one with this `number`, its ID, in this `role`.

    `path` is that of the file, if a call was given several.

    >>> print(hdt.NotATerm("object", 3))
    object 3 is not a term
    """

    def __init__(self, role: str, number: int, path: Optional[str] = None) -> None:
        self.role = role
        self.number = number
        self.path = path
        super().__init__(_of(path, f"{role} {number} is not a term"))

    def __reduce__(self) -> tuple[type, tuple[Any, ...]]:
        return type(self), (self.role, self.number, self.path)


class ConversionFault(ValueError, metaclass=Documented):
    """An input that isn't N-Triples could not be converted, as it is faulty or the converter failed.

    `path` names the input (None for a file without a name), `line` its line, None if the converter doesn't say it.
    `converter` is the name of the program, and `message` what it said.

    >>> hdt.build("graph.nt", "other.hdt", syntax="jsonld")
    Traceback (most recent call last):
    hdt.ConversionFault: graph.nt: line 1: rdflib: Expecting value: line 1 column 1 (char 0)
    """

    def __init__(self, path: Optional[str], line: Optional[int], converter: str, message: str) -> None:
        self.path, self.line, self.converter, self.message = path, line, converter, message
        where = "" if line is None else f"line {line}: "
        super().__init__(_of(path, f"{where}{converter}: {message}"))

    def __reduce__(self) -> tuple[type, tuple[Any, ...]]:
        return type(self), (self.path, self.line, self.converter, self.message)


class NoConverter(RuntimeError, metaclass=Documented):
    """Nothing here can read an input: the message names its syntax or compression, and packages that can.

    >>> print(hdt.NoConverter("a.ttl: reading Turtle needs serdi, rapper or rdflib"))
    a.ttl: reading Turtle needs serdi, rapper or rdflib
    """
