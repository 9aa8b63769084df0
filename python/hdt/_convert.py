"""Inputs of other syntaxes as N-Triples: by serdi or rapper where they are installed, else by rdflib."""

from __future__ import annotations

import importlib.util
import os
import re
import secrets
import shutil
import sys
from collections.abc import Callable, Iterable, Iterator
from contextlib import closing
from typing import NamedTuple, Optional

from ._blocks import Block, blocks_of
from ._faults import ConversionFault, LineFault, NoConverter
from ._process import ProgramFailed, piped
from ._quads import Graphs
from ._syntaxes import JSONLD, N3, NQUADS, NTRIPLES, RDFXML, TITLES, TRIG, TURTLE

_SCRIPT = os.path.join(os.path.dirname(os.path.abspath(__file__)), "_rdflib_lines.py")
_LONGEST = 200  # characters of a message
_ZERO = re.compile(rb"\0|\\u0000|\\U00000000")
_SIZE = 256 * 1024  # bytes of output that are checked at once


class Unsuited(ConversionFault):
    """An input that rapper can't convert without taking nodes for one, which rdflib can."""

    def __init__(self, path: Optional[str]) -> None:
        super().__init__(path, None, "rapper", 'it has labels as rapper makes them, as genid1: use converter="rdflib"')

    def shown(self) -> ConversionFault:
        """The error that callers get."""
        return ConversionFault(self.path, self.line, self.converter, self.message)


class Converter(NamedTuple):
    """A program that converts: its names of syntaxes, the words that run it, where its message has line and text."""

    name: str
    syntaxes: dict[str, str]
    words: Callable[[str, str], list[str]]
    message: re.Pattern[str]
    makes: Callable[[str], str]


def _serdi(syntax: str, base: str) -> list[str]:
    return ["serdi", "-b", "-i", syntax, "-o", "nquads" if syntax == "trig" else "ntriples", "-", base]


def _rapper(syntax: str, base: str) -> list[str]:
    refused = [word for option in ("noNet=1", "noFile=1", "loadExternalEntities=0") for word in ("-f", option)]
    return ["rapper", "-q", "-w", *refused, "-i", syntax, "-o", "ntriples", "-", base]


def _rdflib(syntax: str, base: str) -> list[str]:
    return [sys.executable, "-W", "ignore", _SCRIPT, syntax, base]


SERDI = Converter(
    "serdi", {TURTLE: "turtle", TRIG: "trig"}, _serdi, re.compile(r"error: .*?:(\d+):\d+: (.*)"),
    lambda syntax: NQUADS if syntax == TRIG else NTRIPLES,
)  # fmt: skip
# (of a Turtle literal rapper drops bytes that are no UTF-8, and all after U+0000; its TriG is an older one)
RAPPER = Converter(
    "rapper", {RDFXML: "rdfxml", TURTLE: "turtle"}, _rapper,
    re.compile(r"rapper: Error - (?:.*?:(\d+)(?: column \d+)?)? ?- (.*)"), lambda _: NTRIPLES,
)  # fmt: skip
RDFLIB = Converter(
    "rdflib", {TURTLE: "turtle", TRIG: "trig", RDFXML: "xml", JSONLD: "json-ld", N3: "n3"}, _rdflib,
    re.compile(r"error: (\d+): (.*)"), lambda _: NQUADS,
)  # fmt: skip
CONVERTERS = {it.name: it for it in (SERDI, RAPPER, RDFLIB)}
_PACKAGES = {
    "serdi": "the program serdi (Debian: serdi)",
    "rapper": "the program rapper (Debian: raptor2-utils)",
    "rdflib": "the Python package rdflib (pip install 'tickmarl-hdt[rdflib]'; Debian: python3-rdflib)",
}


def is_installed(name: str) -> bool:
    if name == "rdflib":
        return bool(sys.executable) and importlib.util.find_spec("rdflib") is not None
    return shutil.which(name) is not None


def check_converter(wanted: Optional[str]) -> None:
    """Raises ValueError for the name of no converter."""
    if wanted is not None and wanted not in CONVERTERS:
        raise ValueError(f"no such converter: {wanted!r}; there are {', '.join(CONVERTERS)}")


def converter_of(syntax: str, wanted: Optional[str], title: str) -> Converter:
    """The converter of a syntax: the wanted one, or the first one that is installed.

    Raises ValueError for a wanted one that doesn't read the syntax, NoConverter if none is installed.
    """
    able = [it for it in CONVERTERS.values() if syntax in it.syntaxes and wanted in (None, it.name)]
    if not able:
        raise ValueError(f"{title}: {wanted} does not read {TITLES[syntax]}")
    for it in able:
        if is_installed(it.name):
            return it
    raise NoConverter(f"{title}: reading {TITLES[syntax]} needs {', or '.join(_PACKAGES[it.name] for it in able)}")


class Conversion(NamedTuple):
    """How an input is converted: what it is called, its syntax, its base or None, and by what."""

    path: Optional[str]
    title: str
    syntax: str
    base: Optional[str]
    converter: Converter

    def blocks(self, pieces: Iterator[bytes], graphs: Graphs, longest: Optional[int]) -> Iterator[Block]:
        """The N-Triples of an input, in blocks of whole lines, not yet checked.

        Raises ConversionFault if the converter fails, or if there is a relative IRI and no base, Unsuited, LineFault
        for a line that is too long, and what `pieces` raise.
        """
        scheme = f"x{secrets.token_hex(8)}"
        base = self.base or f"{scheme}://h/"
        text, labels = pieces, _Labels(self)
        if self.converter is RAPPER:
            text = labels.read(self._utf8(pieces) if self.syntax == TURTLE else pieces)
        words = self.converter.words(self.converter.syntaxes[self.syntax], base)
        words[0] = shutil.which(words[0]) or words[0]
        environment = {"PYTHONPATH": os.pathsep.join(filter(None, sys.path)), "PYTHONIOENCODING": "utf-8"}
        try:
            variables = environment if self.converter is RDFLIB else None
            with closing(piped(words, text, variables, self.converter.message)) as found:
                lines: Iterator[Block] = blocks_of(self._unbroken(found), longest)
                if self.converter.makes(self.syntax) == NQUADS:
                    lines = graphs.triples(lines)
                for block in labels.written(lines) if self.converter is RAPPER else lines:
                    if self.base is None and b"<%s:" % scheme.encode() in block:
                        raise self.fault("it has a relative IRI and no name: give the base")
                    yield block
        except ProgramFailed as error:
            raise self._failed(error) from None

    def fault(self, message: str, line: Optional[int] = None) -> ConversionFault:
        """An error of the conversion."""
        return ConversionFault(self.path, line, self.converter.name, message)

    def _utf8(self, pieces: Iterator[bytes]) -> Iterator[bytes]:
        """The same pieces of Turtle, if they are UTF-8 without U+0000. Raises ConversionFault with the line else."""
        lines, left, end = 1, b"", b""
        for piece in pieces:
            if zero := _ZERO.search(end + piece):
                raise self.fault("it has U+0000", lines + piece[: max(zero.start() - len(end), 0)].count(b"\n"))
            text, end = left + piece, piece[-9:]
            try:
                text.decode()
                left = b""
            except UnicodeDecodeError as error:
                if error.reason != "unexpected end of data":
                    raise self.fault("not UTF-8", lines + text[: error.start].count(b"\n")) from None
                left = text[error.start :]
            lines += piece.count(b"\n")
            yield piece
        if left:
            raise self.fault("not UTF-8", lines)

    def _unbroken(self, found: Iterable[bytes]) -> Iterator[bytes]:
        """The same output, in larger pieces. It must end with a whole line."""
        last, pieces, size = b"\n", list[bytes](), 0
        for last in found:
            pieces.append(last)
            size += len(last)
            if size >= _SIZE:
                yield b"".join(pieces)
                pieces, size = [], 0
        if not last.endswith(b"\n"):
            raise self.fault("its output ends within a line")
        yield b"".join(pieces)

    def _failed(self, error: ProgramFailed) -> ConversionFault:
        """What is raised for a converter that failed: what it said, if it says something of its own kind."""
        said = self.converter.message.search(error.said)
        if said is None:
            text = f"{error}: {error.first_line()}" if error.first_line() else str(error)
            return self.fault(_plain(text))
        status = "" if error.status is None or error.status >= 0 else f" ({error})"
        return self.fault(_plain(said[2]) + status, int(said[1] or 0) or None)

    def refused(self, fault: LineFault, block: Block) -> ConversionFault:
        """What is raised if the library refuses a line of what the converter wrote."""
        line = bytes(block).replace(b"\r", b"\n").split(b"\n")[fault.line - 1]
        return self.fault(f"{fault.reason} {fault.name} in its N-Triples: {_plain(line.decode('utf-8', 'replace'))}")


class _Labels:
    """The labels of an input of rapper, which gives nodes without one `genid1` and so on, even if others have these."""

    def __init__(self, conversion: Conversion) -> None:
        self._conversion = conversion
        self._is_read = self._is_written = False

    def read(self, pieces: Iterator[bytes]) -> Iterator[bytes]:
        """The same pieces, in which such labels are noted."""
        end = b""
        for piece in pieces:
            self._is_read = self._is_read or b"genid" in piece or b"genid" in end + piece[:4]
            end = piece[-4:]
            yield piece

    def written(self, blocks: Iterable[Block]) -> Iterator[Block]:
        """The same N-Triples. Raises Unsuited if such labels are both in the input and in them."""
        for block in blocks:
            self._is_written = self._is_written or b"_:genid" in block
            yield block
        if self._is_read and self._is_written:
            raise Unsuited(self._conversion.path)


def _plain(text: str) -> str:
    """A message in one line, without what a terminal would obey, and not too long."""
    found = "".join(each if each.isprintable() else " " for each in text).strip()
    return found if len(found) <= _LONGEST else found[:_LONGEST] + " .."
