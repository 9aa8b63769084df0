"""A program of its own: N-Quads of what a parser of rdflib reads from standard input.

    python3 .../hdt/_rdflib_lines.py FORMAT BASE

Triples are written as they come and aren't kept. It runs apart from the program that builds, so the memory of the
parser goes with it; while it parses, nothing is fetched from the network, and no files but modules are opened. An error
is one line on standard error, `error: LINE: MESSAGE`, with 0 for a line that isn't known, and status 1.
"""

from __future__ import annotations

import logging
import os
import re
import sys
from typing import Any

if __name__ == "__main__":  # the folder of this file has another module `rdflib`
    _HERE = os.path.dirname(os.path.abspath(__file__))
    sys.path[:] = [it for it in sys.path if os.path.abspath(it) != _HERE]

import rdflib  # noqa: E402
from rdflib.graph import Graph  # noqa: E402
from rdflib.parser import Parser, create_input_source  # noqa: E402
from rdflib.plugins.parsers.ntriples import NTParser  # noqa: E402, F401  (loaded before files are closed to it)
from rdflib.store import Store  # noqa: E402
from rdflib.term import BNode, Literal, URIRef  # noqa: E402

_DEFAULT = URIRef("urn:x-hdt:default")
_MODULES = (".py", ".pyc", ".so")
_ESCAPES = {code: f"\\u{code:04X}" for code in [*range(0x21), *map(ord, '<>"{}|^`\\')]}
_TEXT_ESCAPES = str.maketrans({"\\": "\\\\", '"': '\\"', "\n": "\\n", "\r": "\\r", "\0": "\\u0000"})


_labels: dict[str, int] = {}  # of blank nodes: rdflib's own ones differ from run to run


def term(it: Any) -> str:
    """A term of rdflib as N-Quads. What is none there, as a formula or a variable, raises ValueError."""
    if isinstance(it, URIRef):
        return f"<{str.translate(it, _ESCAPES)}>"
    if isinstance(it, BNode):
        return f"_:b{_labels.setdefault(str(it), len(_labels))}"
    if isinstance(it, Literal):
        text = f'"{str.translate(it, _TEXT_ESCAPES)}"'
        if it.language:
            return f"{text}@{it.language}"
        return text if it.datatype is None else f"{text}^^<{str.translate(it.datatype, _ESCAPES)}>"
    raise ValueError(f"no RDF triple has a {type(it).__name__}")


class Lines(Store):
    """A store that writes each triple, and has none."""

    context_aware = True
    formula_aware = True
    graph_aware = True

    def __init__(self) -> None:
        super().__init__()  # type: ignore[no-untyped-call]
        self._prefixes: dict[str, Any] = {}

    def add(self, triple: Any, context: Any, quoted: bool = False) -> None:
        if quoted:
            raise ValueError("no RDF triple has a formula")
        words = [*map(term, triple)]
        if getattr(context, "identifier", None) not in (None, _DEFAULT):
            words.append(term(context.identifier))
        sys.stdout.write(" ".join(words) + " .\n")

    def triples(self, *_: Any, **__: Any) -> Any:
        return iter(())

    def __len__(self, _: Any = None) -> int:
        return 0

    def contexts(self, _: Any = None) -> Any:
        return iter(())

    def add_graph(self, _: Any) -> None:
        pass

    def bind(self, prefix: str, namespace: Any, *_: Any, **__: Any) -> None:
        self._prefixes[prefix] = namespace

    def namespace(self, prefix: str) -> Any:
        return self._prefixes.get(prefix)

    def prefix(self, _: Any) -> Any:
        return None

    def namespaces(self) -> Any:
        return iter(self._prefixes.items())


def refuse(event: str, given: Any) -> None:
    """An audit hook: what a document makes its parser fetch is refused."""
    if event in ("socket.connect", "socket.getaddrinfo", "urllib.Request"):
        raise PermissionError("it refers to another document, which is not fetched")
    if event == "open" and isinstance(given[0], str) and not given[0].endswith(_MODULES):
        raise PermissionError(f"it refers to the file {given[0]}, which is not read")


def line_of(error: BaseException) -> int:
    """The line of the document that an error is in; 0 if it isn't known."""
    if callable(number := getattr(error, "getLineNumber", None)):
        return int(number() or 0)
    if isinstance(number := getattr(error, "lineno", None), int):
        return number
    lines = getattr(error, "lines", None)  # (of the parser of Turtle; it counts from 0)
    return lines + 1 if isinstance(lines, int) else 0


def message_of(error: BaseException) -> str:
    """What an error says, in one line, without the text of the document."""
    said = getattr(error, "getMessage", lambda: getattr(error, "_why", None) or str(error))()
    return re.sub(r"\s+", " ", str(said))[:300] or type(error).__name__


def main(form: str, base: str) -> int:
    """Convert, and return the status."""
    rdflib.NORMALIZE_LITERALS = False
    logging.disable()
    sys.stdout = open(1, "w", 256 * 1024, encoding="utf-8", newline="\n")
    parser: Any = rdflib.plugin.get(form, Parser)()
    source = create_input_source(file=sys.stdin.buffer, publicID=base, format=form)
    graph = Graph(Lines(), identifier=_DEFAULT)
    sys.addaudithook(refuse)
    try:
        parser.parse(source, graph)
        sys.stdout.flush()
    except Exception as error:
        print(f"error: {line_of(error)}: {message_of(error)}", file=sys.stderr)
        return 1
    return 0


if __name__ == "__main__":
    sys.exit(main(*sys.argv[1:]))
