"""Verifies, searches, builds and rewrites RDF HDT files, by the proved library libhdt.

    import hdt

    hdt.build("graph.nt", "graph.hdt", base="http://example.org/graph")
    with hdt.open("graph.hdt") as graph:
        print(len(graph), "triples of", graph.count("subject"), "subjects")
        for subject, predicate, object in graph.find(p="http://example.org/name"):
            print(subject, object)

A term is a dictionary string, a `str`: an IRI without brackets (`http://a/b`), a blank node with its label (`_:b`), a
literal with its quotes and without escapes, followed by nothing, a language tag or a datatype (`"x"`, `"x"@en`,
`"1"^^<http://www.w3.org/2001/XMLSchema#integer>`). Calls also take a `Term`, which makes N-Triples of such a string and
back, or a URIRef, BNode or Literal of rdflib. In a pattern None matches any term; `""`, `"?"` and `<http://a/b>`, with
brackets, raise ValueError.

A role is `"subject"`, `"predicate"` or `"object"`; another word raises ValueError. The strings of a role have IDs from
1, by which `Graph.ids` finds triples. Older names, as `Graph.find_ids`, still work; `hdt.compat` has pyHDT's class.
Threads may share a graph. Files of 64 MiB and more are mapped: they must not change while in use (`open` says more).

Results and exceptions have a `help` of their own: `Counts`, `Ids`, `IdArray`; `Fault` (not a valid HDT file),
`LineFault` (not N-Triples), `ConversionFault` (not another syntax), `NoTriples` and `NotATerm`, each a ValueError;
`NoConverter`. MemoryError, and OSError of files, are Python's. After an exception a graph is as it was. `__version__`
is the version of the package, `LIBHDT_VERSION` that of the library, as "1.4".
"""

from __future__ import annotations

from ._build import build
from ._calls import Counts, Path, Role
from ._faults import ConversionFault, Fault, LineFault, NoConverter, NotATerm, NoTriples
from ._files import rewrite, verify
from ._graph import Graph
from ._id_searches import Ids
from ._ids import IdArray
from ._library import VERSION
from ._merging import merge
from ._metadata import metadata
from ._opening import open
from ._terms import Term

__all__ = [
    "ConversionFault",
    "Counts",
    "Fault",
    "Graph",
    "IdArray",
    "Ids",
    "LineFault",
    "NoConverter",
    "NoTriples",
    "NotATerm",
    "Path",
    "Role",
    "Term",
    "build",
    "merge",
    "metadata",
    "open",
    "rewrite",
    "verify",
]
__version__ = "2.1.0"
LIBHDT_VERSION = VERSION

for _name in __all__:
    if _name not in ("Path", "Role"):
        globals()[_name].__module__ = __name__  # (so they are shown and pickled by their public names)

_APART = {"Counts", "IdArray", "Ids", "__dir__"}
_APART |= {name for name, it in globals().items() if isinstance(it, type) and issubclass(it, Exception)}


def __dir__() -> list[str]:
    """All names, but for results and exceptions, which have a `help` of their own."""
    return [name for name in globals() if name not in _APART]
