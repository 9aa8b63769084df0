"""The store: an HDT file behind the interface of `rdflib.store.Store`."""

from __future__ import annotations

import os
import tempfile
from collections.abc import Callable, Iterator, Sequence
from itertools import islice
from pathlib import Path
from typing import Any, Optional, TypeVar

import hdt
import rdflib
from hdt._forks import Locked
from hdt.rdflib._describe import described
from hdt.rdflib._file import OpenFile
from hdt.rdflib._parts import opened_at
from hdt.rdflib._terms import term_of
from hdt.rdflib._translation import translated
from rdflib.graph import Graph
from rdflib.plugins.sparql.evaluate import evalQuery
from rdflib.plugins.sparql.processor import SPARQLResult
from rdflib.store import VALID_STORE, Store

T = TypeVar("T")

_NO_CONTEXTS: tuple[()] = ()
_KEPT = 65_536  # terms, and strings, that are kept
_LOOK_UP = 8  # a search takes about as long as so many triples of a walk


class ReadOnly(TypeError):
    """A call that would change an HDT file, which never changes.

    >>> with HDTStore("graph.hdt") as store:
    ...     Graph(store).add((URIRef("u:a"), URIRef("u:p"), URIRef("u:c")))
    Traceback (most recent call last):
    hdt.rdflib.ReadOnly: an HDT file is read-only: copy its triples into a graph in memory, or build a new file
    """

    def __init__(self, *_: object, **__: object) -> None:
        super().__init__("an HDT file is read-only: copy its triples into a graph in memory, or build a new file")


class HDTStore(Store):
    """An HDT file as a store of rdflib, for `Graph(HDTStore(path))`. It is a context manager, which closes the file.

    `path` names the file, as in `open`; without it the store is closed. `identifier` is rdflib's, and is only kept.
    `scope` is put before the labels of blank nodes, so that those of two files are different nodes. With
    `exact` a literal is found by its own spelling alone; the module says what is equal else. `keep` is how many terms,
    and how many strings, are kept in memory, at most twice as many.

    Calls on a closed store raise ValueError; those that would change the file raise ReadOnly, a TypeError. The store
    isn't context aware: rdflib's ConjunctiveGraph and Dataset refuse it. Threads may share a store.

    >>> with HDTStore("graph.hdt") as store:
    ...     len(Graph(store)), (URIRef("u:a"), URIRef("u:p"), None) in Graph(store)
    (3, True)
    """

    def __init__(
        self,
        path: Optional[hdt.Path] = None,
        identifier: Any = None,
        *,
        scope: str = "",
        exact: bool = False,
        keep: int = _KEPT,
    ) -> None:
        """Open the file at `path`, if there is one. Raises what `open` raises."""
        self.identifier, self.scope, self.exact, self.keep = identifier, scope, exact, keep
        self.path: Optional[str] = None
        self._file: Optional[OpenFile] = None
        self._prefixes: dict[str, Any] = {}
        self._namespaces: dict[Any, str] = {}
        super().__init__(None)  # (given a path, it would open it itself)
        if path is not None:
            self.open(path)

    # ---- opening and closing

    def open(self, configuration: hdt.Path, create: bool = False) -> int:
        """Open the file at a path in place of what was open, and return rdflib's VALID_STORE. `create` does nothing.

        The path may be that of a folder that `hdt.parts.build` made. Raises hdt.Fault (a ValueError) if the file is
        none, hdt.parts.PartFault (another one) of a folder, and OSError; what was open stays open then. The whole file
        is validated, in a time that is linear in its size.

        >>> store = HDTStore()
        >>> store.open("graph.hdt"), len(store)
        (1, 3)
        """
        opened = opened_at(configuration, self.scope, self.exact, self.keep)
        self.close()
        self.path, self._file = os.path.abspath(os.fsdecode(configuration)), opened
        return VALID_STORE

    def close(self, commit_pending_transaction: bool = False) -> None:
        """Close the file and free its memory. A second call does nothing.

        >>> store = HDTStore("graph.hdt")
        >>> store.close()
        >>> len(store)
        Traceback (most recent call last):
        ValueError: the store is closed: open(path) opens it
        """
        if self._file is not None:
            self._file.graph.close()
            self._file = None

    def __enter__(self) -> HDTStore:
        return self

    def __exit__(self, *_: object) -> None:
        self.close()

    def __reduce__(self) -> tuple[Any, ...]:
        """Pickles and copies open the file again, by its path."""
        path = self.path if self._file else None
        options = {"scope": self.scope, "exact": self.exact, "keep": self.keep}
        return _reopened, (type(self), path, self.identifier, options, self._prefixes)

    @property
    def opened(self) -> OpenFile:
        """The open file with what is kept of it, for the evaluator of queries. Raises ValueError once closed."""
        if self._file is None:
            raise ValueError("the store is closed: open(path) opens it")
        return self._file

    @property
    def hdt(self) -> hdt.Graph:
        """The open file as a graph of the package `hdt`. Raises ValueError once closed.

        >>> HDTStore("graph.hdt").hdt
        <hdt.Graph of 3 triples: graph.hdt>
        """
        return self.opened.graph

    # ---- searching

    def triples(self, triple_pattern: Sequence[Any], context: Any = None) -> Iterator[Any]:
        """The triples that match a pattern of three terms, of which None is any, each with no contexts.

        A given term is in them as it was given. Raises hdt.NotATerm if a string of the file isn't a term. The first
        triple comes at once; portions of up to 4,096 are looked up together. The time is linear in the triples.

        >>> [triple for triple, _ in HDTStore("graph.hdt").triples((None, URIRef("u:q"), None))]
        [(rdflib.term.URIRef('u:a'), rdflib.term.URIRef('u:q'), rdflib.term.Literal('x'))]
        """
        file = self.opened
        searches = file.searches(triple_pattern)
        if None in triple_pattern:
            return ((found, _NO_CONTEXTS) for found in file.triples(triple_pattern, searches))
        return iter([(tuple(triple_pattern), _NO_CONTEXTS)] if file.has(searches) else [])

    def search(
        self, pattern: Sequence[Any] = (None, None, None), limit: Optional[int] = None, offset: int = 0
    ) -> tuple[Iterator[tuple[Any, Any, Any]], int]:
        """The triples that match a pattern, from the one at `offset`, at most `limit`; and how many match in all.

        The count is that of `count`. Raises ValueError for a negative number. What is before `offset` is passed over
        without making terms, in linear time at most.

        >>> found, count = HDTStore("graph.hdt").search((None, URIRef("u:p"), None), limit=1, offset=1)
        >>> [str(subject) for subject, _, _ in found], count
        (['u:b'], 2)
        """
        if offset < 0 or (limit is not None and limit < 0):
            raise ValueError("a limit or an offset is negative")
        file = self.opened
        searches = file.searches(pattern)
        return islice(file.triples(pattern, searches, offset), limit), file.count(searches)

    def count(self, pattern: Sequence[Any] = (None, None, None)) -> int:
        """How many triples match a pattern, without making terms.

        It is exact, but for a literal with several spellings in the file: a triple with each of two counts twice. The
        time is at most that of a walk over the triples, and often less. Raises ValueError once closed.

        >>> HDTStore("graph.hdt").count((None, URIRef("u:p"), None))
        2
        """
        file = self.opened
        return file.count(file.searches(pattern))

    def triples_choices(self, triple: Sequence[Any], context: Any = None) -> Iterator[Any]:
        """`triples` with a list, tuple or set of terms at one place; an empty one is any term, as for rdflib.

        Raises ValueError for two of them. Each choice is searched for, or all triples of the pattern without it are
        looked at, whatever takes less time.

        >>> found = HDTStore("graph.hdt").triples_choices((None, [URIRef("u:p"), URIRef("u:none")], None))
        >>> [str(object) for (_, _, object), _ in found]
        ['u:b', 'u:a']
        """
        lists = [at for at, term in enumerate(triple) if isinstance(term, (list, tuple, set, frozenset))]
        if len(lists) > 1:
            raise ValueError("there are choices at more than one place")
        if not lists:
            return self.triples(triple)
        return self._chosen(list(triple), lists[0], dict.fromkeys(triple[lists[0]]))

    def _chosen(self, pattern: list[Any], at: int, choices: dict[Any, None]) -> Iterator[Any]:
        pattern[at] = None
        if not choices:
            yield from self.triples(pattern)
        elif len(choices) > 4 and self.count(pattern) < _LOOK_UP * len(choices):
            yield from (found for found in self.triples(pattern) if found[0][at] in choices)
        else:
            for choice in choices:
                yield from self.triples([*pattern[:at], choice, *pattern[at + 1:]])

    def __len__(self, context: Any = None) -> int:
        """How many triples the file has, in constant time."""
        return len(self.hdt)

    def __bool__(self) -> bool:
        return True

    def contexts(self, triple: Any = None) -> Iterator[Any]:
        """No contexts, as the store has none."""
        return iter(_NO_CONTEXTS)

    def header(self) -> Graph:
        """The header of the file as a new graph in memory, which may be changed.

        The blank nodes have the labels of the header, behind `scope`. Raises hdt.LineFault if the header isn't
        N-Triples, which opening doesn't check, and OSError if no temporary file can be written. The time is linear
        in the header.

        >>> header = HDTStore("graph.hdt").header()
        >>> str(header.value(URIRef("http://a/"), URIRef("http://rdfs.org/ns/void#triples")))
        '3'
        """
        text, found = self.hdt.header, Graph()
        with tempfile.TemporaryDirectory() as folder:
            document, built = Path(folder, "header.nt"), Path(folder, "header.hdt")
            document.write_bytes(text)
            try:
                hdt.build(document, built)
            except hdt.NoTriples:
                return found
            with hdt.open(built) as graph:
                for s, p, o in graph:
                    found.add((term_of(s, self.scope), term_of(p), term_of(o, self.scope)))
        return found

    def query(self, query: Any, initNs: Any, initBindings: Any, queryGraph: Any, **kwargs: Any) -> Any:
        """Evaluate the text of a SPARQL query with rdflib's engine, but with its literals as they are spelled.

        rdflib itself reads `1e0` as `1.0` and `2020-01-01T00:00:00Z` with `+00:00`, which finds nothing in a file that
        has the text of the query. DESCRIBE, which rdflib 6.1.1 can't evaluate, gives the triples of each resource as
        their subject, and those of the blank nodes that they lead to. A prepared query is left to rdflib: it was read
        before. Raises what rdflib raises.

        >>> Graph(HDTStore("graph.hdt")).query('ASK { ?s ?p "x" }').askAnswer
        True
        """
        if not isinstance(query, str):
            raise NotImplementedError  # rdflib's Graph.query evaluates it
        base, graph = kwargs.get("base"), Graph(self, queryGraph)
        prepared, named = exact_literals.made_by(lambda: translated(query, base, initNs))
        if named is not None:
            return SPARQLResult(described(graph, prepared, named, initBindings, base))
        return SPARQLResult(evalQuery(graph, prepared, initBindings, base))

    # ---- namespaces, which are kept in memory only

    def bind(self, prefix: str, namespace: Any, override: bool = True) -> None:
        """Bind a prefix to a namespace in this store, not in the file. Constant time.

        >>> graph = Graph(HDTStore("graph.hdt"))
        >>> graph.bind("u", "u:")
        >>> len(graph.query("SELECT ?s { ?s u:p ?o }"))
        2
        """
        if not override and (prefix in self._prefixes or namespace in self._namespaces):
            return
        if (old := self._namespaces.pop(namespace, None)) is not None:
            del self._prefixes[old]
        if (gone := self._prefixes.pop(prefix, None)) is not None:
            del self._namespaces[gone]
        self._prefixes[prefix], self._namespaces[namespace] = namespace, prefix

    def namespace(self, prefix: str) -> Any:
        """The namespace of a prefix, or None."""
        return self._prefixes.get(prefix)

    def prefix(self, namespace: Any) -> Optional[str]:
        """The prefix of a namespace, or None."""
        return self._namespaces.get(namespace)

    def namespaces(self) -> Iterator[tuple[str, Any]]:
        """The prefixes with their namespaces."""
        return iter(list(self._prefixes.items()))

    # ---- what would change the file (commit and rollback do nothing, as there are no transactions)

    def add(self, *_: Any, **__: Any) -> None:
        """Raises ReadOnly."""
        raise ReadOnly

    addN = remove = create = destroy = add_graph = remove_graph = update = add


def _reopened(kind: Any, path: Any, identifier: Any, options: dict[str, Any], prefixes: dict[str, Any]) -> HDTStore:
    store: HDTStore = kind(path, identifier, **options)
    for prefix, namespace in prefixes.items():
        store.bind(prefix, namespace)
    return store


class _ExactLiterals(Locked):
    """Calls during which rdflib makes literals with the text that they are given.

    The flag is rdflib's, and one for all threads: literals that other threads make meanwhile are exact too.
    """

    def __init__(self) -> None:
        super().__init__()
        self._before: Optional[bool] = None  # the flag, while a call runs

    def made_by(self, call: Callable[[], T]) -> T:
        """What a call returns."""
        with self._lock:
            self._before = rdflib.NORMALIZE_LITERALS
            try:
                rdflib.NORMALIZE_LITERALS = False
                return call()
            finally:
                self._restore()

    def _restore(self) -> None:
        if self._before is not None:
            rdflib.NORMALIZE_LITERALS, self._before = self._before, None

    def _is_left_in_use(self) -> None:
        self._restore()


exact_literals = _ExactLiterals()
