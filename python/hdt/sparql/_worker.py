"""A process that answers queries, one after another: `python3 -m hdt.sparql._worker MEGABYTES`.

It writes a line once it is ready. Then it reads requests from its standard input, a line of JSON for each, and writes
to its standard output a line when it has one, then a line of JSON with the length of the body, and the body.
"""

from __future__ import annotations

import json
import os
import resource
import sys
from typing import Any

from hdt._files import MANIFEST
from hdt._web.identity import Identity, identity_of
from hdt._web.log import escaped, traced
from hdt._web.request import Refusal, bad
from hdt.rdflib import HDTStore, plan_sparql
from hdt.rdflib.queries import described, exact_literals, parts_of, translated
from hdt.sparql._answers import Written, media_of, written
from hdt.sparql._description import description
from pyparsing import ParseBaseException
from rdflib.graph import Graph
from rdflib.plugins.sparql import evaluate, processor
from rdflib.plugins.sparql.sparql import SPARQLError

_evaluated: Any = evaluate.evalQuery  # (which has no types)
_result: Any = processor.SPARQLResult
_LONGEST = 1_000  # characters of an error
_FORMS = {"SelectQuery": "SELECT", "AskQuery": "ASK", "ConstructQuery": "CONSTRUCT", "DescribeQuery": "DESCRIBE"}


def _identity(path: str) -> Identity:
    """What distinguishes a file, or the manifest of a folder of parts, from another one. Raises OSError."""
    return identity_of(os.stat(os.path.join(path, MANIFEST) if os.path.isdir(path) else path))


class Stores:
    """The open files by their paths. A file that replaces one is taken up at the next query."""

    def __init__(self) -> None:
        self._stores: dict[str, tuple[Identity, HDTStore]] = {}
        self._refused: dict[str, Identity] = {}  # the files that are damaged, which are not tried again

    def store(self, path: str) -> HDTStore:
        """The store of a file, or of the one that was there before if it can't be opened. Raises Refusal."""
        try:
            self._look(path)
        except (OSError, ValueError) as error:
            print(f"{escaped(path)} can't be opened: {error}", file=sys.stderr, flush=True)
        if path not in self._stores:
            raise Refusal("503 Service Unavailable", "The file can't be opened now.", ("Retry-After", "60"))
        return self._stores[path][1]

    def _look(self, path: str) -> None:
        """Open the file if it is another one than before. Raises OSError, and ValueError if it is damaged."""
        known, identity = self._stores.get(path), _identity(path)
        if identity in (known and known[0], self._refused.get(path)):
            return
        try:
            opened = HDTStore(path)
        except ValueError:
            self._refused[path] = identity
            raise
        if known:
            known[1].close()
        self._stores[path] = identity, opened


def checked(query: Any) -> None:
    """Raise Refusal for a query that would fetch something."""
    if query.algebra.datasetClause:
        raise bad("FROM is not answered: the data is that of this address.")
    if any(part.name == "ServiceGraphPattern" for part in parts_of(query.algebra)):
        raise bad("SERVICE is not answered: a query fetches nothing.")


def answer(store: HDTStore, text: str, accept: str, most: int) -> Written:
    """The answer of a query. Raises Refusal."""
    try:
        query, named = exact_literals.made_by(lambda: translated(text, None, {}))
    except ParseBaseException as error:
        raise bad(f"It is no query: {error}") from None
    except Exception as error:  # (rdflib's of a prefix that isn't declared)
        raise bad(f"It can't be evaluated: {error}") from None
    checked(query)
    media = media_of(_FORMS[query.algebra.name], accept)
    graph = Graph(store)
    try:
        found = described(graph, query, named, {}, None) if named is not None else _evaluated(graph, query, {}, None)
        return written(_result(found), media, most)
    except (Refusal, MemoryError):
        raise
    except (SPARQLError, RecursionError) as error:
        raise bad(f"It can't be evaluated: {error}") from None
    except Exception as error:
        print(traced(error), file=sys.stderr, flush=True)
        raise bad(f"It can't be evaluated: {error}") from None


def reply(stores: Stores, request: dict[str, Any]) -> tuple[dict[str, Any], bytes]:
    """What is written for a request."""
    try:
        store, accept = stores.store(request["file"]), request["accept"]
        if "endpoint" in request:
            found = description(store.opened.graph, request["endpoint"], accept)
        else:
            found = answer(store, request["query"], accept, request["most"])
        return {"status": "200 OK", "media": found.media, "cut": found.is_cut, "headers": []}, found.body
    except Refusal as error:
        refusal = error
    except MemoryError:
        refusal = Refusal("503 Service Unavailable", "The query needs too much memory.")
    text = f"{refusal.status[4:]}: {refusal.reason[:_LONGEST]}\n"
    return {"status": refusal.status, "media": "", "cut": False, "headers": refusal.headers}, text.encode()


def main() -> None:
    """Answer until the input ends."""
    most = int(sys.argv[1]) * 1024 * 1024
    resource.setrlimit(resource.RLIMIT_AS, (most, most))
    resource.setrlimit(resource.RLIMIT_CORE, (0, 0))
    plan_sparql()
    stores, out = Stores(), sys.stdout.buffer
    out.write(b"ready\n")
    out.flush()
    for line in sys.stdin.buffer:
        out.write(b"taken\n")
        out.flush()
        head, body = reply(stores, json.loads(line))
        out.write(json.dumps({**head, "length": len(body)}).encode() + b"\n" + body)
        out.flush()


if __name__ == "__main__":
    main()
