"""A store of rdflib over an HDT file, which is searched in place and never changes.

    >>> from rdflib import Graph
    >>> from hdt.rdflib import HDTStore, planned
    >>> with HDTStore("graph.hdt") as store, planned():
    ...     graph = Graph(store)
    ...     for row in graph.query("SELECT ?s ?o { ?s <u:p> ?o }"):
    ...         print(row.s, row.o)
    u:a u:b
    u:b u:a

Within `planned()` queries over such stores are evaluated over the IDs of the file: terms are made only for answers, and
if an expression needs them. `plan_sparql()` does so from then on. Without either, rdflib evaluates them. SERVICE and
GRAPH are left to it, and with them what they are part of.

`Graph("HDT")` and its `open(path)` do it by name. It needs rdflib, of 6.1.1 or newer (tested with 6.1.1):
`pip install './python[rdflib]'` in a clone.

Terms are those of the file. A literal keeps its text: `"01"` of xsd:integer doesn't become `1`. A blank node keeps its
label, behind `scope`. Literals are equal as follows, where a pattern is asked for and where a join compares them:
language tags without regard to case, as rdflib does, and a plain literal with one of xsd:string, as RDF 1.1 does. A
triple that is found in two spellings of a given term comes once. Two different spellings in a file are two terms
all the same: a join over them may give a solution once or twice, by its order. With `HDTStore(path, exact=True)`
literals are the same only if their strings are. (In DISTINCT, GROUP BY, FILTER and where a join is made by a table,
rdflib's own equality holds: tags of either case are the same, a plain literal isn't one of xsd:string.)

The answers of planned queries are those of the recommendation, SPARQL 1.1; if that leaves it open, or allows more, they
are rdflib's. rdflib 6.1.1 itself differs from it in these: `p*` gives the first node of a cycle twice; a literal that
is no value of its type, as "x" of xsd:integer, breaks SUM, AVG, MIN, MAX and ORDER BY; `isNumeric` is true of it, and
so is a boolean of this kind; `IN` compares terms, not values; `false && error` is an error; GROUP BY has a group of no
solutions. In SUM and AVG a value that is no number is an error, so there is no sum; one that is lacking is passed over,
as by rdflib. EXISTS within EXISTS and DESCRIBE, which rdflib gets wrong, are right for the text of a query without
`planned()`, too. `!(^p)` can't be evaluated: rdflib's parser loses its IRI.

Costs: paths `*`, `+` and `?` take from each start at most one step for each triple and each part of the path, without
recursion. A join keeps up to 100,000 triples; ORDER BY, DISTINCT, GROUP BY and the right side of a join that is made by
a table are kept in memory.

Errors: `ReadOnly`, a TypeError, for what would change the file; `Fault` of a file that is not valid; `NotATerm` for a
string of the file that is no term; ValueError once the store is closed. `Fault` and `NotATerm` are those of `hdt`.
"""

from __future__ import annotations

try:
    import rdflib
except ImportError as why:
    raise ImportError("hdt.rdflib needs rdflib: pip install 'rdflib>=6.1.1'") from why

from hdt import Fault, NotATerm
from hdt._rdflib_terms import string_of
from hdt.rdflib._plan import plan_sparql, planned
from hdt.rdflib._store import HDTStore, ReadOnly
from hdt.rdflib._terms import Term, term_of

__all__ = ["Fault", "HDTStore", "NotATerm", "ReadOnly", "Term", "plan_sparql", "planned", "string_of", "term_of"]

for _it in (HDTStore, ReadOnly, plan_sparql, planned, string_of, term_of):
    _it.__module__ = __name__  # (so they are shown and pickled by their public names)

rdflib.plugin.register("HDT", rdflib.store.Store, "hdt.rdflib", "HDTStore")
